"""How words and files come in: each number, name and file that the package takes from a user or from a host's folder goes through here.

What a user names may be a link or a pipe, and is read to a limit. What stands in a host's folder was made by others: only plain files are
opened there, and no link leads out of the folder."""

import os
import re
import stat
import sys
from typing import Optional

from .errors import BadFile, BadWords

MOST_BYTES = 1 << 20  # of a table, a topology or an image
MOST_TEXT = 1 << 26  # of a text that is edited, or a file of poison lists
FILES = ("table.cedt", "topo.toml", "image.bin")  # of a folder that cxl-capture made
BLOCK = 1 << 14  # bytes that are read at once
LARGEST = (1 << 64) - 1
UNITS = {"K": 10, "M": 20, "G": 30, "T": 40}
NUMBER = re.compile("0x[0-9A-Fa-f]+|[0-9]+")
AMOUNT = re.compile("([0-9]+)([KMGTkmgt])(?:iB)?")
KINDS = ((stat.S_ISDIR, "is a folder"), (stat.S_ISFIFO, "is a pipe"), (stat.S_ISSOCK, "is a socket"), (stat.S_ISLNK, "is a link"),
         (lambda mode: stat.S_ISCHR(mode) or stat.S_ISBLK(mode), "is a device"))


# ---- Words.

def number(word: str, most: int = LARGEST) -> int:
    """A decimal number, or a hexadecimal one after 0x, as the program reads them."""
    if not NUMBER.fullmatch(word):
        hint = "; in hexadecimal 0x is missing" if re.fullmatch("[0-9A-Fa-f]+", word) else "; sizes are bytes, as 0x40000000 for 1 GiB"
        raise BadWords(f"{quoted(word)} is no number{hint}", 1, "number", word)
    digits = (word[2:] if word[:2] == "0x" else word).lstrip("0") or "0"
    value = int(digits, 16 if word[:2] == "0x" else 10) if len(digits) <= 20 else most + 1
    if value > most:
        raise BadWords(f"{quoted(word)} is above {most:#x}", 1, "number", word)
    return value


def amount(word: str, most: int = LARGEST) -> int:
    """A number of bytes: as `number`, or a decimal number with K, M, G or T behind it, as 512M."""
    found = AMOUNT.fullmatch(word)
    if not found:
        return number(word, most)
    value = number(found[1], most) << UNITS[found[2].upper()]
    if value > most:
        raise BadWords(f"{quoted(word)} is above {most:#x}", 1, "number", word)
    return value


def single(word: str) -> str:
    """A name that is to stand in a line, as one word of it."""
    if len(word.split()) != 1 or word.split() != [word]:
        raise BadWords(f"{quoted(word)} is no word", 1, "name", word)
    return word


def address(value: int) -> int:
    """A number of 64 bits, as a host address is one."""
    if not 0 <= value <= LARGEST:
        raise BadWords(f"{value:#x} is no number of 64 bits" if abs(value) < 1 << 200 else "that is no number of 64 bits", 1, "number")
    return value


def bytes_of(line: str) -> bytes:
    """The bytes of a line of a script as it was typed, also where they are no UTF-8."""
    if "\n" in line:
        raise BadWords("a line of a session has no line feed within it", 1, "line")
    try:
        return line.encode("utf-8", "surrogateescape")
    except UnicodeEncodeError:
        return line.encode("utf-8", "replace")


# Which words of a line of a script are numbers of bytes, counted from its verb.
BYTES_AT = {"create": 3, "range": 2, "spread": 2, "load": 2}


def in_bytes(line: str) -> str:
    """A line of a script in which numbers of bytes with a unit, as 1G or gran=4K, are those that the program reads."""
    words = line.split()
    first = 1 if words[:1] == ["begin"] else 0
    verb = words[first] if len(words) > first else ""
    if verb not in BYTES_AT or not AMOUNT.search(line):
        return line
    at, made = first + BYTES_AT[verb], list(words)
    for place, word in enumerate(words[first + 1:], first + 1):
        front, size = ("gran=", word[5:]) if verb == "create" and word.startswith("gran=") else ("", word)
        if AMOUNT.fullmatch(size) and (place == at or front):
            made[place] = front + (str(amount(size)) if front else f"{amount(size):#x}")
    return line if made == words else " ".join(made)


def quoted(word: str, most: int = 60) -> str:
    """A word as it was typed, in a message."""
    return repr(word if len(word) <= most else word[:most] + "..")


def printable(text: str) -> str:
    """A name on one line, without what would move a terminal's cursor or is no character."""
    return "".join(sign if sign.isprintable() else "?" for sign in text)


# ---- Files.

def why_not(fault: Exception) -> str:
    """What a failed call says, in a few words."""
    if isinstance(fault, IsADirectoryError):
        return "is a folder"
    return getattr(fault, "strerror", None) or str(fault)


def kind_of(mode: int) -> str:
    """What stands in the place of a plain file."""
    return next((words for is_such, words in KINDS if is_such(mode)), "is no file")


def up_to(end: int, name: str, most: int, is_plain: bool = False) -> bytes:
    """What an open file holds, which may be so many bytes at the most. A plain file gives all that is asked, or ends."""
    parts, left = [], most + 1
    while left > 0:
        asked = min(left, BLOCK)
        part = os.read(end, asked)
        parts.append(part)
        left -= len(part)
        if not part or is_plain and len(part) < asked:
            break
    if left <= 0:
        raise BadFile(f"{name}: more than {most} bytes", 12, "too large", name)
    return b"".join(parts)


def read_file(name: str, most: int = MOST_BYTES) -> bytes:
    """The bytes of a file that a user names, or those of standard input for `-`."""
    try:
        if name == "-":
            if sys.stdin is None:
                raise BadFile("-: standard input is closed", 2, "cannot read", name)
            return up_to(sys.stdin.fileno(), name, most)
        end = os.open(name, os.O_RDONLY | os.O_CLOEXEC | os.O_NOCTTY)
        try:
            return up_to(end, name, most)
        finally:
            os.close(end)
    except (OSError, ValueError) as fault:
        raise BadFile(f"{name}: {why_not(fault)}", 2, "cannot read", name) from None


def read_within(folder: str, name: str, most: int = MOST_BYTES, mode: int = 0) -> bytes:
    """The bytes of a file of a host's folder: of a plain one, or of a link to one that is in the folder, too. Nothing is waited for. What
    is in its place is looked at where `mode` does not say it."""
    path = f"{folder}/{name}"
    try:
        mode = mode or os.lstat(path).st_mode
        at = within(folder, path) if stat.S_ISLNK(mode) else path
        if at != path:
            mode = os.lstat(at).st_mode
        if not stat.S_ISREG(mode):
            raise BadFile(f"{path}: {kind_of(mode)}", 2, "cannot read", path)
        end = os.open(at, os.O_RDONLY | os.O_CLOEXEC | os.O_NOCTTY | os.O_NONBLOCK | os.O_NOFOLLOW)
        try:
            return up_to(end, path, most, True)
        finally:
            os.close(end)
    except (OSError, ValueError) as fault:
        raise BadFile(f"{path}: {why_not(fault)}", 2, "cannot read", path) from None


def within(folder: str, path: str) -> str:
    """Where a link of a folder leads, which has to be in the folder."""
    top, at = os.path.realpath(folder), os.path.realpath(path)
    if os.path.commonpath((top, at)) != top:
        raise BadFile(f"{path}: is a link out of its folder", 2, "cannot read", path)
    return at


def text_within(folder: str, name: str) -> Optional[str]:
    """A text of a host's folder, or None where there is none that can be read."""
    try:
        return read_within(folder, name).decode("utf-8", "replace")
    except BadFile:
        return None
