"""What a subcommand prints: JSON, aligned text for people at a terminal, or plain lines of words, as the program's own are."""

import os
import sys
from dataclasses import dataclass, field
from typing import Callable

from ..incoming import printable

SCHEMA = "cxldesk/1"  # of python/cxlplan/schema.json; the number rises where a field changes its meaning or goes


class Hex(int):
    """An address, a size or a word of registers."""

    def __str__(self) -> str:
        return f"{int(self):#x}"


class Size(Hex):
    """A number of bytes: at a terminal in the largest unit that divides it."""


def size_words(size: int) -> str:
    """A number of bytes in the largest unit that divides it."""
    for bits, unit in ((40, "TiB"), (30, "GiB"), (20, "MiB"), (10, "KiB")):
        if size and size % (1 << bits) == 0:
            return f"{size >> bits} {unit}"
    return f"{int(size)} B"


def shown(value, aligned: bool) -> str:
    if value is None:
        return "-"
    if isinstance(value, bool):
        return "yes" if value else "no"
    if isinstance(value, Size) and aligned:
        return size_words(value)
    if isinstance(value, (tuple, list)):
        return ",".join(shown(item, aligned) for item in value) or "none"
    return str(value)


@dataclass
class Answer:
    """What a subcommand has to say: facts for JSON, and parts of text. `status` is the exit status."""
    facts: dict
    status: int = 0
    parts: list = field(default_factory=list)

    def line(self, text: str = "") -> "Answer":
        """A line as it stands, in both texts."""
        self.parts.append(text)
        return self

    def lines(self, texts: list) -> "Answer":
        """Lines as they stand."""
        self.parts += texts
        return self

    def rows(self, kind: str, rows: list) -> "Answer":
        """Rows of one kind, each a dictionary from a field's name to its value."""
        if rows:
            self.parts.append((kind, rows))
        return self

    def either(self, lines: list, aligned: Callable) -> "Answer":
        """Many lines, which at a terminal are another answer's tables."""
        self.parts.append((lines, aligned))
        return self

    def text(self, aligned: bool) -> str:
        lines: list = []
        for part in self.parts:
            if isinstance(part, str):
                lines.append(part)
            elif callable(part[1]):
                lines += part[1]().text(True).split("\n")[:-1] if aligned else part[0]
            elif aligned:
                lines += ([""] if lines and lines[-1] else []) + table_lines(*part) + [""]
            else:
                lines += [plain_line(part[0], row) for row in part[1]]
        while lines and not lines[-1]:
            lines.pop()
        return "".join(line + "\n" for line in lines)


def plain_line(kind: str, row: dict) -> str:
    """A row as words: its kind, then each field's name and value. A name that is empty is left out."""
    words = [kind]
    for name, value in row.items():
        if value not in (None, "", ()):
            words += [name] * (not name.startswith(("_", kind))) + [shown(value, False)]
    return " ".join(words)


HEADINGS = {"free": "Free", "memory": "Memory", "largest": "Largest", "down": "Way", "host": "Host addresses"}  # of rows, where not by an s


def table_lines(kind: str, rows: list) -> list:
    """Rows under each other, with a line of headings."""
    names = [name for name in rows[0] if any(row.get(name) not in (None, "") for row in rows)]
    cells = [[name.lstrip("_") for name in names]] + [["" if row.get(name) in (None, "") else shown(row[name], True)
                                                         for name in names] for row in rows]
    right = [all(is_number(line[place]) for line in cells[1:]) for place in range(len(names))]
    widths = [max(len(line[place]) for line in cells) for place in range(len(names))]
    return [HEADINGS.get(kind, kind.capitalize() + "s")] + ["  " + "  ".join(
        cell.rjust(width) if is_right else cell.ljust(width)
        for cell, width, is_right in zip(line, widths, right)).rstrip() for line in cells]


def is_number(text: str) -> bool:
    return not text or text[0].isdigit() and text.split(" ")[-1] not in ("",)


def tell(text: str) -> bool:
    """Prints a text, and gives whether it could be; quietly, where the reader of a pipe is gone."""
    try:
        if sys.stdout is None:
            raise OSError(9, "is closed")
        sys.stdout.write(text)
        sys.stdout.flush()
    except OSError as fault:
        if ended_output(fault) == NO_OUTPUT:
            raise SystemExit(NO_OUTPUT) from None
        return False
    return True


NO_OUTPUT = 6  # the exit status where standard output takes nothing


def ended_output(fault: OSError) -> int:
    """Ends the output after a fault, and gives the exit status: quietly where the reader of a pipe is gone, else with a line."""
    if sys.stdout is not None:
        os.dup2(os.open(os.devnull, os.O_WRONLY), sys.stdout.fileno())  # else the rest is tried once more at the end
    if isinstance(fault, BrokenPipeError):
        return 1
    complain(f"standard output: {fault.strerror}")
    return NO_OUTPUT


def hold_ends() -> None:
    """Has the places of the standard input and outputs taken where they are closed, so that no file comes to stand in them."""
    for end in range(3):
        try:
            os.fstat(end)
        except OSError:
            os.open(os.devnull, os.O_RDWR)


def complain(text: str) -> None:
    """A line on standard error, where there is one."""
    try:
        if sys.stderr is not None:
            print(printable(f"cxldesk: {text}"), file=sys.stderr, flush=True)
    except OSError:  # there is nobody left to tell, and at the end it is not tried again
        os.dup2(os.open(os.devnull, os.O_WRONLY), sys.stderr.fileno())


def as_plain(fact):
    """A fact, or what is told late, as JSON has it."""
    return fact.as_dict()


def as_json(command: str, facts: dict) -> str:
    import json
    return json.dumps({"schema": SCHEMA, "command": command, **facts}, indent=1, default=as_plain) + "\n"
