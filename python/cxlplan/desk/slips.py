"""Typical slips: what was probably meant by words that are refused."""

from typing import Optional

from ..errors import BadImage, BadTable, BadTopology, CxlError, NoEngine, Refusal
from ..host import Host
from ..incoming import AMOUNT, NUMBER, number, quoted
from .output import size_words

KINDS, GRAIN = ("ram", "pmem"), 256 << 20  # bytes, of which sizes are multiples
HEADS = ((b"CEDT", "a table"), (b"CXLHDM01", "an image"))  # how files begin


# ---- Files.

def what_is(data: bytes) -> str:
    """What a file is by its first bytes."""
    return next((what for head, what in HEADS if data.startswith(head)), "a text")


def in_order(host: Host) -> Host:
    """The host, where none of its files is plainly another one of them."""
    kinds = [what_is(it.data) for it in (host.table, host.topology, host.image) if it is not None]
    for place, (file, wanted, kind, status) in enumerate(((host.table, "a table", BadTable, 3), (host.topology, "a text", BadTopology, 4),
                                                          (host.image, "an image", BadImage, 10))):
        if file is not None and kinds[place] != wanted and wanted in kinds:
            raise kind(f"{file.name}: is {kinds[place]} and not {wanted}; the order is CEDT TOPO IMAGE", status, "order")
    return host


# ---- Names.

def nearest(name: str, names: list) -> Optional[str]:
    """The name that is most like another one."""
    from difflib import get_close_matches
    return next(iter(get_close_matches(name, names, 1, 0.6)), None)


def names_of(host: Host, part: str) -> list:
    """The names of a host's endpoints or regions, where they are told."""
    try:
        return [it.name for it in getattr(host, part)]
    except (NoEngine, CxlError):
        return []


def like(name: str, names: list) -> str:
    """What is said where a name is none of these."""
    found = nearest(name, names)
    if found:
        return f"{found} is the nearest"
    return f"there {'is' if len(names) == 1 else 'are'} {', '.join(names)}" if 0 < len(names) <= 8 else ""


# ---- `where`.

def of_where(host: Host, rest: list, refused: Refusal) -> Refusal:
    """A refusal with what may be meant."""
    refused.hint = where_hint(host, rest, refused)
    return refused


def where_hint(host: Host, rest: list, refused: Refusal) -> str:
    if refused.cause == "no such endpoint":
        return like(rest[0], names_of(host, "endpoints"))
    if refused.cause != "unmapped":
        return ""
    value, regions = number(rest[-1]), host.regions
    if len(rest) > 1 and any(it.base <= value < it.end for it in regions):
        return f"{value:#x} is a host address, of which the question is: HOST {value:#x}"
    if len(rest) == 1 and regions and value < min(it.base for it in regions):
        digits = 0 if rest[0][:2] == "0x" else int(rest[0], 16)
        if any(it.base <= digits < it.end for it in regions):
            return f"0x is missing in front of {rest[0]}"
        return "no region is so low; of a device's byte the question is: HOST ENDPOINT DPA"
    return ""


# ---- `plan`.

def of_plan(host: Host, words: list, refused: Refusal) -> Optional[tuple]:
    """What is wrong with a word of a create line or of a release, and what to write; None where it is no slip."""
    if refused.cause == "no such region":
        found = like(refused.place, [f"auto{number}" for number in range(len(names_of(host, "regions")))])
        return (f"no live region has the name {refused.place}", found or "see them with `check`") if found else None
    if words[:1] != ["create"]:
        return None
    kind, size = (words[2:4] + ["", ""])[:2]
    if refused.cause.startswith("bad line"):
        return bad_word(kind, size, words[4:])
    if refused.cause == "no such endpoint":
        found = like(refused.place, names_of(host, "endpoints"))
        return (f"the name {refused.place} is no endpoint's", found) if found else None
    if refused.cause == "size" and size.isdigit() and int(size, 16) and int(size, 16) % GRAIN == 0:
        return (f"{quoted(size)} is decimal, and no multiple of 256 MiB for each endpoint; 0x is missing in front of it",
                f"0x{size} is {size_words(int(size, 16))}")
    return None


def bad_word(kind: str, size: str, rest: list) -> Optional[tuple]:
    """What is wrong with a word that cannot be read."""
    if kind and kind not in KINDS:
        return f"{quoted(kind)} is no kind of memory", "ram or pmem; a line is create NAME KIND SIZE EP.."
    if size and not (NUMBER.fullmatch(size) or AMOUNT.fullmatch(size)):
        return f"{quoted(size)} is no size", "bytes, as 0x40000000 or 1G; 0x stands before hexadecimal digits"
    comma = next((word for word in rest if "," in word), None)
    if comma:
        return f"{quoted(comma)} is no name", f"endpoints stand apart: {' '.join(comma.split(',')).strip()}"
    odd = next((word for word in rest if not word.replace("_", "").replace("=", "").isalnum() or len(word) > 15), None)
    return (f"{quoted(odd)} is no name", "a name has up to 15 letters, digits and underscores") if odd else None
