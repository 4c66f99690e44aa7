"""Reads the answers of the proved calls. The forms of these lines are those of the guide; nothing is worked out here."""

from .errors import Breach, Broken, Refusal
from .facts import (Bridge, Decoder, Down, Extent, Maps, Node, Other, Piece, Place, Poison, Position, Reason, Region, ShownRow, Slot,
                    Spread, Up, Via, Window, Write)


def number(word: str) -> int:
    return int(word, 16) if word[:2] == "0x" else int(word)


def numbers(word: str) -> tuple:
    return tuple(map(number, word.split(",")))


def broken(line: str) -> Broken:
    return Broken(f"an answer that is not understood: {line[:200]!r}")


def lines_of(text: str) -> list:
    return text.split("\n")[:-1] if text.endswith("\n") else text.split("\n") if text else []


# ---- Tables.

def record(line: str):
    """A line of `list`."""
    words = line.split(" ")
    try:
        if words[0] == "chbs":
            return Bridge(int(words[1]), int(words[3]), number(words[5]), number(words[7]))
        if words[0] == "window":
            return Window(int(words[1]), number(words[3]), number(words[5]), int(words[7]), int(words[9]), words[10],
                          number(words[12]), int(words[14]), numbers(words[16]), " ".join(words[17:]))
        if words[0] == "cxims":
            return Maps(int(words[2]), () if words[4] == "none" else numbers(words[4]))
        if words[0] == "other":
            return Other(int(words[1]), int(words[3]))
    except (ValueError, IndexError):
        pass
    raise broken(line)


def records(text: str) -> list:
    return [record(line) for line in lines_of(text)]


def position(text: str) -> Position:
    words = text.split()
    return Position(int(words[1]), int(words[3]), int(words[5]))


# ---- Register writes.

def write(line: str, nodes: list) -> Write:
    """A register write, whose node is told by its number."""
    words = line.split(" ")
    try:
        return Write(nodes[int(words[1])].name, number(words[2]), number(words[3]))
    except (ValueError, IndexError):
        raise broken(line) from None


def writes(text: str, nodes: list) -> list:
    return [write(line, nodes) for line in lines_of(text)]


# ---- Windows, trees and decoders, as the library's read-only calls tell them.

WAYS_CODES, GRAN_CODES = (0, 1, 2, 3, 4, 8, 9, 10), range(7)  # that stand for something


def pairs(words: list) -> dict:
    return dict(zip(words[::2], words[1::2]))


def windows(text: str) -> list:
    """Lines `window N base ..`, each with its verdict by a topology."""
    return [window(line) for line in lines_of(text)]


def window(line: str) -> Window:
    front, _, found = line.partition(" verdict ")
    said, (verdict, cause) = pairs(front.split(" ")), verdict_of(found.split(" "))
    return Window(int(said["window"]), number(said["base"]), number(said["size"]), int(said["ways"]), int(said["gran"]),
                  "xor" if said["xor"] == "1" else "modulo", number(said["restrict"]), int(said["qtg"]), numbers(said["targets"]),
                  verdict, cause)


def verdict_of(words: list) -> tuple:
    """A verdict with what it names, and behind it which of its causes it is."""
    named = 2 if words[0] in ("overlap", "target", "repeat") else 1
    return " ".join(words[:named]), " ".join(words[named:])


def tree(text: str) -> list:
    """Lines `node N NAME KIND ..`; that of the frames is passed over."""
    return [node(line.split(" ")) for line in lines_of(text) if line.startswith("node ")]


def node(words: list) -> Node:
    kind, is_end = words[3], words[3] == "endpoint"
    said = pairs(words[4:])
    return Node(int(words[1]), kind, words[2], said.get("parent"), int(said["port"]) if "port" in said else None,
                int(said["uid"]) if "uid" in said else None, int(said["decoders"]), None if is_end else int(said["targets"]),
                said["low"] == "1", said["high"] == "1", said["ways3"] == "1" if is_end else None,
                said["ways16"] == "1" if is_end else None, said["passthrough"] == "1", number(said.get("ram", "0")),
                number(said.get("pmem", "0")))


IDLE = " commit 0 committed 0 error 0 "  # in the line of a decoder that is not committed, and was not to be


def decoders(text: str, only_used: bool = False) -> list:
    """Lines `decoder NODE I ..`; those of blocks are passed over. Of an idle decoder nothing is told where only used ones are wanted."""
    return [decoder(line) for line in lines_of(text) if line.startswith("decoder ") and not (only_used and IDLE in line)]


def controls(text: str) -> dict:
    """Of the lines `block N NODE cap X control X` the global control of each node."""
    return {words[2]: number(words[6]) for words in (line.split(" ") for line in lines_of(text)) if words[0] == "block"}


def decoder(line: str) -> Decoder:
    front, _, words = line.rpartition(" words ")
    parts = front.split(" ")
    at = parts.index("codes", 3)  # the codes of ways and granularity, which may stand for nothing
    ways, gran, said = int(parts[at + 1]), int(parts[at + 2]), pairs(parts[3:at] + parts[at + 3:])
    return Decoder(parts[1], int(parts[2]), said["committed"] == "1", said["commit"] == "1", said["error"] == "1", said["lock"] == "1",
                   said["host-only"] == "1", int(said["base"], 16), int(said["size"], 16), int(said["ways"]) if ways in WAYS_CODES else None,
                   int(said["gran"]) if gran in GRAN_CODES else None, tuple(map(int, said["targets"].split(",")[:8])) if "targets" in said else None,
                   int(said["skip"], 16) if "skip" in said else None, tuple([int(word, 16) for word in words.split(" ")[:7]]))


# ---- Regions.

def regions(text: str) -> list:
    """The answer of `check`: regions by rising base, named as a session names them."""
    found, lines = [], lines_of(text)
    for line in lines:
        words = line.split(" ")
        if words[0] == "slot":
            found[-1][1].append(slot(words))
        elif words[0] == "region":
            found.append((words, []))
        else:
            raise broken(line)
    return [Region(f"auto{order}", int(words[1], 16), int(words[3], 16), int(words[5]), int(words[7]), int(words[9]), words[10],
                   tuple(slots)) for order, (words, slots) in enumerate(found)]


def slot(words: list) -> Slot:
    return Slot(int(words[1]), words[2], int(words[3], 16))


def breach(text: str) -> Breach:
    """The line `breach Kn NODE DECODER`."""
    _, rule, node, decoder = text.split()
    return Breach(text.rstrip("\n"), rule, node, int(decoder))


def places(text: str) -> list:
    """Lines `breach Kn NODE DECODER`, all of one rule."""
    return [Place(rule, node, int(decoder)) for _, rule, node, decoder in (line.split() for line in lines_of(text))]


def shown(text: str) -> tuple:
    """The answer of `show`: the region and its rows."""
    head, *lines = lines_of(text)
    words = head.split(" ")
    rows, slots = [], []
    for line in lines:
        parts = line.split(" ")
        if parts[0] == "node":
            rows.append(ShownRow(parts[1], int(parts[2]), tuple(int(word, 16) for word in parts[3:])))
        elif parts[0] == "slot":
            slots.append(slot(parts))
        else:
            raise broken(line)
    return region_of(words, slots), rows


def region_of(words: list, slots: list) -> Region:
    """The region of a line `region NAME KIND window I base X size X gran G ways N`, or of a plan's first line."""
    return Region(words[1], number(words[6]), number(words[8]), int(words[4]), int(words[10]), int(words[12]), words[2], tuple(slots))


# ---- Replies of a session.

def down(line: str) -> Down:
    words = line.split(" ")
    end = len(words) - 4  # a region may have the name of any word
    if words[:1] != ["down"] or words[end:end + 1] != ["endpoint"]:
        raise broken(line)
    via = [] if words[9] == "-" else [word.rsplit(":", 2) for word in words[9:end]]
    return Down(number(words[1]), words[3], int(words[5]), int(words[7]),
                tuple(Via(node, int(decoder), int(entry)) for node, decoder, entry in via), words[end + 1], number(words[end + 3]))


def up(line: str, endpoint: str = "", dpa: int = 0) -> Up:
    words = line.split(" ")
    return Up(number(words[1]), words[3], endpoint, dpa)


def extents(text: str) -> list:
    return [Extent(number(x), int(length), endpoint, number(dpa))
            for _, x, length, endpoint, dpa in (line.split(" ") for line in lines_of(text))]


def spreads(text: str) -> list:
    return [Spread(int(slot_number), endpoint, int(count))
            for _, slot_number, endpoint, count in (line.split(" ") for line in lines_of(text))]


def poison(text: str) -> tuple:
    """The records of a reply of `poison`, and its flags: `more`, `overflow TIME`, `scanning`."""
    head, *lines = lines_of(text)
    words = head.split(" ")
    records_found: list = []
    for line in lines:
        parts = line.split(" ")
        if parts[0] == "record":
            records_found.append([words[1], int(parts[1], 16), int(parts[3]), parts[5], [], 0])
        elif parts[0] == "run":
            records_found[-1][4].append(Piece(parts[4], int(parts[1], 16), int(parts[2])))
        elif parts[0] == "wide":
            records_found[-1][4].append(Piece(parts[5], number(parts[1]), None, number(parts[2]), int(parts[3])))
        elif parts[0] == "unmapped":
            records_found[-1][5] = int(parts[1])
        else:
            raise broken(line)
    return [Poison(end, dpa, length, source, tuple(pieces), unmapped)
            for end, dpa, length, source, pieces, unmapped in records_found], " ".join(words[4:])


# How a refusal begins. A line that begins so is none of an answer's.
REFUSALS = ("bad line", "busy", "name taken", "no such", "regions full", "locked", "not last", "unmapped", "crosses end", "full need",
            "refused", "poison short", "poison count", "nothing pending", "bus fault", "same region", "sizes differ", "no window")


def is_refusal(text: str) -> bool:
    return text.startswith(REFUSALS) and not text.startswith("poison ") or text.startswith(("poison short", "poison count"))


def refusal(text: str) -> Refusal:
    """The exception for a reply that is a refusal."""
    lines = lines_of(text)
    first = next((front for front in REFUSALS if lines[0].startswith(front)), "")
    rest = lines[0][len(first):].strip()
    if first == "refused":
        cause, _, place = rest.partition(" ")
    elif first == "no such":
        cause, _, place = lines[0].rpartition(" ")
    elif first == "bad line":
        place, _, cause = rest.partition(" ")
        cause = f"bad line {cause}"
    else:
        cause, place = first, rest
    return Refusal(text.rstrip("\n"), cause, place, [reason(line) for line in lines[1:] if line.startswith("window ")])


def reason(line: str) -> Reason:
    words = line.split(" ")
    return Reason(int(words[1]), words[2], " ".join(words[3:]))
