"""Tables, topologies and decoders: from the text of a case to bytes, with the standard library alone.

Tables and decoders are written as `cxldesk table` and `cxldesk image` take them; README.md of this folder has each line. Here nothing is
judged but the text itself: a case may well hold a table or registers that a program has to refuse."""

import re
import struct
from typing import Iterator, NamedTuple

WAYS = {1: 0, 2: 1, 4: 2, 8: 3, 16: 4, 3: 8, 6: 9, 12: 10}  # codes of ways
GRANULARITIES = {256 << code: code for code in range(7)}
FLAGS = {"lock": 8, "commit": 9, "committed": 10, "error": 11, "host-only": 12}  # bits of a control word
HEAD = ("revision", "oem-id", "oem-table", "oem-revision", "creator", "creator-revision")
RECORDS = {"chbs": ("uid", "version", "base", "length"), "window": ("base", "size", "gran", "arithmetic", "restrict", "qtg", "targets"),
           "cxims": ("gran", "maps"), "other": ("type", "reserved", "body")}
DECODER = ("base", "size", "ways", "ways-code", "gran", "gran-code", *FLAGS, "targets", "skip")
COUNTS = {1: 0, 2: 1, 4: 2, 6: 3, 8: 4, 10: 5}  # codes of how many decoders
LARGEST = 64 << 20  # bytes that a text may come to
TOKEN = re.compile(r'"((?:[^"\\]|\\.)*)"|(\S+)')
ESCAPE = re.compile(r"\\(?:\((\d+) (.*?)\\\)|x([0-9a-f]{2})|(.|$))", re.S)
LITERAL = {"n": b"\n", "r": b"\r", "t": b"\t", "\\": b"\\", "\n": b""}


class Fault(Exception):
    """A text that cannot be read, and the line of the text where that is so, from 0."""

    def __init__(self, line: int, what: str):
        super().__init__(what)
        self.line = line


# ---- Lines and numbers.

def lines_of(text: str) -> Iterator[tuple]:
    """Each line that has words, with its number; what stands behind # is a comment."""
    for number, line in enumerate(text.split("\n")):
        words = [quoted or plain for quoted, plain in TOKEN.findall(re.sub(r"(^|\s)#.*", "", line))]
        if words:
            yield number, words


def number_of(line: int, word: str, most: int = (1 << 64) - 1) -> int:
    if not re.fullmatch("0[xX][0-9A-Fa-f]{1,16}|[0-9]{1,20}", word):
        raise Fault(line, f"{word[:40]!r} is no number")
    value = int(word, 16) if word[1:2] in ("x", "X") else int(word)
    if value > most:
        raise Fault(line, f"{word} is more than {most:#x}")
    return value


def bytes_of(line: int, digits: str) -> bytes:
    if not re.fullmatch("(?:[0-9A-Fa-f]{2})*", digits):
        raise Fault(line, f"{digits[:40]!r} are no hexadecimal digits, two a byte")
    return bytes.fromhex(digits)


def fields_of(line: int, words: list, names: tuple) -> dict:
    if len(words) % 2:
        raise Fault(line, f"{words[-1][:40]!r} has no value, or a name is missing")
    for name in words[::2]:
        if name not in names:
            raise Fault(line, f"{name[:40]!r} is none of {', '.join(names)}")
    return dict(zip(words[::2], words[1::2]))


def unescaped(text: str) -> bytes:
    """The bytes of a text in which a backslash begins an escape; \\(N TEXT\\) is the text so many times."""
    made, at = b"", 0
    for found in ESCAPE.finditer(text):
        line = text.count("\n", 0, found.start())
        made += text[at:found.start()].encode()
        count, again, digits, sign = found.groups()
        if count is not None:
            part = unescaped(again)
            if len(count) > 9 or int(count) * len(part) > LARGEST:
                raise Fault(line, "the text has more than 64 MiB")
            made += part * int(count)
        elif digits is not None:
            made += bytes.fromhex(digits)
        elif sign in LITERAL:
            made += LITERAL[sign]
        else:
            raise Fault(line, f"\\{sign} is no escape; they are \\n, \\r, \\t, \\\\, \\xNN, \\(N TEXT\\) and \\ at the end of a line")
        at = found.end()
        if len(made) > LARGEST:
            raise Fault(line, "the text has more than 64 MiB")
    return made + text[at:].encode()


def changed(line: int, words: list, made: bytearray) -> bool:
    """Carries out a line that changes the bytes of a file as they stand by then; and whether it is one."""
    if words[0] == "put" and len(words) == 3:
        at, new = number_of(line, words[1]), bytes_of(line, words[2])
        if at + len(new) > len(made):
            raise Fault(line, f"the file has no more than {len(made)} bytes by here")
        made[at:at + len(new)] = new
    elif words[0] == "size" and len(words) == 2:
        size = number_of(line, words[1], LARGEST)
        made[:] = made[:size].ljust(size, b"\0")
    else:
        return False
    return True


# ---- Tables.

def table_of(text: str) -> bytes:
    """The table of a text. Length and sum are made when all records stand, and then what a text changes is changed."""
    head, body, changes = bytes([1]) + bytes(27), b"", []
    for line, words in lines_of(text):
        if words[0] in ("put", "size", "sum"):
            changes.append((line, words))
        elif words[0] == "cedt":
            head = head_of(line, fields_of(line, words[1:], HEAD))
        elif words[0] == "bytes" and len(words) == 2:
            body += bytes_of(line, words[1])
        else:
            body += record_of(line, words)
    made = bytearray(b"CEDT" + struct.pack("<I", 36 + len(body)) + head + body)
    for line, words in [(0, ["sum"]), *changes]:
        if words != ["sum"]:
            if not changed(line, words, made):
                raise Fault(line, "a change is put AT DIGITS, size N or sum")
        elif len(made) > 9:
            made[9] = 0
            made[9] = -sum(made) % 256
    return bytes(made)


def head_of(line: int, fields: dict) -> bytes:
    def packed(name: str, size: int) -> bytes:
        data = re.sub(r"\\x([0-9a-f]{2})", lambda it: chr(int(it[1], 16)), fields.get(name, "")).encode("latin-1", "replace")
        if len(data) > size:
            raise Fault(line, f"{name} has more than {size} bytes")
        return data.ljust(size, b"\0")

    def whole(name: str, most: int) -> int:
        return number_of(line, fields.get(name, "0"), most)

    return (bytes([whole("revision", 255), 0]) + packed("oem-id", 6) + packed("oem-table", 8) + struct.pack("<I", whole("oem-revision", 0xffffffff))
            + packed("creator", 4) + struct.pack("<I", whole("creator-revision", 0xffffffff)))


def record_of(line: int, words: list) -> bytes:
    kind = words[0]
    if kind not in RECORDS:
        raise Fault(line, f"a line of a table begins with cedt, {', '.join(RECORDS)}, bytes, put, size or sum")
    fields = fields_of(line, words[1:], RECORDS[kind])
    for name in RECORDS[kind]:
        if name not in fields:
            raise Fault(line, f"{name} is missing")

    def whole(name: str, most: int = (1 << 64) - 1) -> int:
        return number_of(line, fields[name], most)

    def listed(name: str, most: int) -> list:
        return [number_of(line, word, most) for word in fields[name].split(",")] if fields[name] != "none" else []

    if kind == "chbs":
        return struct.pack("<BBHIIIQQ", 0, 0, 32, whole("uid", 0xffffffff), whole("version", 0xffffffff), 0, whole("base"), whole("length"))
    if kind == "other":
        body = bytes_of(line, fields["body"]) if fields["body"] != "none" else b""
        if len(body) > 0xfffb:
            raise Fault(line, "the body has more than 65531 bytes")
        return struct.pack("<BBH", whole("type", 255), whole("reserved", 255), 4 + len(body)) + body
    code = granularity_of(line, fields["gran"])
    if kind == "cxims":
        maps = listed("maps", (1 << 64) - 1)
        if len(maps) > 255:
            raise Fault(line, "a cxims has more than 255 maps")
        return struct.pack(f"<BBHHBB{len(maps)}Q", 2, 0, 8 + 8 * len(maps), 0, code, len(maps), *maps)
    targets = listed("targets", 0xffffffff)
    if len(targets) not in WAYS or fields["arithmetic"] not in ("modulo", "xor"):
        raise Fault(line, "a window has 1, 2, 3, 4, 6, 8, 12 or 16 targets, and its arithmetic is modulo or xor")
    return struct.pack(f"<BBHIQQBBHIHH{len(targets)}I", 1, 0, 36 + 4 * len(targets), 0, whole("base"), whole("size"), WAYS[len(targets)],
                       int(fields["arithmetic"] == "xor"), 0, code, whole("restrict", 0xffff), whole("qtg", 0xffff), *targets)


def granularity_of(line: int, word: str) -> int:
    code = GRANULARITIES.get(number_of(line, word))
    if code is None:
        raise Fault(line, "a granularity is 256 bytes, or a doubling of that up to 16384")
    return code


# ---- Topologies.

class Node(NamedTuple):
    """What an image has to know of a node."""
    name: str
    capability: int
    decoders: int
    is_endpoint: bool


PLAIN = re.compile(r"""\s*(?:#[^\n]*)?(\[\[|\]\]|[\[\]{},=]|"[^"\\\n]*"|'[^'\n]*'|[A-Za-z0-9_-]+|\n|$|.)""")


class Toml:
    """A reader of plain TOML: arrays of tables or inline tables, strings without escapes, numbers, true and false."""

    def __init__(self, text: str):
        self.tokens, self.line = [], 0
        for number, line in enumerate(text.split("\n")):
            self.tokens += [(number, it[1]) for it in PLAIN.finditer(line) if it[1].strip()]
        self.tokens.append((text.count("\n"), ""))
        self.at = 0

    def next(self, *wanted: str) -> str:
        self.line, token = self.tokens[self.at]
        if wanted and token not in wanted:
            raise Fault(self.line, f"{token[:40]!r} where plain TOML has {' or '.join(wanted)}; an image is made over a plain topology alone")
        self.at += token != ""
        return token

    def peek(self) -> str:
        return self.tokens[self.at][1]

    def document(self) -> dict:
        top: dict = {}
        table = top
        while self.peek():
            if self.peek() == "[[":
                self.next()
                kind = self.next()
                self.next("]]")
                table = {}
                top.setdefault(kind, []).append(table)
            else:
                self.pair(table)
        return top

    def pair(self, table: dict) -> None:
        name = self.next()
        self.next("=")
        table[name] = self.value(0)

    def value(self, depth: int):
        token = self.next()
        if token == "[" and depth < 8:
            return self.several("]", lambda: self.value(depth + 1))
        if token == "{" and depth < 8:
            table: dict = {}
            self.several("}", lambda: self.pair(table))
            return table
        if token[:1] in ("'", '"'):
            return token[1:-1]
        if token in ("true", "false"):
            return token == "true"
        return number_of(self.line, token.replace("_", ""))

    def several(self, end: str, item) -> list:
        items = []
        while self.peek() != end:
            items.append(item())
            if self.peek() != end:
                self.next(",")
        self.next(end)
        return items


def nodes_of(topology: str) -> list:
    """The nodes of a topology in their order: bridges, switches, endpoints."""
    top = Toml(topology).document()
    nodes = []
    for kind in ("bridge", "switch", "endpoint"):
        for fields in top.get(kind, []):
            nodes.append(node_of(kind, fields))
    return nodes


def node_of(kind: str, fields: dict) -> Node:
    def bit(name: str, at: int) -> int:
        return int(bool(fields.get(name, True))) << at

    name, count, targets = str(fields.get("name", "?")), fields.get("decoders", 4), fields.get("targets", 8)
    if count not in COUNTS or targets not in (1, 2, 4, 8):
        raise Fault(0, f"{name}: decoders are 1, 2, 4, 6, 8 or 10, and targets 1, 2, 4 or 8")
    if fields.get("passthrough"):
        return Node(name, 0x10, 1, False)
    capability = COUNTS[count] | bit("low", 8) | bit("high", 9)
    if kind == "endpoint":
        return Node(name, capability | bit("ways3", 11) | bit("ways16", 12), count, True)
    return Node(name, capability | targets << 4, count, False)


# ---- Images.

def reset_image(nodes: list) -> bytes:
    """The image after reset, with endpoints that decode."""
    image = b"CXLHDM01" + struct.pack("<I", len(nodes))
    for node in nodes:
        image += struct.pack("<IIII", node.capability, 2 * node.is_endpoint, 0, 0) + bytes(32 * node.decoders)
    return image


def blocks_at(nodes: list) -> dict:
    """The byte place of each node's block, and its size."""
    places, at = {}, 12
    for node in nodes:
        size = 16 + 32 * node.decoders
        places[node.name] = at, size
        at += size
    return places


def image_of(topology: str, text: str) -> bytes:
    """The image of a text over the one after reset. Lines are carried out one after the other."""
    nodes = nodes_of(topology)
    image, places = bytearray(reset_image(nodes)), blocks_at(nodes)
    for line, words in lines_of(text):
        if words[0] == "decoder":
            name, number, found = decoder_of(line, words)
            at, size = places.get(name, (0, 0))
            if 16 + 32 * number + 32 > size:
                raise Fault(line, f"there is no decoder {number} of {name[:40]}")
            changed(line, ["put", str(at + 16 + 32 * number), struct.pack("<8I", *found, 0).hex()], image)
        elif words[0] == "word" and len(words) == 4:
            at, size = places.get(words[1], (0, 0))
            off = number_of(line, words[2], 0xffff)
            if off % 4 or off >= size:
                raise Fault(line, f"there is no word at {words[2]} of {words[1][:40]}")
            changed(line, ["put", str(at + off), struct.pack("<I", number_of(line, words[3], 0xffffffff)).hex()], image)
        elif not changed(line, words, image):
            raise Fault(line, "a line of an image is decoder NODE NUMBER .., word NODE OFFSET VALUE, put AT DIGITS or size N")
    return bytes(image)


def decoder_of(line: int, words: list) -> tuple:
    """The node, the number and the seven words of a decoder's line."""
    if len(words) < 3:
        raise Fault(line, "a decoder is named by its node and its number")
    fields = fields_of(line, words[3:], DECODER)

    def value(name: str, most: int = (1 << 64) - 1) -> int:
        return number_of(line, fields.get(name, "0"), most)

    ways = WAYS.get(value("ways")) if "ways" in fields else value("ways-code", 15)
    if ways is None:
        raise Fault(line, "ways are 1, 2, 3, 4, 6, 8, 12 or 16")
    gran = granularity_of(line, fields["gran"]) if "gran" in fields else value("gran-code", 15)
    tail = value("skip")
    if "targets" in fields:
        ports = [number_of(line, port, 255) for port in fields["targets"].split(",")]
        if len(ports) > 8:
            raise Fault(line, "a target list has 8 ports at the most")
        tail = int.from_bytes(bytes(ports), "little")
    control = gran | ways << 4 | sum(value(name, 1) << bit for name, bit in FLAGS.items())
    base, size, low = value("base"), value("size"), 0xffffffff
    return words[1], number_of(line, words[2], 9), (base & low, base >> 32, size & low, size >> 32, control, tail & low, tail >> 32)


def decoders_in(topology: str, text: str) -> dict:
    """The words of each decoder that a text names, by its node's number and its own."""
    numbers = {node.name: number for number, node in enumerate(nodes_of(topology))}
    found = {}
    for line, words in lines_of(text):
        if words[0] != "decoder":
            raise Fault(line, "a line here is decoder NODE NUMBER ..")
        name, number, values = decoder_of(line, words)
        if name not in numbers:
            raise Fault(line, f"there is no node {name[:40]}")
        found[numbers[name], number] = values
    return found
