"""Registers and tables as text that can be edited, and back. What is made of a text is read by the proved calls before it is handed out:
its records or decoders have to be those that the text says."""

import re
import struct

from . import incoming, texts
from ._engine import engine
from .errors import BadWords, Broken
from .facts import Bridge, Decoder, Maps, Window
from .host import Host, Table, answered

WAYS_CODES = {1: 0, 2: 1, 4: 2, 8: 3, 16: 4, 3: 8, 6: 9, 12: 10}
FLAGS = {"lock": 8, "commit": 9, "committed": 10, "error": 11, "host-only": 12}
HEAD = struct.Struct("<4sIBB6s8sI4sI")  # of a CEDT
HEAD_FIELDS = ("revision", "oem-id", "oem-table", "oem-revision", "creator", "creator-revision")
TOKEN = re.compile(r'"(?P<quoted>(?:[^"\\]|\\x[0-9a-f]{2}|\\\\|\\")*)"(?=\s|$)|(?P<comment>#.*)|(?P<plain>\S+)')
ESCAPE = re.compile(r'\\(?:x([0-9a-f]{2})|(["\\]))')


def lines_of(text: str):
    """Each line that has words, with its number. What stands behind # is a comment; within quotes it is none."""
    for number, line in enumerate(text.split("\n"), 1):
        words = []
        for found in TOKEN.finditer(line):
            if (found["plain"] or "").startswith('"'):
                raise fault(number, f"{incoming.quoted(found['plain'])} has a quote that is not closed, or another escape than \\xNN")
            if found.lastgroup != "comment":
                words.append(found[found.lastgroup])
        if words:
            yield number, words


def fault(number: int, what: str) -> BadWords:
    return BadWords(f"line {number}: {what}", 1, "line", str(number))


def pairs_of(number: int, words: list, names) -> dict:
    """Fields by their names."""
    if len(words) % 2:
        raise fault(number, f"{words[-1]!r} has no value, or a name is missing")
    found: dict = {}
    for name, value in zip(words[::2], words[1::2]):
        if name not in names:
            raise fault(number, f"{incoming.quoted(name)} is none of {', '.join(names)}")
        if name in found or SAME.get(name) in found:
            raise fault(number, f"{name} stands there twice" if name in found else f"{name} and {SAME[name]} are one field")
        found[name] = value
    return found


# Fields by which the same is said.
SAME = {"ways": "ways-code", "ways-code": "ways", "gran": "gran-code", "gran-code": "gran", "targets": "skip", "skip": "targets"}


def value_of(number: int, word: str, most: int) -> int:
    try:
        return incoming.number(word, most)
    except BadWords:
        raise fault(number, f"{incoming.quoted(word)} is no number up to {most:#x}") from None


# ---- Registers.

def image_text(host: Host) -> str:
    """The decoders of a host's image, a line each. Fields that are 0 are left out."""
    name = incoming.printable(host.name)
    lines = [f"# The decoders of {name}. What a line leaves out is 0; a decoder without a line stays as it is.\n"]
    kinds, last = {node.name: node.kind for node in host.nodes}, None
    for decoder in host.decoders:
        if decoder.node != last:
            last = decoder.node
            lines.append(f"\n# {kinds[last]} {last}\n")
        lines.append(decoder_line(decoder) + "\n")
    return "".join(lines)


def decoder_line(decoder: Decoder) -> str:
    words = f"decoder {decoder.node} {decoder.number}"
    if not any(decoder.words):
        return words
    control = decoder.words[4]
    fields = {"base": decoder.base, "size": decoder.size}
    words += "".join(f" {name} {value:#x}" for name, value in fields.items() if value)
    words += f" ways {decoder.ways}" if decoder.ways else f" ways-code {control >> 4 & 15}"
    words += f" gran {decoder.gran}" if decoder.gran else f" gran-code {control & 15}"
    words += "".join(f" {name} 1" for name, bit in FLAGS.items() if control >> bit & 1)
    tail = decoder.words[5] | decoder.words[6] << 32
    if decoder.targets is None:
        return words + (f" skip {tail:#x}" if tail else "")
    ports = list(tail.to_bytes(8, "little"))
    while ports and not ports[-1] and len(ports) > (decoder.ways or 1):
        ports.pop()
    return words + " targets " + ",".join(map(str, ports))


DECODER_FIELDS = ("base", "size", "ways", "ways-code", "gran", "gran-code", *FLAGS, "targets", "skip")


def image_of(host: Host, text: str) -> bytes:
    """The image of a text over the host's own image: each decoder that has a line gets its words."""
    image = bytearray(host.registers if host.registers is not None else reset_image(host))
    before, places = {(it.node, it.number): it.words for it in host.decoders}, places_of(host)
    made: dict = {}
    for number, words in lines_of(text):
        if words[0] != "decoder" or len(words) < 3:
            raise fault(number, "a line begins with decoder NODE NUMBER")
        place = (words[1], value_of(number, words[2], 9))
        if place not in places:
            raise fault(number, f"there is no decoder {place[1]} of {place[0]}")
        if place in made:
            raise fault(number, f"decoder {place[1]} of {place[0]} stands there twice")
        made[place] = pairs_of(number, words[3:], DECODER_FIELDS)
        struct.pack_into("<8I", image, places[place], *words_of(number, made[place]), 0)
    compare(host, bytes(image), made, before, {place: struct.unpack_from("<7I", image, places[place]) for place in made})
    return bytes(image)


def compare(host: Host, image: bytes, made: dict, before: dict, words: dict) -> None:
    """Holds an image that was made against what the proved calls tell of it: each decoder of the text has to hold the fields that the text
    says, and nothing besides, and each other one what it held."""
    for it in Host(host.table.data, host.topology.data, image).decoders:
        place = it.node, it.number
        if it.words != words.get(place, before.get(place, it.words)):
            raise Broken(f"decoder {it.number} of {it.node}: the registers keep other words than the text says", 10, "words", it.node)
        for name, value in held(it).items() if place in made else ():
            if value != wanted(name, made[place], value):
                raise Broken(f"decoder {it.number} of {it.node}: {name} would be {value}", 10, name, it.node)


def held(decoder: Decoder) -> dict:
    """What the proved calls tell of a decoder, by the names of a text's fields."""
    flags = {name: int(getattr(decoder, name.replace("-", "_"))) for name in FLAGS}
    tail = {"skip": decoder.skip} if decoder.targets is None else {"targets": decoder.targets}
    return {"base": decoder.base, "size": decoder.size, "ways": decoder.ways, "gran": decoder.gran, **flags, **tail}


def wanted(name: str, fields: dict, told):
    """What a text says of a field; of ways and granularity by their codes what is told."""
    if name in ("ways", "gran"):
        return incoming.number(fields[name]) if name in fields else told
    if name == "targets":
        ports = [incoming.number(it) for it in fields.get(name, "0").split(",")]
        return tuple((ports + [0] * 8)[:len(told)])
    return incoming.number(fields.get(name, "0"))


def words_of(number: int, fields: dict) -> tuple:
    """The seven words that a line says."""
    def value(name: str, most: int) -> int:
        return value_of(number, fields.get(name, "0"), most)

    ways = WAYS_CODES.get(value("ways", 16)) if "ways" in fields else value("ways-code", 15)
    gran = value("gran", 1 << 14)
    code = {256 << code: code for code in range(7)}.get(gran) if "gran" in fields else value("gran-code", 15)
    if ways is None or code is None:
        raise fault(number, "ways are 1, 2, 3, 4, 6, 8, 12 or 16, and a granularity is 256 bytes or a doubling of that up to 16384")
    tail = value("skip", (1 << 64) - 1)
    if "targets" in fields:
        ports = [value_of(number, port, 255) for port in fields["targets"].split(",")]
        if len(ports) > 8:
            raise fault(number, "a target list has 8 ports at the most")
        tail = int.from_bytes(bytes(ports), "little")
    base, size = value("base", (1 << 64) - 1), value("size", (1 << 64) - 1)
    control = code | ways << 4 | sum(value(name, 1) << bit for name, bit in FLAGS.items())
    low = 0xffffffff
    return base & low, base >> 32, size & low, size >> 32, control, tail & low, tail >> 32


def places_of(host: Host) -> dict:
    """Where in the image each decoder's words begin."""
    places, at = {}, 12
    for node in host.nodes:
        for number in range(node.decoders):
            places[node.name, number] = at + 16 + 32 * number
        at += 16 + 32 * node.decoders
    return places


def reset_image(host: Host) -> bytes:
    with host.session() as session:
        return session.under.image()


# ---- Tables.

def table_text(table: Table) -> str:
    """A table's head and records, a line each; reserved fields are not told."""
    _, _, revision, _, *rest = HEAD.unpack_from(table.normal())
    text = f"# {incoming.printable(table.name)}. Length and checksum are made anew; windows count from 0.\n"
    text += "cedt " + " ".join(f"{name} {quoted(value)}" for name, value in zip(HEAD_FIELDS, [revision, *rest])) + "\n"
    bodies = iter(bodies_of(table.normal()))
    for record in table.records:
        text += record_line(record, bodies) + "\n"
    return text


def quoted(value) -> str:
    if isinstance(value, int):
        return str(value)
    return '"' + "".join(chr(sign) if 32 <= sign < 127 and sign not in b'"\\' else f"\\x{sign:02x}" for sign in value) + '"'


def bodies_of(table: bytes):
    """What stands in records of other types: the reserved byte and the body."""
    at = 36
    while at < len(table):
        kind, reserved, length = struct.unpack_from("<BBH", table, at)
        if kind > 2:
            yield reserved, table[at + 4:at + length]
        at += length


def record_line(record, bodies) -> str:
    if isinstance(record, Bridge):
        return f"chbs uid {record.uid} version {record.version} base {record.base:#x} length {record.length:#x}"
    if isinstance(record, Window):
        return (f"window base {record.base:#x} size {record.size:#x} gran {record.gran} arithmetic {record.arithmetic} restrict "
                f"{record.restrict:#06x} qtg {record.qtg} targets {','.join(map(str, record.targets))}"
                + ("" if record.is_usable else f"  # {record.verdict}"))
    if isinstance(record, Maps):
        return f"cxims gran {record.gran} maps {','.join(f'{it:#x}' for it in record.maps) or 'none'}"
    reserved, body = next(bodies)
    return f"other type {record.type} reserved {reserved} body {body.hex() or 'none'}"


FIELDS = {"cedt": HEAD_FIELDS, "chbs": ("uid", "version", "base", "length"),
          "window": ("base", "size", "gran", "arithmetic", "restrict", "qtg", "targets"), "cxims": ("gran", "maps"),
          "other": ("type", "reserved", "body")}


def table_of(text: str) -> bytes:
    """The table of a text. The proved reader has to find the records in it that the text says."""
    head, body = None, b""
    for number, words in lines_of(text):
        if words[0] not in FIELDS:
            raise fault(number, f"a line begins with {', '.join(FIELDS)}")
        fields = pairs_of(number, words[1:], FIELDS[words[0]])
        lacking = [name for name in FIELDS[words[0]] if name not in fields and words[0] != "cedt"]
        if lacking:
            raise fault(number, f"{lacking[0]} is missing")
        if words[0] == "cedt":
            if head is not None:
                raise fault(number, "cedt stands there twice")
            head = head_of(number, fields)
        else:
            body += record_of(number, words[0], fields)
    made = bytearray(b"CEDT" + struct.pack("<I", 36 + len(body)) + (head or bytes([1]) + bytes(27)) + body)
    made[9] = -sum(made) % 256
    return read_back(bytes(made), text)


def head_of(number: int, fields: dict) -> bytes:
    def packed(name: str, size: int) -> bytes:
        try:
            data = ESCAPE.sub(lambda it: chr(int(it[1], 16)) if it[1] else it[2], fields.get(name, "")).encode("latin-1")
        except UnicodeEncodeError:
            raise fault(number, f"{name} has a letter of more than one byte") from None
        if len(data) > size:
            raise fault(number, f"{name} has more than {size} bytes")
        return data.ljust(size, b"\0")

    def whole(name: str, most: int) -> int:
        return value_of(number, fields.get(name, "0"), most)

    return (bytes([whole("revision", 255), 0]) + packed("oem-id", 6) + packed("oem-table", 8)
            + struct.pack("<I", whole("oem-revision", 0xffffffff)) + packed("creator", 4)
            + struct.pack("<I", whole("creator-revision", 0xffffffff)))


def record_of(number: int, kind: str, fields: dict) -> bytes:
    def whole(name: str, most: int = (1 << 64) - 1) -> int:
        return value_of(number, fields[name], most)

    def listed(name: str, most: int) -> list:
        return [value_of(number, word, most) for word in fields[name].split(",")] if fields[name] != "none" else []

    if kind == "chbs":
        return struct.pack("<BBHIIIQQ", 0, 0, 32, whole("uid", 0xffffffff), whole("version", 0xffffffff), 0, whole("base"),
                           whole("length"))
    if kind == "other":
        body = b"" if fields["body"] == "none" else bytes_of(number, fields["body"])
        return struct.pack("<BBH", whole("type", 255), whole("reserved", 255), 4 + len(body)) + body
    code = {256 << code: code for code in range(7)}.get(whole("gran"))
    if code is None:
        raise fault(number, "a granularity is 256 bytes, or a doubling of that up to 16384")
    if kind == "cxims":
        maps = listed("maps", (1 << 64) - 1)
        return struct.pack(f"<BBHHBB{len(maps)}Q", 2, 0, 8 + 8 * len(maps), 0, code, len(maps), *maps)
    targets = listed("targets", 0xffffffff)
    if len(targets) not in WAYS_CODES or fields["arithmetic"] not in ("modulo", "xor"):
        raise fault(number, "a window has 1, 2, 3, 4, 6, 8, 12 or 16 targets, and its arithmetic is modulo or xor")
    return struct.pack(f"<BBHIQQBBHIHH{len(targets)}I", 1, 0, 36 + 4 * len(targets), 0, whole("base"), whole("size"),
                       WAYS_CODES[len(targets)], int(fields["arithmetic"] == "xor"), 0, code, whole("restrict", 0xffff),
                       whole("qtg", 0xffff), *targets)


def bytes_of(number: int, digits: str) -> bytes:
    try:
        return bytes.fromhex(digits)
    except ValueError:
        raise fault(number, f"{digits[:40]!r} are no hexadecimal digits, two a byte") from None


def read_back(table: bytes, text: str) -> bytes:
    """The table, where the proved reader tells the records of the text."""
    records = texts.records(answered(engine().listing(table)))
    bodies = iter(bodies_of(table))
    told = [re.sub(" *#.*", "", record_line(record, bodies)).split() for record in records]
    wanted = [words for _, words in lines_of(text) if words[0] != "cedt"]
    if len(told) != len(wanted) or any(meaning(one) != meaning(other) for one, other in zip(told, wanted)):
        raise Broken("the table that was made tells other records than the text", 3, "records")
    return table


def meaning(words: list) -> tuple:
    """A record's line with its numbers as numbers, by its fields' names."""
    def plain(word: str):
        parts = [re.sub("^(0x)?0+(?=[0-9a-f])", r"\1", it) for it in word.lower().split(",")]
        return tuple(texts.number(it) if re.fullmatch("0x[0-9a-f]+|[0-9]+", it) and len(it) < 40 else it for it in parts)
    return words[0], tuple(sorted((name, plain(word)) for name, word in zip(words[1::2], words[2::2])))


