"""`where`: host addresses to device bytes and back, ranges of both, and poison lists to host ranges."""

import struct

from ..errors import BadWords, Refusal
from ..host import Host
from ..incoming import MOST_TEXT, amount, number, read_file
from .output import Answer, Hex
from .slips import of_where
from .words import take_host

HEAD, RECORD, MOST_RECORDS = 32, 16, 100  # of a poison list; the most in one line
MOST_RANGE = 1 << 16  # host bytes of one `range`
UNIT = 64  # bytes, of which a poison record counts


def arguments(parser) -> None:
    parser.add_argument("words", nargs="+", metavar="HOST ..", help="HOST HPA, HOST ENDPOINT DPA, or HOST ENDPOINT with --poison")
    parser.add_argument("--length", metavar="N", help="N bytes from there on; by default one")
    parser.add_argument("--poison", metavar="FILE", help="the endpoint's poison list, as the mailbox gives it; - is standard input")
    parser.add_argument("--reset", action="store_true", help="as after reset, without an image")


def answer(options) -> Answer:
    host, rest = take_host(options.words, options)
    if options.poison is not None:
        if len(rest) != 1:
            raise BadWords("--poison wants HOST and ENDPOINT; see cxldesk where --help", 1, "usage")
        data = read_file(options.poison, MOST_TEXT)
    elif len(rest) not in (1, 2):
        raise BadWords("wanted are HOST HPA, or HOST ENDPOINT DPA; see cxldesk where --help", 1, "usage")
    elif len(rest) == 2 and rest[0][:1].isdigit() and not rest[1][:1].isdigit():
        raise BadWords(f"ENDPOINT stands before DPA: {rest[1]} {rest[0]}", 1, "usage")
    else:
        place, length = number(rest[-1]), None if options.length is None else amount(options.length)
    try:
        with host.session() as session:
            if options.poison is not None:
                return poison_answer(session, host, rest[0], data)
            return of_address(session, host, place, length) if len(rest) == 1 else of_device(session, host, rest[0], place, length)
    except Refusal as refused:
        raise of_where(host, rest, refused) from None


# ---- From a host address.

def of_address(session, host: Host, hpa: int, length) -> Answer:
    if length is None:
        way = session.down(hpa)
        said = Answer({"host": host.name, "down": way.as_dict()})
        return said.rows("down", [{"down": Hex(way.hpa), "region": way.region, "slot": way.slot, "position": way.position,
                                   "via": tuple(f"{it.node}:{it.decoder}:{it.entry}" for it in way.via) or ("-",),
                                   "endpoint": way.endpoint, "dpa": Hex(way.dpa)}])
    if length <= MOST_RANGE:
        found = session.extents(hpa, length)
        return Answer({"host": host.name, "extents": [it.as_dict() for it in found]}).rows("extent", [
            {"_hpa": Hex(it.hpa), "_bytes": it.length, "_endpoint": it.endpoint, "_dpa": Hex(it.dpa)} for it in found])
    shares = session.spread(hpa, length)
    return Answer({"host": host.name, "spread": [it.as_dict() for it in shares]}).rows("slot", [
        {"slot": it.slot, "_endpoint": it.endpoint, "_bytes": it.bytes} for it in shares])


# ---- From a device byte.

def of_device(session, host: Host, endpoint: str, dpa: int, length) -> Answer:
    if length is None:
        found = session.up(endpoint, dpa)
        return Answer({"host": host.name, "up": found.as_dict()}).rows("host", [
            {"host": Hex(found.hpa), "region": found.region}])
    if dpa % UNIT or length % UNIT or not 0 < length <= UNIT * 0xffffffff:
        raise BadWords(f"a range of device bytes begins at a multiple of {UNIT} and has a multiple of {UNIT} bytes", 1, "range")
    record = struct.pack("<QII", dpa, length // UNIT, 0)
    return poison_answer(session, host, endpoint, struct.pack("<10xH20x", 1) + record, is_range=True)


def poison_answer(session, host: Host, endpoint: str, data: bytes, is_range: bool = False) -> Answer:
    records, flags = [], []
    for payload in payloads(data):
        found, said = session.poison(endpoint, payload)
        records += found
        flags += [said] if said else []
    if is_range and not records[0].pieces and records[0].unmapped:
        raise Refusal("unmapped", "unmapped")
    answered = Answer({"host": host.name, "poison": records, "flags": flags})
    answered.either(poison_lines(endpoint, records, is_range), lambda: add_poison(Answer({}), endpoint, records, is_range))
    for said in flags:
        answered.line(f"flags {said}")
    return answered


def poison_lines(endpoint: str, records: list, is_range: bool) -> list:
    """Records and their runs as lines of words."""
    lines: list = []
    for record in records:
        if not is_range:
            lines.append(f"record {endpoint} {record.dpa:#x} length {record.length} source {record.source}")
        for it in record.pieces:
            lines.append(f"run {it.hpa:#x} length {it.length} region {it.region}" if it.last is None else
                         f"run {it.hpa:#x} last {it.last:#x} runs {it.runs} region {it.region}")
        if record.unmapped:
            lines.append(f"unmapped {record.unmapped}")
    return lines


def add_poison(said: Answer, endpoint: str, records: list, is_range: bool) -> Answer:
    """The same as tables."""
    for record in records:
        if not is_range:
            said.rows("record", [{"_endpoint": endpoint, "record": Hex(record.dpa), "length": record.length, "source": record.source}])
        said.rows("run", [{"_hpa": Hex(it.hpa), "length": it.length, "last": None if it.last is None else Hex(it.last),
                           "runs": it.runs if it.last else None, "region": it.region} for it in record.pieces])
        if record.unmapped:
            said.line(f"unmapped {record.unmapped}")
    return said


def payloads(data: bytes):
    """A file of poison lists in lists that a line takes: one list follows another where its flag `more` is set. What is no list is given
    as it is, so that it is refused."""
    at = 0
    while True:
        head = data[at:at + HEAD]
        count = struct.unpack_from("<H", head, 10)[0] if len(head) == HEAD else 0
        body = data[at + HEAD:at + HEAD + RECORD * count]
        if len(head) < HEAD or len(body) < RECORD * count:
            yield cut_off(data[at:], count, len(body) // RECORD)
            return
        for first in range(0, max(count, 1), MOST_RECORDS):
            some = body[RECORD * first:RECORD * (first + MOST_RECORDS)]
            flags = head[:10] if first == 0 else bytes(10)
            yield flags + struct.pack("<H", len(some) // RECORD) + head[12:] + some
        at += HEAD + len(body)
        if not head[0] & 1 or at >= len(data):
            return


def cut_off(data: bytes, count: int, room: int) -> bytes:
    """A list that ends too early, for a line by which it is refused; where it is too long for one, it is refused as that would be."""
    if room > MOST_RECORDS:
        raise Refusal(f"poison count {count} {room}", "poison count", f"{count} {room}")
    return data[:HEAD + RECORD * room]
