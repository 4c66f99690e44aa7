"""A table with a window of each verdict, and of each of its causes, over the bridges of BRIDGES."""

import struct

UNIT = 1 << 28
# UIDs by the version of their records: 1 is CXL 2.0. One of 6 has two records, one of 5 is in no topology.
CHBS = ((1, 1), (2, 1), (4, 0), (5, 1), (6, 0), (6, 1), (7, 3))
BRIDGES = (1, 2, 4, 6, 7)
# By granularity code; the first record of a code is the one that counts.
CXIMS = ((0, (0x100, 0x200)), (1, (0x200,)), (3, (0x1000,)), (4, (1 << 52 | 0x1000,)), (5, ()), (1, (0x200, 0x400)))
# Base and size in units, code of the granularity, XOR, targets; and the verdict.
WINDOWS = (
    (0x10, 2, 0, 0, (1, 2), "usable"),
    (0x11, 1, 0, 0, (1,), "overlap 0"),
    (0x20 + 0.5, 1, 0, 0, (1,), "align"),
    (0x30, 0, 0, 0, (1,), "size"),
    (0x32, 3, 0, 0, (1, 2), "size"),
    ((1 << 24) - 1, 2, 0, 0, (1,), "too-high"),
    (0x40, 2, 0, 0, (1, 3), "target 3 no-chbs"),
    (0x44, 2, 0, 0, (4, 3), "target 4 no-cxl2"),
    (0x48, 2, 0, 0, (1, 7), "target 7 no-cxl2"),
    (0x4c, 2, 0, 0, (5, 1), "target 5 no-bridge"),
    (0x50, 2, 0, 0, (6, 1), "usable"),
    (0x54, 4, 0, 0, (1, 2, 2, 1), "repeat 2"),
    (0x58, 2, 0, 1, (1, 2), "usable"),
    (0x5c, 2, 1, 1, (2, 1), "usable"),
    (0x60, 2, 2, 1, (1, 2), "maps no-cxims"),
    (0x64, 2, 3, 1, (1, 2), "maps unfit"),
    (0x68, 2, 4, 1, (1, 2), "maps unfit"),
    (0x6c, 2, 5, 1, (1, 2), "maps few 0 1"),
    (0x70, 1, 2, 1, (1,), "usable"),
    (0x74, 3, 2, 1, (1, 2, 6), "usable"),
)
CODES = {1: 0, 2: 1, 4: 2, 8: 3, 16: 4, 3: 8, 6: 9, 12: 10}


def table_of(records):
    table = bytearray(b"CEDT" + struct.pack("<IBB", 36 + len(records), 1, 0) + bytes(26) + records)
    table[9] = -sum(table) % 256
    return bytes(table)


def each_verdict():
    """The table, with records of other types between."""
    records = struct.pack("<BBHI", 3, 0, 8, 7)
    for uid, version in CHBS:
        records += struct.pack("<BBHIIIQQ", 0, 0, 32, uid, version, 0, 0x80000000, 0x10000)
    for number, (base, size, gran, xor, targets, _) in enumerate(WINDOWS):
        records += struct.pack("<BBHIQQBBHIHH", 1, 0, 36 + 4 * len(targets), 0, int(base * UNIT), size * UNIT, CODES[len(targets)], xor, 0,
                               gran, 6 + number, number) + struct.pack(f"<{len(targets)}I", *targets)
        if number == 3:
            records += struct.pack("<BBHI", 200, 0, 8, 7)
    for gran, maps in CXIMS:
        records += struct.pack("<BBHHBB", 2, 0, 8 + 8 * len(maps), 0, gran, len(maps)) + struct.pack(f"<{len(maps)}Q", *maps)
    return table_of(records)


def topology():
    """The bridges, as a topology's text."""
    return "".join(f'[[bridge]]\nname = "b{uid}"\nuid = {uid}\n' for uid in BRIDGES)
