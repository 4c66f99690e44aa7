#!/usr/bin/env bash
# Measures `route` on tables of 1 MiB, the most that a table may have: the processor time of a whole run of the program,
# with 64 windows of which the last one, or none, holds the address.
#
# bench/route.sh [RUNS]    the least time of 10 runs, unless another number is given
#
# The tables are made in a folder that it takes away again, and each answer is compared with one worked out here.
# README.md says what the columns mean.
set -euo pipefail
source "$(dirname "${BASH_SOURCE[0]}")/common.sh"
is_number_of_runs "${1:-10}"
with_program

cat >"$work/route.py" <<'END'
import struct
import sys

from shared import chbs, put, timed

PROGRAM, WORK, RUNS = sys.argv[1], sys.argv[2], int(sys.argv[3])
FILE = f"{WORK}/table"
LIMIT = 2**20
WINDOWS = 64
# Of each window, in bytes: whole units of 256 MiB for 1, 12 and 16 ways.
SIZE = 48 * 2**30
# The ways code, its ways, its bits and its factor of three.
SHAPES = ((4, 16, 4, 1), (10, 12, 2, 3), (0, 1, 0, 1))
# The map of bit i has the address bit that it stands for, and every fourth bit from 20 + i up to 51.
MAPS = [1 << 8 + i | sum(1 << bit for bit in range(20 + i, 52, 4)) for i in range(4)]
# Granularity code 0: chunks of 256 bytes.
CXIMS = struct.pack("<BBHHBB4Q", 2, 0, 8 + 8 * 4, 0, 0, 4, *MAPS)


def targets(n, ways):
    return [(5 * n + 7 * i) % 64 for i in range(ways)]


def cfmws(n, shape, xor):
    code, ways, _, _ = shape
    head = struct.pack("<BBHIQQ", 1, 0, 36 + 4 * ways, 0, (n + 1) * SIZE, SIZE)
    codes = struct.pack("<BBHIHH", code, xor, 0, 0, 0x1F, n)
    return head + codes + struct.pack(f"<{ways}I", *targets(n, ways))


def others(room, size):
    """Records of another type that fill the room, of so many bytes each where that goes."""
    made = []
    while room:
        now = room if room <= size else min(size, room - 4)
        made.append(struct.pack("<BBH", 9, 0, now) + bytes(now - 4))
        room -= now
    return made


def table(shape, xor, size):
    """64 bridges, 64 windows and 64 times the maps, behind so many others that there are 1,048,576 bytes; and how many
    records these are."""
    named = [chbs(uid) for uid in range(64)] + [cfmws(n, shape, xor) for n in range(WINDOWS)] + [CXIMS] * 64
    records = others(LIMIT - 36 - len(b"".join(named)), size) + named
    head = struct.pack("<4sIBB6s8sI4sI", b"CEDT", LIMIT, 1, 0, b"BENCH ", b"ROUTE   ", 1, b"BNCH", 1)
    made = bytearray(head + b"".join(records))
    assert len(made) == LIMIT
    made[9] = -sum(made) % 256
    return bytes(made), len(records)


def answer(shape, xor, n, offset):
    """What `route` prints for so many bytes into window n."""
    _, ways, bits, third = shape
    h, chunk = (n + 1) * SIZE + offset, offset // 256
    low = sum((h & it).bit_count() % 2 << i for i, it in enumerate(MAPS[:bits])) if xor else chunk % 2**bits
    position = low + 2**bits * ((chunk >> bits) % third)
    return f"window {n} position {position} bridge {targets(n, ways)[position]}\n"


def run(words):
    return timed([PROGRAM, *words], f"{WORK}/out")


def measure(names, words, wanted):
    """Prints the least time of the runs, each of which has to answer what is wanted."""
    runs = [run(words) for _ in range(RUNS)]
    for said, _ in runs:
        if said != wanted:
            sys.exit(f"{words}: {said}, not {wanted}")
    show([*names, f"{min(took for _, took in runs) * 1000:.1f}"])


def show(words):
    print(f"{words[0]:<20} {words[1]:>8}  {words[2]:<10} {words[3]:>6}", flush=True)


show(["windows", "records", "address in", "ms"])
measure(["none: --version", 0, ""], ["--version"], run(["--version"])[0])
for shape, xor in ((SHAPES[0], 1), (SHAPES[1], 1), (SHAPES[0], 0), (SHAPES[2], 0)):
    for size in (4, 64, 65535):
        made, records = table(shape, xor, size)
        put(FILE, made)
        kind = f"64 of {shape[1]} ways" + ", XOR" * xor
        offset = 0x123456789
        inside = (0, answer(shape, xor, 63, offset))
        measure([kind, records, "window 63"], ["route", FILE, str(WINDOWS * SIZE + offset)], inside)
        measure([kind, records, "none"], ["route", FILE, "5"], (8, "no window\n"))
END

python3 "$work/route.py" "$cxlplan" "$work" "${1:-10}"
