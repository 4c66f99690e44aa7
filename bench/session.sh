#!/usr/bin/env bash
# Counts what scripts take: instructions of the program's own for each byte of script and replies, with their growth, and the most
# memory that is allocated at once; and the time of a command as regions become more.
#
# bench/session.sh [JOB..]    these of the jobs `bytes`, `frames`, `gen` and `regions`, or all
#
# It wants valgrind: callgrind counts the instructions, massif the memory. The files are made in a folder that it takes away again,
# and each answer is compared with one worked out here. README.md says what the rows mean.
set -euo pipefail
source "$(dirname "${BASH_SOURCE[0]}")/common.sh"
needs_valgrind
with_program

cat >"$work/session.py" <<'END'
import os
import random
import re
import subprocess
import sys

from shared import UNIT, put, table

PROGRAM, WORK, WANTED = sys.argv[1], sys.argv[2], sys.argv[3:]
BASE, MIB = 2**36, 2**20
COMMANDS = 20000
os.chdir(WORK)


def windows(count, size):
    """So many bridges, and for each a window of one way and of this size, one behind the other."""
    return table(count, [(BASE + i * size, size, i) for i in range(count)])


def five_levels(ram, frames):
    """Below the bridge a switch, and below that three levels of switches with two ports each, down to sixteen endpoints."""
    switches = [("s0", "hb0", 0)] + [(f"s{2 * i + 1 + j}", f"s{i}", j) for i in range(7) for j in range(2)]
    endpoints = [(f"e{2 * m + j}", f"s{7 + m}", j) for m in range(8) for j in range(2)]
    text = f'frames = {frames}\nbridge = [{{ name = "hb0", uid = 0, decoders = 10 }}]\n'
    text += "switch = [" + ", ".join(f'{{ name = "{n}", parent = "{p}", port = {q}, decoders = 10 }}' for n, p, q in switches) + "]\n"
    return text + "endpoint = [" + ", ".join(
        f'{{ name = "{n}", parent = "{p}", port = {q}, ram = {ram}, decoders = 10 }}' for n, p, q in endpoints) + "]\n"


ALL = " ".join(f"e{i}" for i in range(16))
REGION = 16 * UNIT


def script_of(size, seed=1):
    """Loads and stores of 1 to 256 bytes and downs, over a region of sixteen ways; and what they are answered."""
    dice, lines, total = random.Random(seed), [f"create r ram {REGION} {ALL}\n"], 0
    memory, wanted = {}, [f"created r window 0 base 0x{BASE:x} size 0x{REGION:x} gran 256 ways 16\n"]
    while total < size:
        h = BASE + dice.randrange(2**20)
        count = dice.randrange(1, 257)
        kind = dice.randrange(3)
        if kind == 0:
            line = f"load 0x{h:x} {count}\n"
            wanted.append("bytes " + "".join(f"{memory.get(h + i, 0):02x}" for i in range(count)) + "\n")
        elif kind == 1:
            data = dice.randbytes(count)
            memory.update((h + i, data[i]) for i in range(count))
            line = f"store 0x{h:x} {data.hex()}\n"
            wanted.append(f"stored {count}\n")
        else:
            line = f"down 0x{h:x}\n"
            wanted.append(None)
        lines.append(line)
        total += len(line)
    return "".join(lines), wanted


def run(words, script, wanted=None):
    with open(script, "rb") as file:
        ran = subprocess.run([PROGRAM, *words], stdin=file, stdout=subprocess.PIPE, check=False)
    said = ran.stdout.decode().splitlines(True)
    if ran.returncode or (wanted is not None and (len(said) != len(wanted) or any(w is not None and w != s for w, s in zip(wanted, said)))):
        sys.exit("session.sh: another answer than was worked out")
    return len(ran.stdout)


def valgrind(tool, words, script):
    with open(script, "rb") as file:
        ran = subprocess.run(["valgrind", *tool, PROGRAM, *words], stdin=file, stdout=subprocess.DEVNULL, stderr=subprocess.PIPE, check=False)
    return ran.stderr.decode()


def instructions(words, script):
    text = valgrind(["--tool=callgrind", f"--callgrind-out-file={WORK}/callgrind"], words, script)
    return int(re.search(r"Collected : (\d+)", text)[1])


def most_memory(words, script):
    valgrind(["--tool=massif", "--pages-as-heap=no", f"--massif-out-file={WORK}/massif"], words, script)
    with open(f"{WORK}/massif", encoding="ascii") as file:
        return max(int(it) for it in re.findall(r"mem_heap_B=(\d+)", file.read()))


def bytes_job():
    files = [put("a.cedt", windows(1, REGION)), put("a.toml", five_levels(UNIT, 65536))]
    before = None
    print("| Script | replies | millions of instructions | for each byte | growth | MB at once |\n|---|---|---|---|---|---|")
    for size in (MIB // 4, 2 * MIB, 15 * MIB):
        text, wanted = script_of(size)
        script = put("script", text)
        replies = run(["run", *files], script, wanted)
        count = instructions(["run", *files], script)
        memory = most_memory(["run", *files], script)
        growth = f"{count / before:.2f}" if before else ""
        print(f"| {len(text) / MIB:.2f} MiB | {replies / MIB:.2f} MiB | {count / 1e6:.1f} | {count / (len(text) + replies):.2f} | {growth} | {memory / 1e6:.1f} |")
        before = count


def frames_job():
    """A store to each of 65,536 pieces."""
    files = [put("a.cedt", windows(1, REGION)), put("a.toml", five_levels(UNIT, 65536))]
    lines = [f"create r ram {REGION} {ALL}\n"] + [f"store 0x{BASE + 256 * i:x} 5a\n" for i in range(65536)]
    script = put("script", "".join(lines))
    run(["run", *files], script)
    print(f"all 65,536 frames in use: {instructions(['run', *files], script) / 65536:.0f} instructions a store, {most_memory(['run', *files], script) / 1e6:.1f} MB at once")


def gen_job():
    script = put("none", "")
    for n in (4, 8, 16, 32):
        print(f"gen {n}: {instructions(['gen', str(n)], script) / 1e6:.1f} million instructions, {most_memory(['gen', str(n)], script) / 1e6:.1f} MB at once")


def regions_job():
    """Commands over 1, 16 and 256 live regions of one way, eight below a bridge, each on an endpoint of its own."""
    print("| Regions | load | store | down |\n|---|---|---|---|")
    for count in (1, 16, 256):
        bridges = (count + 7) // 8
        nodes = ", ".join(f'{{ name = "hb{i}", uid = {i}, decoders = 10 }}' for i in range(bridges))
        ends = ", ".join(f'{{ name = "e{i}", parent = "hb{i // 8}", port = {i % 8}, ram = {UNIT} }}' for i in range(count))
        files = [put("b.cedt", windows(bridges, 8 * UNIT)), put("b.toml", f"bridge = [{nodes}]\nendpoint = [{ends}]\n")]
        creates = "".join(f"create r{i} ram {UNIT} e{i}\n" for i in range(count))
        base = instructions(["run", *files], put("script", creates))
        row, dice = [], random.Random(2)
        for line in ("load 0x{:x} 8\n", "store 0x{:x} 0102030405060708\n", "down 0x{:x}\n"):
            places = (BASE + dice.randrange(count) * UNIT + 8 * dice.randrange(1000) for _ in range(COMMANDS))
            script = put("script", creates + "".join(line.format(place) for place in places))
            row.append(f"{(instructions(['run', *files], script) - base) / COMMANDS:.0f}")
        print(f"| {count} | " + " | ".join(row) + " |")


JOBS = {"bytes": bytes_job, "frames": frames_job, "gen": gen_job, "regions": regions_job}
for name in WANTED or JOBS:
    JOBS[name]()
END

python3 "$work/session.py" "$cxlplan" "$work" "$@"
