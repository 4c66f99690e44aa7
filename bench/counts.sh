#!/usr/bin/env bash
# Counts what the program takes for large files of four sizes each: instructions of its own, with their growth from size to
# size, allocations, and the most memory that is allocated at once in the run. A part of a job is the difference of two runs
# that agree up to it.
#
# bench/counts.sh [JOB..]    these of the jobs `plan`, `codes`, `creates`, `check`, `tables` and `topology`, or all
#
# It wants valgrind: callgrind counts the instructions, dhat the allocations and the bytes of them in use at once. The
# files are made in a folder that it takes away again, and each answer is compared with one worked out here. README.md
# says what the rows mean.
set -euo pipefail
source "$(dirname "${BASH_SOURCE[0]}")/common.sh"
needs_valgrind
with_program

cat >"$work/counts.py" <<'END'
import re
import struct
import subprocess
import sys

from shared import ENDPOINTS, GROUP, REGIONS, SIZE, SWITCHES, UNIT, WAYS, cedt, chbs, full_host, groups_of, put, regions_of, table, with_control

PROGRAM, WORK, WANTED = sys.argv[1], sys.argv[2], sys.argv[3:]
# The reader of TOML, which is another project's.
TOML = re.compile(r"(^|:)toml(_\w+)?(::|\+\+)")

# ---- runs


class Counts:
    """Instructions, those of them that are the reader's of TOML, and allocations; and the most bytes that are allocated at once."""

    def __init__(self, instructions, toml, allocations, memory):
        self.instructions, self.toml, self.allocations, self.memory = instructions, toml, allocations, memory

    def past(self, other):
        """What comes after another run's end, of a run that agrees with it so far."""
        return Counts(
            self.instructions - other.instructions, self.toml - other.toml, self.allocations - other.allocations, self.memory
        )

    def without_toml(self):
        return Counts(self.instructions - self.toml, 0, self.allocations, self.memory)

    def each(self, count):
        """What one takes of so many that come one after another."""
        return Counts(self.instructions // count, self.toml // count, self.allocations // count, self.memory)


def files(*made):
    return [put(f"{WORK}/file{i}", it) for i, it in enumerate(made)]


def found(pattern, text):
    return int(re.search(pattern, text)[1].replace(",", ""))


def valgrind(tool, words, script):
    with open(script) as it:
        ran = subprocess.run(["valgrind", *tool, PROGRAM, *words], stdin=it, stdout=subprocess.DEVNULL, stderr=subprocess.PIPE, text=True)
    return ran.stderr


def taken_by_toml(profile):
    """What the calls of the reader of TOML cost with all that they call."""
    names, own, callee, cost, cost_is_next = {}, "", "", 0, False
    for line in profile:
        if it := re.match(r"(c?)fn=\((\d+)\)(?: (.*))?", line):
            name = names.setdefault(it[2], it[3])
            callee, own = (name, own) if it[1] else (callee, name)
        elif line.startswith("calls="):
            cost_is_next = bool(TOML.search(callee) and not TOML.search(own))
        elif cost_is_next:
            cost += int(line.split()[-1])
            cost_is_next = False
    return cost


def counted(words, status, text, script="/dev/null"):
    """What a run takes that has to answer with this status and text, by this script."""
    wanted = (status, text if isinstance(text, bytes) else text.encode())
    with open(script) as it:
        ran = subprocess.run([PROGRAM, *words], stdin=it, stdout=subprocess.PIPE, stderr=subprocess.DEVNULL)
    if (ran.returncode, ran.stdout) != wanted:
        sys.exit(f"{words}: {ran.returncode} {ran.stdout[:400]}, not {wanted[0]} {wanted[1][:400]}")
    profile = f"{WORK}/callgrind"
    calls = valgrind(["--tool=callgrind", "--compress-pos=no", f"--callgrind-out-file={profile}"], words, script)
    heap = valgrind(["--tool=dhat", f"--dhat-out-file={WORK}/dhat"], words, script)
    with open(profile) as it:
        toml = taken_by_toml(it)
    return Counts(
        found(r"Collected : (\d+)", calls),
        toml,
        found(r"Total: +[\d,]+ bytes in ([\d,]+) blocks", heap),
        found(r"At t-gmax: +([\d,]+) bytes", heap),
    )


# ---- plan: sixteen ways in the last of 64 windows, each of which could take them but for the memory below it

WINDOWS = 64


def below(n):
    return (n + 1) * 2 * SIZE


def host_of(nodes, code):
    """A table and a topology, in which the last window is over the last group, which alone has memory of the kind. Window n has
    the granularity code `code(n)`."""
    last = nodes // GROUP - 1
    windows = [(below(n), SIZE, n % last if n < WINDOWS - 1 else last, code(n)) for n in range(WINDOWS)]
    return last, files(table(last + 1, windows), groups_of(nodes, lambda g: f"{'ram' if g == last else 'pmem'} = {UNIT}"))


def picked(nodes, name, code):
    last, read = host_of(nodes, code)
    rows = [f"plan r ram window {WINDOWS - 1} base {below(WINDOWS - 1):#x} size {SIZE:#x} gran 256 ways {WAYS}"]
    rows.append(f"row b{last} 0 ways {SWITCHES} gran 256 targets {','.join(map(str, range(SWITCHES)))}")
    ports = ",".join(map(str, range(ENDPOINTS)))
    rows += [f"row s{last}_{s} 0 ways {ENDPOINTS} gran 512 targets {ports}" for s in range(SWITCHES)]
    rows += [f"row e{last}_{s}_{e} 0 ways {WAYS} gran 256 skip 0x0" for s in range(SWITCHES) for e in range(ENDPOINTS)]
    refused = counted(["plan", *read, f"create r ram {SIZE:#x} nobody"], 8, "no such endpoint nobody\n")
    whole = counted(["plan", *read, f"create r ram {SIZE:#x} ways={WAYS}"], 0, "\n".join(rows) + "\n")
    return [(f"{name}: files", refused), (f"{name}: the pick", whole.past(refused))]


def plan(nodes):
    return picked(nodes, "plan ways=16", lambda n: 0)


# ---- codes: the same, where windows one after another have other codes, and the last has the first


def codes(nodes):
    return picked(nodes, "all codes", lambda n: n % 7)


# ---- creates: a session's create and destroy over the same host


def creates(nodes):
    _, read = host_of(nodes, lambda n: 0)

    def answered(ways, count):
        # One way goes to an idle endpoint, and those are under the first bridge.
        size, window = ways * UNIT, 0 if ways == 1 else WINDOWS - 1
        script = put(f"{WORK}/script", f"create r ram {size:#x} ways={ways}\ndestroy r\n" * count)
        made = f"created r window {window} base {below(window):#x} size {size:#x} gran 256 ways {ways}\ndestroyed r\n"
        return counted(["run", *read], 0, made * count, script)

    return [(f"a create, ways={ways}", answered(ways, 5).past(answered(ways, 1)).each(4)) for ways in (1, WAYS)]


# ---- check: ten regions of sixteen ways in the window of each bridge


def check(nodes):
    *host, image = full_host(nodes)

    def answer(changed, status, text):
        return counted(["check", *files(*host, changed)], status, text)

    def breach(control, rule):
        changed, decoder = with_control(nodes, image, control)
        return answer(changed, 8, f"breach {rule} {decoder}\n")

    # No bytes; the last decoder with a code of no granularity; the last decoder with another granularity; the whole.
    read = answer(b"", 10, "error: image cut 0\n")
    blocks = breach(0x164F, "K4")
    ranges = breach(0x1641, "K12")
    whole = answer(image, 0, regions_of(nodes))
    return [
        ("check: table, topology", read),
        ("check: image, K1 to K8", blocks.past(read)),
        ("check: K9 to K12", ranges.past(blocks)),
        ("check: regions, text", whole.past(ranges)),
    ]


# ---- tables: route and normal


def large_table(size):
    """64 bridges, 64 windows of two ways, 64 times XOR maps, and records of no known type and no body in the rest."""
    records = b"".join(chbs(uid) for uid in range(64))
    for n in range(64):
        front = struct.pack("<BBHIQQBBHIHH", 1, 0, 44, 0, 2**32 + n * 2 * UNIT, 2 * UNIT, 1, 0, 0, 0, 0x06, 0)
        records += front + struct.pack("<II", n, (n + 1) % 64)
    records += b"".join(struct.pack("<BBHHBBQ", 2, 0, 16, 0, n % 7, 1, 0x404100) for n in range(64))
    return cedt(records + struct.pack("<BBH", 4, 0, 4) * ((size - 36 - len(records)) // 4))


def tables(size):
    made = large_table(size)
    read = files(made)
    return [("route", counted(["route", *read, "5"], 8, "no window\n")), ("normal", counted(["normal", *read], 0, made))]


# ---- topology: how it is read, and the image over it


def topology(nodes):
    host = full_host(nodes)
    idle = nodes % GROUP - 1
    # The error bit of the last decoder of the last idle endpoint is set.
    marred = host[2][:-16] + struct.pack("<I", 1 << 11) + host[2][-12:]
    nothing = counted(["check", *files(host[0], "=", "CXLHDM00")], 4, "error: topology toml\n")
    read = counted(["check", *files(*host[:2], "CXLHDM00")], 10, "error: image magic\n")
    image = counted(["check", *files(*host[:2], marred)], 8, f"breach K3 x{idle} {REGIONS - 1}\n")
    own = read.past(nothing)
    return [("topology", own), ("topology, without TOML", own.without_toml()), ("image, and K1 to K8", image.past(read))]


# ---- the jobs, each a function from a size to rows of a name and counts; new ones are named here

NODES, BYTES = (128, 256, 512, 1024), (2**17, 2**18, 2**19, 2**20)
JOBS = {"plan": (plan, NODES), "codes": (codes, NODES), "creates": (creates, NODES), "check": (check, NODES), "tables": (tables, BYTES), "topology": (topology, NODES)}

unknown = [name for name in WANTED if name not in JOBS]
if unknown:
    sys.exit(f"counts.sh: no job {unknown[0]}; there are {', '.join(JOBS)}")
print(f"{'part':<24} {'size':>8} {'millions':>9} {'growth':>7} {'allocations':>12} {'memory MB':>10}", flush=True)
for name in WANTED or JOBS:
    job, sizes = JOBS[name]
    before = {}
    for size in sizes:
        for part, counts in job(size):
            growth = f"{counts.instructions / before[part]:.1f}" if part in before else ""
            before[part] = counts.instructions
            print(
                f"{part:<24} {size:>8} {counts.instructions / 1e6:>9.2f} {growth:>7} {counts.allocations:>12}"
                f" {counts.memory / 1e6:>10.1f}",
                flush=True,
            )
END

python3 "$work/counts.py" "$cxlplan" "$work" "$@"
