#!/usr/bin/env bash
# Measures `plan`: over sixteen named endpoints below five levels of nodes, with 64 windows of which the last takes the
# region, and with `ways=16` on topologies of 128, 256, 512 and 1,024 nodes, the most that one may have: the processor
# time of a whole run of the program, and what of it is the plan's own.
#
# bench/plan.sh [RUNS]    the least time of 20 runs, unless another number is given
#
# The files are made in a folder that it takes away again, and each answer is compared with one worked out here.
# README.md says what the columns mean.
set -euo pipefail
source "$(dirname "${BASH_SOURCE[0]}")/common.sh"
is_number_of_runs "${1:-20}"
with_program

cat >"$work/plan.py" <<'END'
import sys

from shared import ENDPOINTS, GROUP, SIZE, SWITCHES, UNIT, WAYS, put, table, timed, tree

PROGRAM, WORK, RUNS = sys.argv[1], sys.argv[2], int(sys.argv[3])
FILES = [f"{WORK}/{name}" for name in ("table", "topology")]
WINDOWS = 64
# The nodes of a tree of five levels above its endpoints, from the bridge down.
LEVELS = (1, 1, 2, 4, 8)
# A line that is refused as soon as the files are read.
REFUSED = (f"create r ram {SIZE:#x} nobody", (8, "no such endpoint nobody\n"))


def base_of(window):
    return (window + 1) * 2 * SIZE


def node(name, parent, port, more=""):
    return f'{{ name = "{name}", parent = "{parent}", port = {port}{more} }}'


def idle_ends(count, parents):
    """Endpoints below these nodes in turn, behind the ports that lead to others."""
    return [node(f"x{i}", parents[i % len(parents)], 8 + i // len(parents), f", ram = {UNIT}") for i in range(count)]


def head(window, ways):
    return f"plan r ram window {window} base {base_of(window):#x} size {SIZE:#x} gran 256 ways {ways}\n"


def port_row(name, code, ports):
    return f"row {name} 0 ways {len(ports)} gran {256 << code} targets {','.join(map(str, ports))}\n"


def end_row(name):
    return f"row {name} 0 ways {WAYS} gran 256 skip 0x0\n"


def deep(nodes):
    """A bridge, four levels of switches and sixteen endpoints, and idle endpoints; all windows but the last are too small."""
    names = [[f"n{level}_{i}" for i in range(count)] for level, count in enumerate(LEVELS)]
    names[0] = ["b0"]
    ends = [f"e{i}" for i in range(WAYS)]
    levels = [*names, ends]

    def below(level, more=""):
        above, own = levels[level - 1], levels[level]
        share = len(own) // len(above)
        return [node(name, above[i // share], i % share, more) for i, name in enumerate(own)]

    switches = [made for level in range(1, len(LEVELS)) for made in below(level)]
    used = sum(map(len, levels))
    own = below(len(LEVELS), f", ram = {UNIT}")
    topology = tree(['{ name = "b0", uid = 0 }'], switches, own + idle_ends(nodes - used, sum(names, [])))
    windows = [(base_of(n), SIZE - UNIT * (n < WINDOWS - 1), 0) for n in range(WINDOWS)]
    rows, code = [], 0
    for level, own_names in enumerate(names):
        ports = range(len(levels[level + 1]) // len(own_names))
        rows += [port_row(name, code, ports) for name in own_names]
        code += len(ports).bit_length() - 1
    text = head(WINDOWS - 1, WAYS) + "".join(rows + [end_row(name) for name in ends])
    line = f"create r ram {SIZE:#x} {' '.join(reversed(ends))}"
    return table(1, windows), topology, (line, (0, text))


def wide(nodes):
    """Groups of a bridge, two switches and sixteen endpoints, and idle endpoints; three windows are over groups without ram."""
    groups = nodes // GROUP
    bridges = [f'{{ name = "b{g}", uid = {g} }}' for g in range(groups)]
    switches = [node(f"s{g}_{s}", f"b{g}", s) for g in range(groups) for s in range(SWITCHES)]
    last = groups - 1
    ends = [
        node(f"e{g}_{s}_{e}", f"s{g}_{s}", e, f", {'ram' if g == last else 'pmem'} = {UNIT}")
        for g in range(groups)
        for s in range(SWITCHES)
        for e in range(ENDPOINTS)
    ]
    topology = tree(bridges, switches, ends + idle_ends(nodes - groups * GROUP, ["b0"]))
    windows = [(base_of(n), SIZE, uid) for n, uid in enumerate((0, 1, 2, last))]
    rows = [port_row(f"b{last}", 0, range(SWITCHES))]
    rows += [port_row(f"s{last}_{s}", 1, range(ENDPOINTS)) for s in range(SWITCHES)]
    rows += [end_row(f"e{last}_{s}_{e}") for s in range(SWITCHES) for e in range(ENDPOINTS)]
    text = head(3, WAYS) + "".join(rows)
    return table(groups, windows), topology, (f"create r ram {SIZE:#x} ways={WAYS}", (0, text))


def measure(made):
    """The least times, in milliseconds, of the line and of one that is refused at once; each has to answer what is wanted."""
    put(FILES[0], made[0])
    put(FILES[1], made[1])
    least = []
    for _ in range(RUNS):
        took = []
        for line, wanted in (made[2], REFUSED):
            said, seconds = timed([PROGRAM, "plan", *FILES, line], f"{WORK}/out")
            if said != wanted:
                sys.exit(f"{line}: {said[0]} {said[1][:400]}, not {wanted[0]} {wanted[1][:400]}")
            took.append(seconds * 1000)
        least = [min(pair) for pair in zip(least, took)] if least else took
    return least


def show(name, sizes, made):
    before = None
    for nodes in sizes:
        whole, refused = measure(made(nodes))
        own = whole - refused
        growth = f"{own / before:.1f}" if before else ""
        print(f"{name:>6} {nodes:>6} {whole:>8.2f} {refused:>11.2f} {own:>7.2f} {growth:>7}", flush=True)
        before = own


print(f"{'line':>6} {'nodes':>6} {'run ms':>8} {'refused ms':>11} {'own ms':>7} {'growth':>7}", flush=True)
show("named", (32, 1024), deep)
show("ways", (128, 256, 512, 1024), wide)
END

python3 "$work/plan.py" "$cxlplan" "$work" "${1:-20}"
