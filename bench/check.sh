#!/usr/bin/env bash
# Measures `check` on images of 128, 256, 512 and 1,024 nodes, the most that a topology may have: the processor time of a
# whole run of the program, of an image that is accepted and of one that breaks the last rule at its last decoder.
#
# bench/check.sh [RUNS]    the least time of 5 runs, unless another number is given
#
# The files are made in a folder that it takes away again, and each answer is compared with one worked out here.
# README.md says what the columns mean.
set -euo pipefail
source "$(dirname "${BASH_SOURCE[0]}")/common.sh"
is_number_of_runs "${1:-5}"
with_program

cat >"$work/check.py" <<'END'
import sys

from shared import GROUP, REGIONS, full_host, put, regions_of, timed, with_control

PROGRAM, WORK, RUNS = sys.argv[1], sys.argv[2], int(sys.argv[3])
FILES = [f"{WORK}/{name}" for name in ("table", "topology", "image")]


def measure(wanted):
    """The least time of the runs, in milliseconds, each of which has to answer what is wanted."""
    runs = [timed([PROGRAM, "check", *FILES], f"{WORK}/out") for _ in range(RUNS)]
    for said, _ in runs:
        if said != wanted:
            sys.exit(f"{said[0]} {said[1][:200]}, not {wanted[0]} {wanted[1][:200]}")
    return min(took for _, took in runs) * 1000


print(f"{'nodes':>6} {'committed':>10} {'accepted ms':>12} {'growth':>7} {'broken ms':>10} {'growth':>7}", flush=True)
before = None
for nodes in (128, 256, 512, 1024):
    host = full_host(nodes)
    for path, made in zip(FILES, host):
        put(path, made)
    good = measure((0, regions_of(nodes)))
    # The last decoder interleaves by 512 bytes.
    changed, decoder = with_control(nodes, host[2], 0x1641)
    put(FILES[2], changed)
    bad = measure((8, f"breach K12 {decoder}\n"))
    growth = [f"{now / then:.1f}" for now, then in zip((good, bad), before)] if before else ["", ""]
    committed = nodes // GROUP * GROUP * REGIONS
    print(f"{nodes:>6} {committed:>10} {good:>12.1f} {growth[0]:>7} {bad:>10.1f} {growth[1]:>7}", flush=True)
    before = (good, bad)
END

python3 "$work/check.py" "$cxlplan" "$work" "${1:-5}"
