#!/usr/bin/env bash
# Measures what the gate takes for each crate, from nothing: its proof, that of its tests, and its must-fail edits, in processor
# seconds of the prover.
#
# bench/gate.sh              the gate from nothing: proofs, tests, and the edits of what changed
# bench/gate.sh --kept       the gate, with what this machine keeps of earlier runs
# bench/gate.sh --whole      every proof and every edit
#
# It runs `./prove --all` on a copy of the repository, whose last lines it shows, and adds up what its provers take, once a second:
# so what a prover takes in its last second may be missing, and what two crates share, as a library that is read, counts for both.
# The gate runs as many provers at once as there are processors, so its wall time is shorter. "All processes" is what the run and
# all that it started took of the processors, as the system counts it.
set -euo pipefail
source "$(dirname "${BASH_SOURCE[0]}")/common.sh"
git -C "$top" ls-files -z -- crates crates.txt HANDLES prove .ci must-fail.sums | (cd "$top" && xargs -0 cp --parents -t "$work")
cd "$work"
python3 - "$@" <<'PYTHON'
"""Runs the gate, and adds up the processor time of the provers below it by crate and by what they prove."""
import os
import re
import resource
import subprocess
import sys
import time

TICKS = os.sysconf("SC_CLK_TCK")
KINDS = ["proof", "tests", "edits"]


def read(path):
    try:
        with open(path, "rb") as file:
            return file.read()
    except OSError:
        return b""


def parents():
    """Each process with its parent, and its processor time with that of the children for which it waited."""
    found = {}
    for name in filter(str.isdigit, os.listdir("/proc")):
        stat = read(f"/proc/{name}/stat").rpartition(b")")[2].split()
        if stat:
            found[int(name)] = (int(stat[1]), sum(map(int, stat[11:15])), int(stat[19]))
    return found


def is_below(process, top, found):
    while process in found and process != top:
        process = found[process][0]
    return process == top


def what(process):
    """The crate that a prover works on, and for what."""
    words = read(f"/proc/{process}/cmdline").decode(errors="replace").split("\0")
    if not words or os.path.basename(words[0]) != "rattle" or "--crate-name" not in words:
        return None
    try:
        room = os.path.basename(os.readlink(f"/proc/{process}/cwd"))
    except OSError:
        return None
    kind = "edits" if re.match("rt-edit-", room) else "tests" if "--test" in words else "proof"
    return words[words.index("--crate-name") + 1], kind


def main():
    start = time.time()
    words = {"": ["--anew"], "--kept": [], "--whole": ["--whole"]}.get(" ".join(sys.argv[1:]))
    if words is None:
        sys.exit("usage: bench/gate.sh [--kept | --whole]")
    with open("log", "wb") as log:
        gate = subprocess.Popen(["./prove", "--all", *words], stdin=subprocess.DEVNULL, stdout=log, stderr=subprocess.STDOUT)
    known, taken = {}, {}
    while gate.poll() is None:
        found = parents()
        for process, (_, ticks, begun) in found.items():
            if is_below(process, gate.pid, found):
                key = (process, begun)
                known[key] = known.get(key) or what(process)
                if known[key]:
                    taken[key] = max(ticks, taken.get(key, 0))
        time.sleep(1)
    table = {}
    for key, ticks in taken.items():
        crate, kind = known[key]
        table.setdefault(crate, dict.fromkeys(KINDS, 0))[kind] += ticks / TICKS
    print("| Crate | Proof | Tests | Edits |\n|---|---|---|---|")
    for crate in sorted(table, key=lambda it: -sum(table[it].values())):
        print(f"| `{crate}` | " + " | ".join(f"{table[crate][kind]:.0f}" for kind in KINDS) + " |")
    print("| all | " + " | ".join(f"{sum(it[kind] for it in table.values()):.0f}" for kind in KINDS) + " |")
    used = resource.getrusage(resource.RUSAGE_CHILDREN)
    print(f"\n{(time.time() - start) / 60:.0f} minutes of wall time. All processes: {(used.ru_utime + used.ru_stime) / 60:.0f} processor minutes.")
    with open("log", encoding="utf-8", errors="replace") as log:
        print("".join(log.readlines()[-4:]), end="")
    return gate.returncode


sys.exit(main())
PYTHON
