#!/usr/bin/env bash
# What a call of ./cxlplan takes beside the program that it runs, whose sources it looks at first: the processor time of so
# many calls of both, in milliseconds, the least and the median.
#
#   bench/call.sh [RUNS]
set -euo pipefail
# shellcheck source-path=SCRIPTDIR
. "$(dirname "${BASH_SOURCE[0]}")/common.sh"
runs="${1:-200}"
is_number_of_runs "$runs"
"$top/cxlplan" --version >"$work/version"
python3 - "$runs" "$top/cxlplan" "$top/crates/cxlplan/out/cxlplan" <<'END'
import os
import statistics
import sys


def taken(program):
    """The milliseconds that a call takes, of the processor alone."""
    silent = [(os.POSIX_SPAWN_OPEN, 1, os.devnull, os.O_WRONLY, 0)]
    child = os.posix_spawn(program, [program, "--version"], os.environ, file_actions=silent)
    _, status, used = os.wait4(child, 0)
    if status:
        sys.exit(f"call.sh: {program} --version ended with {status}")
    return 1000 * (used.ru_utime + used.ru_stime)


for program in sys.argv[2:]:
    each = sorted(taken(program) for _ in range(int(sys.argv[1])))
    print(f"{os.path.relpath(program, os.path.dirname(sys.argv[2])):32} least {each[0]:.2f} ms, median {statistics.median(each):.2f} ms")
END
