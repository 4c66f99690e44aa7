#!/usr/bin/env bash
# What a call of libcxlplan takes from C and from Python, beside a process of the program: microseconds of the processor a call, the
# mean of so many, for `check`, `plan` and a script of one load over a host of four endpoints.
#
#   bench/library.sh [CALLS]
set -euo pipefail
# shellcheck source-path=SCRIPTDIR
. "$(dirname "${BASH_SOURCE[0]}")/common.sh"
calls="${1:-5000}"
is_number_of_runs "$calls"
built="${CXLPLAN_LIBRARIES:-$top/crates/cxl_c/out}"
program="${CXLPLAN:-$top/crates/cxlplan/out/cxlplan}"
host=("$top"/examples/four-endpoints.{cedt,toml,image})
cat >"$work/calls.c" <<'END'
#include <cxlplan.h>
#include <stdio.h>
#include <stdlib.h>
#include <string.h>
#include <time.h>

static char cedt[4096], topo[4096], image[4096], out[65536];
static size_t cedt_len, topo_len, image_len, written;

static size_t read_file(const char *name, char *bytes)
{
    FILE *from = fopen(name, "rb");
    size_t len = from ? fread(bytes, 1, 4096, from) : 0;

    if (from)
        fclose(from);
    return len;
}

static int check(void)
{
    return cxlplan_check(cedt, cedt_len, topo, topo_len, image, image_len, out, sizeof out, &written);
}

static int plan(void)
{
    static const char line[] = "create r0 pmem 0x20000000 d1 d2";

    return cxlplan_plan(cedt, cedt_len, topo, topo_len, line, sizeof line - 1, out, sizeof out, &written);
}

static int load(void)
{
    static const char script[] = "load 0x110000000 4\n";

    return cxlplan_run(cedt, cedt_len, topo, topo_len, image, image_len, script, sizeof script - 1, out, sizeof out, &written);
}

static void measure(const char *what, int (*call)(void), int calls)
{
    clock_t start = clock();

    for (int i = 0; i < calls; i++)
        if (call())
            exit(1);
    printf("%-24s %.1f us\n", what, 1e6 * (clock() - start) / CLOCKS_PER_SEC / calls);
}

int main(int count, char **words)
{
    if (count != 5)
        return 1;
    cedt_len = read_file(words[2], cedt);
    topo_len = read_file(words[3], topo);
    image_len = read_file(words[4], image);
    measure("C, check", check, atoi(words[1]));
    measure("C, plan", plan, atoi(words[1]));
    measure("C, a load", load, atoi(words[1]));
    return 0;
}
END
cc -O2 -I"$top/library" "$work/calls.c" -o "$work/calls" "$built/libcxlplan.a"
"$work/calls" "$calls" "${host[@]}"
PYTHONDONTWRITEBYTECODE=1 PYTHONPATH="$top/python" CXLPLAN_LIBRARY="$built/libcxlplan.so.1" \
    python3 - "$calls" "$program" "${host[@]}" <<'END'
import os
import sys
import tempfile
import time

from cxlplan import _library

calls, program, names = int(sys.argv[1]), sys.argv[2], sys.argv[3:]
cedt, topo, image = (open(name, "rb").read() for name in names)
LINE, SCRIPT = "create r0 pmem 0x20000000 d1 d2", b"load 0x110000000 4\n"


def measure(what, call, count):
    start = sum(os.times()[:4])
    for _ in range(count):
        if call():
            sys.exit(f"library.sh: {what} failed")
    print(f"{what:24} {1e6 * (sum(os.times()[:4]) - start) / count:.1f} us")


def process(*words, script=None):
    """A process of the program, and its status."""
    actions = [(os.POSIX_SPAWN_OPEN, 1, os.devnull, os.O_WRONLY, 0)]
    if script:
        actions.append((os.POSIX_SPAWN_OPEN, 0, script, os.O_RDONLY, 0))
    return os.waitpid(os.posix_spawn(program, [program, *words], os.environ, file_actions=actions), 0)[1]


measure("Python, check", lambda: _library.check(cedt, topo, image)[0], calls)
measure("Python, plan", lambda: _library.plan(cedt, topo, LINE)[0], calls)
measure("Python, a load", lambda: _library.run(cedt, topo, SCRIPT, image)[0], calls)
few = max(1, calls // 20)
measure("a process, check", lambda: process("check", *names), few)
measure("a process, plan", lambda: process("plan", *names[:2], LINE), few)
with tempfile.NamedTemporaryFile() as file:
    file.write(SCRIPT)
    file.flush()
    measure("a process, a load", lambda: process("run", *names, script=file.name), few)
END
