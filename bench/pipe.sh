#!/usr/bin/env bash
# Measures accesses over pipes: a script over a peer in C that keeps decoder registers, until so many accesses are answered.
#
# bench/pipe.sh [ACCESSES] [--read-back]    100,000,000 where none are said, which takes some half an hour
#
# The host has a bridge, two switches and sixteen endpoints with ten regions. The script shows them over and over, and takes the last
# one down and makes it again at each thousandth line. Each reply is compared, and the peer counts what it is asked. The program is
# crates/cxlbench/out/cxlbench, or the one that CXLBENCH names. It wants a C compiler.
set -euo pipefail
source "$(dirname "${BASH_SOURCE[0]}")/common.sh"
wanted=100000000
read_back=()
for word; do
    case "$word" in
    --read-back) read_back=(--read-back) ;;
    *) is_number_of_runs "$word" && wanted="$word" ;;
    esac
done
bench="$(realpath "${CXLBENCH:-$top/crates/cxlbench/out/cxlbench}")"
[[ -x "$bench" ]] || {
    echo "pipe.sh: $bench is not there; ./prove --bench builds it" >&2
    exit 2
}
cat >"$work/peer.c" <<'END'
/* Decoder registers of an image at the other end of two pipes: peer IMAGE TO FROM. It says how many accesses it answered. */
#include <inttypes.h>
#include <stdio.h>
#include <stdlib.h>
#include <string.h>

enum { NODES = 1024, WORDS = 4 + 8 * 10, COMMIT = 1 << 9, COMMITTED = 1 << 10, LOCK = 1 << 8 };
static uint32_t words[NODES][WORDS];
static unsigned counts[NODES];

static int is_endpoint(unsigned node) { return (words[node][0] >> 4 & 15) == 0; }

static int has_committed(unsigned node, unsigned decoder)
{
    for (; decoder < counts[node]; decoder++)
        if (words[node][4 + 8 * decoder + 4] & COMMITTED)
            return 1;
    return 0;
}

static void control(unsigned node, unsigned decoder, uint32_t *word, uint32_t value)
{
    if (*word & COMMITTED) {
        if (!(*word & LOCK) && !(value & COMMIT) && !has_committed(node, decoder + 1))
            *word &= ~(uint32_t)(COMMIT | COMMITTED);
    } else {
        *word = (value & 0x13ff) | (value & COMMIT ? COMMITTED : 0);
    }
}

static void put(unsigned node, unsigned off, uint32_t value)
{
    unsigned decoder = (off - 16) / 32, place = (off - 16) % 32 / 4;
    uint32_t *word = &words[node][off / 4];
    if (off == 4 && is_endpoint(node))
        *word = value & 2 || has_committed(node, 0) ? 2 : 0;
    else if (off < 16 || place == 7)
        return;
    else if (place == 4)
        control(node, decoder, word, value);
    else if (!(words[node][4 + 8 * decoder + 4] & COMMITTED))
        *word = place == 0 || place == 2 || (place == 5 && is_endpoint(node)) ? value & 0xf0000000 : value;
}

int main(int argc, char **argv)
{
    char line[128], magic[8];
    uint32_t nodes;
    uint64_t accesses = 0;
    FILE *image = argc == 4 ? fopen(argv[1], "rb") : NULL;
    if (!image || fread(magic, 8, 1, image) != 1 || memcmp(magic, "CXLHDM01", 8) || fread(&nodes, 4, 1, image) != 1 || nodes > NODES)
        return 2;
    for (unsigned node = 0; node < nodes; node++) {
        if (fread(words[node], 16, 1, image) != 1)
            return 2;
        counts[node] = words[node][0] & 15 ? 2 * (words[node][0] & 15) : 1;
        if (counts[node] > 10 || fread(words[node] + 4, 32, counts[node], image) != counts[node])
            return 2;
    }
    FILE *to = fopen(argv[2], "r"), *from = fopen(argv[3], "w");
    if (!to || !from)
        return 2;
    while (fgets(line, sizeof line, to)) {
        unsigned node, off, value;
        accesses++;
        if (line[0] == 'r' && sscanf(line + 2, "%u 0x%x", &node, &off) == 2 && node < nodes)
            fprintf(from, "0x%08" PRIx32 "\n", words[node][off / 4]);
        else if (line[0] == 'w' && sscanf(line + 2, "%u 0x%x 0x%x", &node, &off, &value) == 3 && node < nodes)
            put(node, off, value), fputs("ok\n", from);
        else
            fputs("failed\n", from);
        if (fflush(from))
            break;
    }
    fprintf(stderr, "%" PRIu64 "\n", accesses);
    return 0;
}
END
cc -O2 -Wall -Wextra -o "$work/peer" "$work/peer.c"
cat >"$work/pipe.py" <<'END'
import os
import subprocess
import sys
import time

from shared import GROUP, REGIONS, SWITCHES, WAYS, full_host, put

BENCH, WORK, WANTED, WORDS = sys.argv[1], sys.argv[2], int(sys.argv[3]), sys.argv[4:]
TURN = 1000  # lines from one region made anew to the next
os.chdir(WORK)
cedt, topo, image = full_host(GROUP)
files = [put("cedt", cedt), put("topo", topo), put("image", image)]
for pipe in ("to", "from"):
    os.mkfifo(pipe)
last = f"auto{REGIONS - 1}"
ends = " ".join(f"e0_{slot % SWITCHES}_{slot // SWITCHES}" for slot in range(WAYS))
again = f"destroy {last}\ncreate {last} ram {WAYS * 2**28:#x} {ends}\n"


def run(script):
    """The seconds, the accesses, and how often each line of the replies came."""
    with open("script", "w") as file:
        file.writelines(script)
    with open("script") as asked:
        peer = subprocess.Popen(["./peer", files[2], "to", "from"], stderr=subprocess.PIPE)
        began, lines = time.monotonic(), {}
        bench = subprocess.Popen([BENCH, *WORDS, *files, "to", "from"], stdin=asked, stdout=subprocess.PIPE, stderr=subprocess.DEVNULL)
        for line in bench.stdout:
            lines[line] = lines.get(line, 0) + 1
        status = bench.wait()
        took = time.monotonic() - began
    if status:
        sys.exit(f"pipe.sh: it ended with {status}")
    return took, int(peer.stderr.read()), lines


# what a show and what a turn come to
_, none, _ = run([])
_, shown, show = run(["show auto0\n"])
_, turned, made = run([again])
lines = -(-(WANTED - none) // (min(shown, turned) - none))
script = ["show auto0\n" if number % TURN else again for number in range(1, lines + 1)]
turns = lines // TURN
took, accesses, came = run(script)
wanted = {line: count * (lines - turns) for line, count in show.items()}
for line, count in made.items():
    wanted[line] = wanted.get(line, 0) + count * turns
if {line: count for line, count in wanted.items() if count} != came:
    sys.exit("pipe.sh: other replies than wanted")
print(f"{accesses:,} accesses, {accesses - none:,} of them by {lines + turns:,} lines, in {took:.1f} s: {took / accesses * 1e6:.2f} us each")
END
PYTHONPATH="$work" PYTHONDONTWRITEBYTECODE=1 python3 "$work/pipe.py" "$bench" "$work" "$wanted" ${read_back[@]+"${read_back[@]}"}
