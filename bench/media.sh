#!/usr/bin/env bash
# Measures the shipped media (`SimMedia`): what commands take by the frames that the topology states, of which a block
# or two are in use, and by the blocks of another region (instructions by callgrind, so it wants valgrind); and as the
# frames fill up the time of a put, a get and a scrub, and how many cells of its index a probe meets, counted outside of
# it with the same homes and the same rule.
#
# bench/media.sh commands      the commands alone, by the built program, or by that which CXLPLAN names
# bench/media.sh [FRAMES..]    the rest, at 65536 and 1048576, unless other numbers of frames (100 to 1048576) are given
#
# For the second it proves and builds a program of its own in a folder that it makes and takes away again. README.md
# says what the columns mean.
set -euo pipefail
source "$(dirname "${BASH_SOURCE[0]}")/common.sh"
if [[ "$*" == commands ]]; then
    needs_valgrind
    with_program
    cat >"$work/commands.py" <<'END'
"""Counts what commands take by the frames that the topology states: instructions of the program's own, and time."""
import os
import re
import resource
import subprocess
import sys

from shared import UNIT, put, table

PROGRAM, WORK = sys.argv[1:3]
BASE = 2**36
ROUNDS = 10
os.chdir(WORK)
FILES = [put("m.cedt", table(1, [(BASE, 4 * UNIT, 0)])), "m.toml"]
MAKE = f"create a ram {UNIT} e0\ncreate b ram {UNIT} e0\nstore 0x{BASE:x} 5a\n"
MADE = [f"created a window 0 base 0x{BASE:x} size 0x{UNIT:x} gran 256 ways 1\n",
        f"created b window 0 base 0x{BASE + UNIT:x} size 0x{UNIT:x} gran 256 ways 1\n", "stored 1\n"]
NEXT = BASE + 2 * UNIT
# Each is carried out in pairs, and says as much.
JOBS = {
    "move of one piece": ("move a b\nmove b a\n", ["moved a b pieces 1\n", "moved b a pieces 1\n"]),
    "create, store, destroy": (f"create c ram {UNIT} e0\nstore 0x{NEXT:x} 5a\ndestroy c\n" * 2,
                               [f"created c window 0 base 0x{NEXT:x} size 0x{UNIT:x} gran 256 ways 1\n", "stored 1\n", "destroyed c\n"] * 2),
    "load of 8 bytes, none there": (f"load 0x{BASE + 4096:x} 8\n" * 2, ["bytes 0000000000000000\n"] * 2),
}


def run(script, wanted):
    """The processor time of a run whose answers are what they must be, in seconds."""
    before = resource.getrusage(resource.RUSAGE_CHILDREN)
    ran = subprocess.run([PROGRAM, "run", *FILES], input=script.encode(), stdout=subprocess.PIPE, check=False)
    after = resource.getrusage(resource.RUSAGE_CHILDREN)
    if ran.returncode or ran.stdout.decode() != "".join(wanted):
        sys.exit("media.sh: another answer than was worked out")
    return after.ru_utime + after.ru_stime - before.ru_utime - before.ru_stime, after.ru_minflt - before.ru_minflt


def instructions(script):
    ran = subprocess.run(["valgrind", "--tool=callgrind", f"--callgrind-out-file={WORK}/callgrind", PROGRAM, "run", *FILES],
                         input=script.encode(), stdout=subprocess.DEVNULL, stderr=subprocess.PIPE, check=False)
    return int(re.search(r"Collected : (\d+)", ran.stderr.decode())[1])


def topology(frames):
    put("m.toml", f'frames = {frames}\nbridge = [{{ name = "hb0", uid = 0, decoders = 10 }}]\n'
        f'endpoint = [{{ name = "e0", parent = "hb0", port = 0, ram = {4 * UNIT}, decoders = 10 }}]\n')


def created(name, base):
    return f"created {name} window 0 base 0x{base:x} size 0x{UNIT:x} gran 256 ways 1\n"


def beside(blocks):
    """What a move and a create with its destroy take where another region of the endpoint has so many blocks."""
    made = f"create d ram {UNIT} e0\n" + "".join(f"store 0x{BASE + 256 * n:x} 5a\n" for n in range(blocks))
    made += f"create a ram {UNIT} e0\ncreate b ram {UNIT} e0\nstore 0x{BASE + UNIT:x} 5a\n"
    says = [created("d", BASE)] + ["stored 1\n"] * blocks + [created("a", BASE + UNIT), created("b", BASE + 2 * UNIT), "stored 1\n"]
    base = instructions(made)
    last = BASE + 3 * UNIT
    for name, lines, more, each in (
            ("move of one piece", "move a b\nmove b a\n", ["moved a b pieces 1\n", "moved b a pieces 1\n"], 2),
            ("create, destroy", f"create c ram {UNIT} e0\ndestroy c\n", [created("c", last), "destroyed c\n"], 1)):
        script = made + lines * ROUNDS
        run(script, says + more * ROUNDS)
        print(f"{blocks:>8} {name:<28}{(instructions(script) - base) / (each * ROUNDS):>14.0f}")


print(f"{'frames':>8} {'':<28}{'instructions':>14}{'µs':>10}{'page faults of an empty script':>34}")
for frames in (1000, 65536, 1048576):
    topology(frames)
    faults = min(run("", [])[1] for _ in range(5))
    base = instructions(MAKE)
    alone = min(run(MAKE, MADE)[0] for _ in range(5))
    for name, (lines, says) in JOBS.items():
        script = MAKE + lines * ROUNDS
        took = min(run(script, MADE + says * ROUNDS)[0] for _ in range(5)) - alone
        each = (instructions(script) - base) / (2 * ROUNDS)
        print(f"{frames:>8} {name:<28}{each:>14.0f}{max(took, 0) * 1e6 / (2 * ROUNDS):>10.1f}{faults:>34}")
print()
print(f"{'blocks':>8} {'of another region':<28}{'instructions':>14}")
for blocks in (0, 16000, 60000, 250000):
    beside(blocks)
print()
END
    python3 "$work/commands.py" "$cxlplan" "$work"
    exit
fi
[[ $# -gt 0 ]] || set -- 65536 1048576
for frames in "$@"; do
    if [[ ! "$frames" =~ ^[1-9][0-9]{2,6}$ ]] || ((frames > 1048576)); then
        echo "media.sh: $frames is no number of frames from 100 to 1048576" >&2
        exit 2
    fi
done
begin_program media_bench "cxl_media" cxl_enc cxl_media

cat >"$program/src/main.rt" <<'END'
//! Times puts, gets and scrubs of the shipped media at a number of frames that the first word gives.
#![tactic(auto)]

ghost use Rattle.std.specs.Prelude.{IsTrue};
ghost use Rattle.cxl_media.specs.Blocks.{IsInOneBlock};

use cxl_media::{Media, SimMedia};
use std::rt::Env;
use std::time::{CpuClock, Duration};
use std::{env, io};

/// Which blocks are written, in which order.
#[derive(Clone, Copy)]
enum Pattern {
    /// One endpoint, block after block.
    OneDense,
    /// Eight endpoints in turn, block after block.
    EightDense,
    /// Eight endpoints in turn, a block of each 4 KiB.
    EightPages,
    /// Eight endpoints in turn, a block of each 1 MiB.
    EightMegabytes,
    /// 1,024 endpoints in turn, block after block from 256 MiB on.
    ManyDense,
    /// Eight endpoints in turn, blocks anywhere in 4 EiB.
    Random,
}

impl Pattern {
    const ALL: [Pattern; 6] = [
        Pattern::OneDense,
        Pattern::EightDense,
        Pattern::EightPages,
        Pattern::EightMegabytes,
        Pattern::ManyDense,
        Pattern::Random,
    ];

    fn name(self) -> &'static str {
        match self {
            Pattern::OneDense => "one-dense",
            Pattern::EightDense => "eight-dense",
            Pattern::EightPages => "eight-pages",
            Pattern::EightMegabytes => "eight-megabytes",
            Pattern::ManyDense => "many-dense",
            Pattern::Random => "random",
        }
    }

    /// The endpoint and the number of the n-th block.
    fn key(self, n: u32) -> (u32, u64) {
        let eighth = u64::from(n / 8);
        match self {
            Pattern::OneDense => (9, u64::from(n)),
            Pattern::EightDense => (9 + n % 8, eighth),
            Pattern::EightPages => (9 + n % 8, eighth.wrapping_mul(16)),
            Pattern::EightMegabytes => (9 + n % 8, eighth.wrapping_mul(4096)),
            Pattern::ManyDense => (n % 1024, u64::from(n / 1024).wrapping_add(1 << 20)),
            Pattern::Random => (9 + n % 8, scattered(u64::from(n)) >> 10),
        }
    }
}

/// A number without a pattern, from its place in a row.
fn scattered(n: u64) -> u64 {
    let a = n.wrapping_add(1).wrapping_mul(0x9E37_79B9_7F4A_7C15);
    let b = (a ^ (a >> 30)).wrapping_mul(0xBF58_476D_1CE4_E5B9);
    let c = (b ^ (b >> 27)).wrapping_mul(0x94D0_49BB_1331_11EB);
    c ^ (c >> 31)
}

fn is_in_block(dpa: u64, len: usize) -> bool
    ensures { IsTrue result → IsInOneBlock dpa len }
{
    0 < len && len <= 256 && dpa % 256 + len as u64 <= 256
}

/// Puts eight bytes into each of these blocks; how many puts were refused.
fn put_all(media: &mut SimMedia, pattern: Pattern, from: u32, to: u32) -> u32 {
    let mut refused = 0_u32;
    for n in from..to {
        let (ep, number) = pattern.key(n);
        let dpa = number.wrapping_mul(256);
        if is_in_block(dpa, 8) && media.put(ep, dpa, &u64::from(n).to_le_bytes()).is_err() {
            refused = refused.wrapping_add(1);
        }
    }
    refused
}

/// Gets eight bytes of each of these blocks; how many of them were not what `put_all` writes.
fn get_all(media: &SimMedia, pattern: Pattern, from: u32, to: u32) -> u32 {
    let mut others = 0_u32;
    let mut room = [0; 8];
    for n in from..to {
        let (ep, number) = pattern.key(n);
        let dpa = number.wrapping_mul(256);
        if is_in_block(dpa, 8) {
            media.get(ep, dpa, &mut room);
        }
        if u64::from_le_bytes(room) != u64::from(n) {
            others = others.wrapping_add(1);
        }
    }
    others
}

/// Nanoseconds a call.
fn each(took: Duration, calls: u32) -> f64 {
    took.as_secs_f64() * 1e9 / f64::from(calls.max(1))
}

/// Fills media to 50, 90, 99 and 100 percent, and scrubs it.
fn time_pattern<R: CpuClock + Print>(rt: &R, media: &mut SimMedia, pattern: Pattern, frames: u32) -> io::Result<()> {
    let name = pattern.name();
    let mut filled = 0;
    for percent in [50_u32, 90, 99, 100] {
        let to = u64::from(frames).wrapping_mul(u64::from(percent)) / 100;
        let to = u32::try_from(to).unwrap_or(frames).min(1 << 20);
        let start = rt.thread_cpu_time()?;
        let refused = put_all(media, pattern, filled, to);
        let put = rt.thread_cpu_time()?;
        let wrong = get_all(media, pattern, 0, to);
        let got = rt.thread_cpu_time()?;
        let zeros = get_all(media, pattern, frames, frames.saturating_add(to));
        let end = rt.thread_cpu_time()?;
        let put_ns = each(put.saturating_sub(start), to.saturating_sub(filled));
        let get_ns = each(got.saturating_sub(put), to);
        let absent_ns = each(end.saturating_sub(got), to);
        let bad = refused | wrong | (to.wrapping_sub(zeros));
        println!(rt; "fill {frames} {name} {percent} {put_ns:.0} {get_ns:.0} {absent_ns:.0} {bad}")?;
        filled = to;
    }
    for (what, ep, to) in [("one-block", 8, 256), ("whole-range", 8, 1 << 63), ("one-endpoint", 9, 1 << 63)] {
        let free = media.free();
        let start = rt.thread_cpu_time()?;
        media.scrub(ep, 0, to);
        let end = rt.thread_cpu_time()?;
        let us = each(end.saturating_sub(start), 1000);
        let freed = media.free().wrapping_sub(free);
        println!(rt; "scrub {frames} {name} {what} {us:.0} {freed}")?;
    }
    Ok(())
}

/// The number that the first word of the command line is.
fn frames_of(rt: &(impl Env + AllocGlobal)) -> io::Result<u32> {
    let mut words = env::args(rt)?.skip(1);
    let word = words.next();
    Ok(word.and_then(|w| w.parse().ok()).unwrap_or(0))
}

fn main(rt: HostRuntime) -> io::Result<()> {
    let frames = frames_of(&rt)?;
    if frames == 0 || frames > 1 << 20 {
        return println!(rt; "give a number of frames, at most 1048576");
    }
    let mut media = SimMedia::new(rt.alloc());
    for pattern in Pattern::ALL {
        if media.power_on(rt.alloc(), frames).is_err() {
            return println!(rt; "out of memory");
        }
        time_pattern(&rt, &mut media, pattern, frames)?;
    }
    Ok(())
}
END

cat >"$work/join.py" <<'END'
"""Joins what the program measured with a count of the places that a probe meets, and of the blocks that a scrub frees."""
import sys

M64 = 2**64 - 1
LEVELS = (50, 90, 99, 100)


def home(ep, number, homes):
    spread = (ep * 0xD1B54A32D192ED03 + number) * 0x9E3779B97F4A7C15 & M64
    mixed = (spread ^ spread >> 32) * 0xD1B54A32D192ED03 & M64
    return (mixed >> 32) * homes >> 32


def scattered(n):
    a = (n + 1) * 0x9E3779B97F4A7C15 & M64
    b = (a ^ a >> 30) * 0xBF58476D1CE4E5B9 & M64
    c = (b ^ b >> 27) * 0x94D049BB133111EB & M64
    return c ^ c >> 31


# The endpoint and the number of the n-th block.
PATTERNS = {
    "one-dense": lambda n: (9, n),
    "eight-dense": lambda n: (9 + n % 8, n // 8),
    "eight-pages": lambda n: (9 + n % 8, n // 8 * 16),
    "eight-megabytes": lambda n: (9 + n % 8, n // 8 * 4096),
    "many-dense": lambda n: (n % 1024, n // 1024 + 2**20),
    "random": lambda n: (9 + n % 8, scattered(n) >> 10),
}


def met(key, frames):
    """At each level, the places that a probe meets: mean and most for the blocks that are there, and for as many
    that are not."""
    taken = bytearray(3 * frames)
    total = most = filled = 0
    levels = {}
    for percent in LEVELS:
        to = frames * percent // 100
        for n in range(filled, to):
            first = home(*key(n), 2 * frames)
            at = taken.index(0, first)
            taken[at] = 1
            total += at - first + 1
            most = max(most, at - first + 1)
        filled = to
        absent = [home(*key(n), 2 * frames) for n in range(frames, frames + to)]
        lengths = [taken.index(0, first) - first + 1 for first in absent]
        levels[percent] = (total / to, most, sum(lengths) / to, max(lengths))
    return levels


SCRUBS = {"one-block": (8, 1), "whole-range": (8, 2**55), "one-endpoint": (9, 2**55)}


def freed_by_scrubs(key, frames):
    """How many blocks each scrub takes out, from a plain set."""
    held = {key(n) for n in range(frames)}
    freed = {}
    for what, (ep, below) in SCRUBS.items():
        gone = {it for it in held if it[0] == ep and it[1] < below}
        freed[what] = len(gone)
        held -= gone
    return freed


def show(words):
    print(f"{words[0]:>8} {words[1]:<16} {words[2]:>12}" + "".join(f"{it:>9}" for it in words[3:]), flush=True)


def fail(line):
    sys.exit(f"not what a plain count says: {line}")


levels, freed, scrubs = {}, {}, []
show(["frames", "blocks", "% in use", "put ns", "get ns", "none ns", "mean", "most", "mean", "most"])
for line in sys.stdin:
    said, frames, name, what, *numbers = line.split()
    frames = int(frames)
    if said == "fill":
        if what == "50":
            levels = met(PATTERNS[name], frames)
        put, get, absent, bad = numbers
        if bad != "0":
            fail(line)
        hit, most, miss, worst = levels[int(what)]
        show([frames, name, what, put, get, absent, f"{hit:.2f}", most, f"{miss:.2f}", worst])
    else:
        if what == "one-block":
            freed = freed_by_scrubs(PATTERNS[name], frames)
        took, gone = numbers
        if int(gone) != freed[what]:
            fail(line)
        scrubs.append([frames, name, what, took, gone, f"{int(took) * 1000 / frames:.2f}"])
print()
show(["frames", "blocks", "scrub of", "µs", "freed", "ns/frame"])
for words in scrubs:
    show(words)
print()
END

build_program 0
for frames in "$@"; do
    "$program/out/media_bench" "$frames" | python3 "$work/join.py"
done
