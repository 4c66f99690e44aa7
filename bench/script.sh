#!/usr/bin/env bash
# Measures how fast a script is cut into lines and read as commands, beside `awk` counting the bytes of first words.
#
# bench/script.sh [TIMES]    3 rounds, unless another number is given
#
# It makes a script of 16 MiB of loads and stores, proves and builds a program of its own in a folder that it makes and
# takes away again, and runs both over the script. README.md says what the columns mean.
set -euo pipefail
source "$(dirname "${BASH_SOURCE[0]}")/common.sh"
rounds="${1:-3}"
if [[ ! "$rounds" =~ ^[1-9][0-9]?$ ]]; then
    echo "script.sh: $rounds is no number of rounds from 1 to 99" >&2
    exit 2
fi
begin_program script_bench "cxl_script cxl_io cxl_enc" cxl_enc cxl_io cxl_script

cat >"$program/src/main.rt" <<'END'
//! Cuts standard input into lines, reads each as a command, and counts what the lines ask for.
#![tactic(auto)]

use cxl_io::{LineReader, Source, StdSource, Taken};
use cxl_script::{Command, LineFault, read_command};
use std::alloc::Global;
use std::io;

/// How many lines asked for what.
#[derive(Drop)]
struct Counts {
    loads: u64,
    stores: u64,
    others: u64,
    bad: u64,
}

impl Counts {
    fn count(&mut self, alloc: Global, line: &[u8]) -> Result<(), LineFault> {
        let place = match read_command(alloc, line) {
            Ok(Some(Command::Load(_))) => &mut self.loads,
            Ok(Some(Command::Store(_))) => &mut self.stores,
            Ok(_) => &mut self.others,
            Err(LineFault::Bad(_)) => &mut self.bad,
            Err(LineFault::Memory) => return Err(LineFault::Memory),
        };
        *place = place.wrapping_add(1);
        Ok(())
    }
}

/// The counts of all lines, and what the reader ends with.
fn counted<S: Source>(alloc: Global, source: &mut S) -> Result<(Counts, Taken), LineFault> {
    let mut counts = Counts { loads: 0, stores: 0, others: 0, bad: 0 };
    let mut reader = match LineReader::new(alloc) {
        Ok(reader) => reader,
        Err(_) => return Err(LineFault::Memory),
    };
    for _ in 0..u64::MAX {
        match reader.next(source) {
            Taken::Line => counts.count(alloc, reader.line())?,
            Taken::Long => counts.bad = counts.bad.wrapping_add(1),
            end => return Ok((counts, end)),
        }
    }
    Ok((counts, Taken::End))
}

fn main(rt: HostRuntime) -> io::Result<()> {
    let mut source = StdSource::new(rt.reader());
    match counted(rt.alloc(), &mut source) {
        Ok((counts, Taken::End)) => {
            println!(rt; "{} {} {} {}", counts.loads, counts.stores, counts.others, counts.bad)
        }
        _ => println!(rt; "not read to its end"),
    }
}
END

python3 - "$work/script" <<'END'
"""16 MiB of loads and stores of one to sixteen bytes, in turn, at addresses without a pattern."""
import random
import sys

LIMIT = 16 * 2**20
random.seed(1)
size = 0
with open(sys.argv[1], "w") as script:
    while True:
        at = 0x100000000 + random.randrange(2**28)
        line = f"load {at:#x} {random.randrange(1, 257)}\n"
        line += f"store {at:#x} {random.randbytes(random.randrange(1, 17)).hex()}\n"
        size += len(line)
        if size > LIMIT:
            break
        script.write(line)
END

build_program
loads="$(grep -c ^load "$work/script")"
stores="$(grep -c ^store "$work/script")"
said="$("$program/out/script_bench" <"$work/script")"
if [[ "$said" != "$loads $stores 0 0" ]]; then
    echo "script.sh: $said is not $loads $stores 0 0" >&2
    exit 1
fi
# seconds of the processor, the system's for the process among them
TIMEFORMAT='%U %S'
sum() { awk '{ printf "%.3f", $1 + $2 }'; }
printf '%10s %10s %14s %14s\n' bytes lines 'commands s' 'awk s'
for ((round = 0; round < rounds; round++)); do
    ours="$( { time "$program/out/script_bench" <"$work/script" >/dev/null; } 2>&1 | sum)"
    awks="$( { time awk '{ n += length($1) } END { print n }' "$work/script" >/dev/null; } 2>&1 | sum)"
    printf '%10s %10s %14s %14s\n' "$(stat -c %s "$work/script")" "$((loads + stores))" "$ours" "$awks"
done
