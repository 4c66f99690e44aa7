#!/usr/bin/env python3
"""Writes down each register access of cxlbench, between it and its peer.

    mkfifo to from behind-to behind-from
    registers.py --reset examples/four-endpoints.image behind-to behind-from &
    trace.py accesses.csv to from behind-to behind-from &
    cxlbench examples/four-endpoints.cedt examples/four-endpoints.toml to from < SCRIPT

A log whose name ends in .vcd is a value change dump, as GTKWave reads it; any other is CSV with a line of names, as
PulseView and spreadsheets read it. An access takes one unit of time: nobody says when the registers were reached."""

import sys
from typing import NamedTuple, TextIO


class Access(NamedTuple):
    number: int
    is_write: bool
    node: int
    off: int
    value: int  # that is written, or that was read
    failed: bool


def access_of(number: int, question: str, answer: str) -> Access:
    verb, node, off, *value = question.split()
    failed = answer != "ok" if verb == "w" else not answer.startswith("0x")
    word = value[0] if verb == "w" else "0" if failed else answer
    return Access(number, verb == "w", int(node), int(off, 16), int(word, 16), failed)


class Csv:
    def __init__(self, log: TextIO):
        self.log = log
        log.write("number,access,node,offset,value,failed\n")

    def put(self, it: Access) -> None:
        kind = "write" if it.is_write else "read"
        self.log.write(f"{it.number},{kind},{it.node},0x{it.off:x},0x{it.value:08x},{it.failed:d}\n")


class Vcd:
    # each signal's name, its width in bits, and the mark by which the dump has it
    SIGNALS = {"is_write": (1, "w"), "node": (16, "n"), "off": (16, "o"), "value": (32, "v"), "failed": (1, "f")}

    def __init__(self, log: TextIO):
        self.log = log
        log.write("$timescale 1 ns $end\n$scope module registers $end\n")
        for name, (width, mark) in self.SIGNALS.items():
            log.write(f"$var wire {width} {mark} {name} $end\n")
        log.write("$upscope $end\n$enddefinitions $end\n")

    def put(self, it: Access) -> None:
        self.log.write(f"#{it.number}\n")
        for name, (width, mark) in self.SIGNALS.items():
            value = int(getattr(it, name))
            self.log.write(f"{value}{mark}\n" if width == 1 else f"b{value:b} {mark}\n")


def trace(log: TextIO, is_vcd: bool, to: str, back: str, behind_to: str, behind_back: str) -> None:
    """Hands each line on and its answer back, until the program has closed its pipe."""
    accesses = (Vcd if is_vcd else Csv)(log)
    with open(to, encoding="ascii") as asked, open(back, "w", encoding="ascii", buffering=1) as told, \
            open(behind_to, "w", encoding="ascii", buffering=1) as ask, open(behind_back, encoding="ascii") as tell:
        for number, question in enumerate(asked, 1):
            ask.write(question)
            answer = tell.readline()
            accesses.put(access_of(number, question, answer.rstrip("\n")))
            log.flush()
            told.write(answer)


def main() -> int:
    if len(sys.argv) != 6:
        print("usage: trace.py LOG TO FROM BEHIND_TO BEHIND_FROM", file=sys.stderr)
        return 1
    with open(sys.argv[1], "w", encoding="ascii") as log:
        trace(log, sys.argv[1].endswith(".vcd"), *sys.argv[2:])
    return 0


if __name__ == "__main__":
    sys.exit(main())
