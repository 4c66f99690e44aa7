"""Where QEMU's registers are less strict than this project's: writes that the profile drops, or
answers with the error bit, and that QEMU takes. Of the registers that they leave, `check` names the
rule that is broken."""

from dataclasses import dataclass
from typing import Callable

import program
from checks import COMMIT, COMMITTED, CONTROL, GLOBAL, Trial
from odd import FIRST, LOCK, STEP, put
from peer import image_of
from program import Word
from qtest import QemuFault

WAYS = 15 << 4


@dataclass
class Rule:
    """A name, the writes that QEMU takes, by the registers before them, and what `check` then
    says."""
    name: str
    writes: Callable
    breach: str


def place(decoder: int, word: int) -> int:
    return FIRST + STEP * decoder + word


def control(node: str, decoder: int, change: Callable) -> Callable:
    """A write to the control word: what it asks for, and what QEMU makes of it."""
    def writes(before: dict) -> list:
        at = node, place(decoder, CONTROL)
        value = change(before[at] & ~COMMITTED)
        return [Word(*at, value, value | (COMMITTED if value & COMMIT else 0))]
    return writes


def in_turn(*steps: Callable) -> Callable:
    """Several writes, each by the registers behind the ones before it."""
    def writes(before: dict) -> list:
        held, done = dict(before), []
        for step in steps:
            for word in step(held):
                held[word.node, word.off] = word.reads
                done.append(word)
        return done
    return writes


def kept(node: str, off: int, value: int) -> Word:
    """A write of which all bits are kept."""
    return Word(node, off, value, value)


def released(value: int) -> int:
    return value & ~COMMIT


def copied(node: str, source: int, decoder: int) -> Callable:
    """The range of one decoder for another."""
    return lambda before: [kept(node, place(decoder, it), before[node, place(source, it)]) for it in (0, 4, 8, 12)]


RULES = [
    Rule("order: decoder 1 is committed while decoder 0 is not", in_turn(
        control("hb16", 1, released), control("hb16", 0, released), control("hb16", 1, lambda it: it | COMMIT)),
        "breach K2 hb16 1"),
    Rule("release: decoder 0 is released below a committed one", control("hb16", 0, released), "breach K2 hb16 1"),
    Rule("rise: decoder 1 is committed at the base of decoder 0", in_turn(
        control("hb16", 1, released), copied("hb16", 0, 1), control("hb16", 1, lambda it: it | COMMIT)),
        "breach K7 hb16 1"),
    Rule("committed: the base of a committed decoder is written", lambda before: [
        kept("hb16", place(1, 0), before["hb16", place(0, 0)])], "breach K7 hb16 1"),
    Rule("lock: a locked decoder is released", in_turn(
        control("d1", 0, released), control("d1", 0, lambda it: it | LOCK | COMMIT), control("d1", 0, released)),
        "breach K2 d1 1"),
    Rule("size: a decoder of no bytes is committed", in_turn(
        control("d1", 1, released), lambda before: [kept("d1", place(1, 0x8), 0)],
        control("d1", 1, lambda it: it | COMMIT)), "breach K6 d1 1"),
    Rule("codes: an endpoint's decoder is committed with a ways code that stands for none", in_turn(
        control("d1", 1, released), control("d1", 1, lambda it: it & ~WAYS | 7 << 4 | COMMIT)), "breach K4 d1 1"),
    Rule("enable: an endpoint with committed decoders is disabled", lambda before: [kept("d1", GLOBAL, 0)],
         "breach K2 d1 0"),  # the last, so that a store finds the endpoint so
]
ABORTS = Rule("abort: a bridge's decoder has ways code 8, and an address in it is read", in_turn(
    control("hb16", 0, released), control("hb16", 0, lambda it: it & ~WAYS | 8 << 4 | COMMIT)), "breach K4 hb16 0")


def try_rules(trial: Trial, made: list) -> list:
    """What QEMU does, a line a rule. The trial has two regions in each node, and QEMU ends with
    it."""
    created, last = made
    start = dict(trial.expected)
    lines = [try_rule(trial, rule, start) for rule in RULES]
    trial.store(created[1], int(created[5], 16), trial.bytes_of(4))
    put(trial.peer, start)
    trial.expected = dict(start)
    lines += [in_between(trial, last), over_an_edge(trial, created)]
    return [*lines, f"{try_rule(trial, ABORTS, start)}; {end_of(trial, created)}"]


def try_rule(trial: Trial, rule: Rule, start: dict) -> str:
    put(trial.peer, start)
    trial.expected = dict(start)
    faults = len(trial.tally.faults)
    for word in rule.writes(start):
        trial.send(word)
    trial.compare_registers(rule.name)
    image = trial.peer.save("rules.image", image_of(trial.peer, trial.peer.registers()))
    said = program.answer("check", trial.peer.table, trial.peer.topology, image)[1].strip()
    if said != rule.breach:
        trial.tally.fault(f"{rule.name}: check says {said}")
    return f"{rule.name}: {'taken' if len(trial.tally.faults) == faults else 'not taken'}; {said}"


def in_between(trial: Trial, created: list) -> str:
    """A region that is being ended answers nowhere in the program, and in QEMU where its decoders
    still lead."""
    name, begin = created[1], int(created[5], 16)
    place_of = trial.session.extents(begin + int(created[9]), 1)[0]
    total = trial.session.wants(f"begin destroy {name}", "begun")[3]
    trial.session.wants("step 1", f"stepped 1 of {total}")
    for word in control("hb16", 1, released)(trial.expected):
        trial.peer.write({(word.node, word.off): word.value})
    data = trial.bytes_of(4)
    trial.peer.store(place_of[0], data)
    has_it = trial.peer.memory.bytes_at(*place_of[2:], 4) == data
    said = trial.session.ask(f"load {place_of[0]:#x} 4")
    trial.session.wants("abort", "aborted")
    put(trial.peer, trial.expected)
    if not has_it or said != ["unmapped"]:
        trial.tally.fault(f"between: QEMU {'keeps' if has_it else 'loses'} a store to {name}, the program says {said}")
    return "between: of a region whose first bridge is released a store to the second one arrives; load says unmapped"


def over_an_edge(trial: Trial, created: list) -> str:
    """One access of eight bytes over the edge of a chunk, which no processor makes: QEMU carries it
    whole to the device of its first byte."""
    edge = int(created[5], 16) + int(created[9])
    (_, _, device, dpa), (_, _, other, after) = trial.session.extents(edge - 4, 8)
    data = trial.bytes_of(8)
    trial.peer.qemu.write(edge - 4, data)
    memory = trial.peer.memory
    if memory.bytes_at(device, dpa, 8) != data or memory.bytes_at(other, after, 4) == data[4:]:
        trial.tally.fault("edge: an access over the edge of a chunk is dealt in two")
    return f"edge: eight bytes in one access over the edge of a chunk are all in {device}, and none in {other}"


def end_of(trial: Trial, created: list) -> str:
    """How QEMU ends when a port has ways code 8, and the ninth chunk is asked for."""
    try:
        trial.peer.load(int(created[5], 16) + 8 * int(created[9]), 4)
    except QemuFault:
        return f"QEMU ends with signal {-trial.peer.qemu.process.wait()}"
    trial.tally.fault(f"{ABORTS.name}: QEMU goes on")
    return "QEMU goes on"

