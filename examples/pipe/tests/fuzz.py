#!/usr/bin/env python3
"""A peer of cxlbench that is wrong about one answer, at each of the first accesses of some scripts.

    fuzz.py [--program CXLBENCH] [--first 400] [--every 1] [--jobs 2] [--lies]

A run that ends with status 0 has to answer as an honest peer's does, or as one's whose access fails there, or the first reply that
is another one has to tell a fault of the registers. Where a peer says of a write what is not so, and the word is not read behind that,
its registers are others than the replies say, which nothing on this side can know: each such run is counted, and told with --lies.
Anything else is an error, and the exit status is 1.

The peer is the plain model of registers beside this folder. docs/guide/registers.md has the protocol."""

import argparse
import concurrent.futures
import functools
import os
import select
import signal
import subprocess
import sys
import tempfile
import time
from collections import Counter
from typing import Callable, Dict, Iterator, List, NamedTuple, Tuple

sys.dont_write_bytecode = True
PIPE = os.path.dirname(os.path.dirname(os.path.abspath(__file__)))
TOP = os.path.dirname(os.path.dirname(PIPE))
CXLBENCH = os.environ.get("CXLBENCH", os.path.join(TOP, "crates", "cxlbench", "out", "cxlbench"))
CEDT, TOPO, IMAGE = (os.path.join(TOP, "examples", f"four-endpoints.{it}") for it in ("cedt", "toml", "image"))
PAUSE, SILENCE, SECONDS = 0.004, 0.1, 60  # between two pieces; in which nothing more is asked; in which a run ends

sys.path.insert(0, PIPE)
import registers  # noqa: E402 pylint: disable=wrong-import-position

SHOWS = ("create r0 pmem 0x20000000 d1 d2\nshow r0\ndestroy r0\ncreate r1 pmem 0x20000000 d3 d4\nshow r1\n"
         "create r0 pmem 0x20000000 d1 d2\nshow r0\n")


class Script(NamedTuple):
    text: str
    reads_back: bool


def example(name: str) -> str:
    with open(os.path.join(TOP, "examples", name), encoding="ascii") as file:
        return file.read()


SCRIPTS = {"first": Script(example("first.script"), False), "session": Script(example("session.script"), False),
           "shows": Script(SHOWS, False), "read-back": Script(SHOWS, True)}


class Ended(NamedTuple):
    """What a run came to: the exit status, the replies, what the peer holds, and the questions."""
    status: int
    said: Tuple[str, ...]
    blocks: tuple
    questions: Tuple[str, ...]


class Line:
    """The peer's end of the two pipes."""

    def __init__(self, to: int, back: int):
        self.to, self.back, self.text = to, back, b""

    def say(self, text: str) -> None:
        os.write(self.back, text.encode())

    def ask(self, seconds: float = SECONDS) -> str:
        """The next question, and none where the program has ended or is silent for so long."""
        while b"\n" not in self.text:
            came = os.read(self.to, 1 << 16) if select.select([self.to], [], [], seconds)[0] else b""
            if not came:
                return ""
            self.text += came
        line, _, self.text = self.text.partition(b"\n")
        return line.decode()


Wrong = Callable[[Line, registers.Registers, str], bool]


def honest(line: Line, model: registers.Registers, question: str) -> bool:
    line.say(model.answer(question) + "\n")
    return True


def fails(line: Line, _model: registers.Registers, _question: str) -> bool:
    line.say("failed\n")
    return True


def drops(_line: Line, model: registers.Registers, question: str) -> bool:
    model.answer(question)
    return True


def doubles(line: Line, model: registers.Registers, question: str) -> bool:
    line.say((model.answer(question) + "\n") * 2)
    return True


def doubles_late(line: Line, model: registers.Registers, question: str) -> bool:
    """The answer comes once more when the next question has come, and is read before the next answer."""
    answer = model.answer(question) + "\n"
    line.say(answer)
    following = line.ask(SILENCE)
    if following:
        line.say(answer)
        time.sleep(PAUSE)
        honest(line, model, following)
    return True


def pauses_within(line: Line, model: registers.Registers, question: str) -> bool:
    answer = model.answer(question) + "\n"
    line.say(answer[:1])
    time.sleep(PAUSE)
    line.say(answer[1:])
    return True


def delays(line: Line, model: registers.Registers, question: str) -> bool:
    time.sleep(PAUSE)
    return honest(line, model, question)


def cuts(line: Line, model: registers.Registers, question: str) -> bool:
    """One line in two."""
    answer = model.answer(question)
    line.say(f"{answer[:-1]}\n{answer[-1:]}\n")
    return True


def ends_within(line: Line, model: registers.Registers, question: str) -> bool:
    line.say(model.answer(question))
    return False


def adds_return(line: Line, model: registers.Registers, question: str) -> bool:
    line.say(model.answer(question) + "\r\n")
    return True


def strays(line: Line, model: registers.Registers, question: str) -> bool:
    line.say("ok\n" if model.answer(question) != "ok" else "0x0\n")
    return True


def flips(line: Line, model: registers.Registers, question: str) -> bool:
    line.say(f"{int(model.answer(question), 16) ^ 1 << len(question) % 32:#x}\n")
    return True


def denies(line: Line, model: registers.Registers, question: str) -> bool:
    """A write that is carried out is said to have failed."""
    model.answer(question)
    return fails(line, model, question)


def claims(line: Line, _model: registers.Registers, _question: str) -> bool:
    """A write that is not carried out is said to be."""
    line.say("ok\n")
    return True


# What a run has to come to: status 7; what an honest peer's comes to; what one's does whose access fails; and the last two of a write
# alone, with registers that are others.
STRANGE = (drops, doubles, doubles_late, cuts, ends_within, adds_return, strays)
SAME = (pauses_within, delays)
READS, WRITES = (flips,), (denies, claims)


def words_of(blocks: list) -> tuple:
    return tuple(block.read(off) for block in blocks for off in range(0, 16 + 32 * len(block.decoders), 4))


def serve(line: Line, model: registers.Registers, number: int, wrong: Wrong) -> List[str]:
    """Answers until the program has ended, or what is wrong has ended it."""
    asked: List[str] = []
    while True:
        question = line.ask(SILENCE if wrong is drops and len(asked) == number else SECONDS)
        if not question:
            return asked
        asked.append(question)
        try:
            if not (wrong if len(asked) == number else honest)(line, model, question):
                return asked
        except BrokenPipeError:
            return asked


def run(program: str, name: str, number: int, wrong: Wrong) -> Ended:
    """A script over a peer that is wrong at the access of this number."""
    with open(IMAGE, "rb") as file:
        blocks = registers.blocks_of(file.read())
    for block in blocks:
        block.reset()
    with tempfile.TemporaryDirectory() as folder:
        pipes = [os.path.join(folder, it) for it in ("to", "from")]
        for pipe in pipes:
            os.mkfifo(pipe)
        with open(os.path.join(folder, "script"), "w+b") as script, open(os.path.join(folder, "said"), "w+b") as said:
            script.write(SCRIPTS[name].text.encode())
            script.seek(0)
            words = [program, *["--read-back"] * SCRIPTS[name].reads_back, CEDT, TOPO, *pipes]
            signal.alarm(SECONDS)
            bench = subprocess.Popen(words, stdin=script, stdout=said, stderr=subprocess.DEVNULL)
            to, back = os.open(pipes[0], os.O_RDONLY), os.open(pipes[1], os.O_WRONLY)
            try:
                asked = serve(Line(to, back), registers.Registers(blocks), number, wrong)
            finally:
                os.close(to)
                os.close(back)
                bench.wait()
                signal.alarm(0)
            said.seek(0)
            return Ended(bench.returncode, tuple(said.read().decode().splitlines()), words_of(blocks), tuple(asked))


@functools.lru_cache(None)
def honest_run(program: str, name: str) -> Ended:
    return run(program, name, 0, honest)


def tells_first(said: Tuple[str, ...], wanted: Tuple[str, ...]) -> bool:
    """The first reply that is another one tells a fault of the registers."""
    differing = [line for line, other in zip(said, (*wanted, *[""] * len(said))) if line != other]
    return bool(differing) and differing[0].startswith("bus fault ")


def judged(program: str, name: str, number: int, wrong: Wrong) -> str:
    """What a run came to: `strange`, `same`, `failed`, `found`, `lie`, or what is wrong with it."""
    good = honest_run(program, name)
    ended, question = run(program, name, number, wrong), good.questions[number - 1]
    is_last = number == len(good.questions)
    if wrong in STRANGE and not (wrong is doubles_late and is_last):
        return "strange" if ended.status == 7 else f"status {ended.status} for 7"
    if wrong in SAME or wrong is doubles_late:
        return "same" if ended == good else "not as an honest peer"
    failing = run(program, name, number, fails)
    if ended.status == 7 and wrong in READS:
        # one of the words that are read before the first line, or behind the last
        return "strange" if ended.said in (failing.said, good.said) else "other replies than where it fails"
    if ended.status != 0 and ended.status != failing.status:
        return f"status {ended.status}"
    if ended.said not in (good.said, failing.said):
        return "found" if tells_first(ended.said, failing.said) or tells_first(ended.said, good.said) else "wrong replies"
    if ended.said == good.said != failing.said and wrong is not claims:
        return "a fault that is not told"
    if ended.blocks in (good.blocks, failing.blocks):
        return "failed" if ended.said == failing.said else "same"
    return f"lie: {question}" if wrong in WRITES else "other registers"


def tried(case: Tuple[str, str, int, Wrong]) -> Tuple[Tuple[str, str, int, Wrong], str]:
    return case, judged(*case)


def cases(program: str, first: int, every: int) -> Iterator[Tuple[str, str, int, Wrong]]:
    for place, name in enumerate(SCRIPTS):
        questions = honest_run(program, name).questions
        for turn, wrong in enumerate((*STRANGE, *SAME, *READS, *WRITES)):
            for number in range(1 + (turn * 5 + place * 3) % every, min(first, len(questions)) + 1, every):
                is_read = questions[number - 1].startswith("r ")
                if wrong not in (WRITES if is_read else READS):
                    yield program, name, number, wrong


def fuzz(program: str, first: int, every: int, jobs: int) -> Tuple[Dict[str, Counter], List[str], List[str]]:
    """How many runs of each kind came to what, the lies, and the errors."""
    counts: Dict[str, Counter] = {}
    lies, errors = [], []
    with concurrent.futures.ProcessPoolExecutor(jobs) as pool:
        for (_, name, number, wrong), came in pool.map(tried, cases(program, first, every), chunksize=8):
            kind = came.partition(":")[0]
            counts.setdefault(wrong.__name__, Counter())[kind] += 1
            text = f"{name}, access {number}, {wrong.__name__}: {came}"
            if kind == "lie":
                lies.append(text)
            elif kind not in ("strange", "same", "failed", "found"):
                errors.append(text)
    return counts, lies, errors


def main() -> int:
    parser = argparse.ArgumentParser(prog="fuzz.py", description="A peer of cxlbench that is wrong about one answer.")
    parser.add_argument("--program", default=CXLBENCH, help="cxlbench, built")
    parser.add_argument("--first", type=int, default=400, metavar="N", help="at the first N accesses of each script")
    parser.add_argument("--every", type=int, default=1, metavar="N", help="at each Nth of them")
    parser.add_argument("--jobs", type=int, default=2, metavar="N", help="so many runs side by side")
    parser.add_argument("--lies", action="store_true", help="tell each run whose peer said of a write what is not so")
    options = parser.parse_args()
    counts, lies, errors = fuzz(options.program, options.first, options.every, options.jobs)
    for kind, came in counts.items():
        print(f"{kind}: {', '.join(f'{count} {it}' for it, count in sorted(came.items()))}")
    print(*(lies if options.lies else []), *errors, sep="\n", end="\n" if errors or options.lies and lies else "")
    print(f"{sum(sum(it.values()) for it in counts.values())} runs, {len(lies)} lies that nobody read, {len(errors)} errors")
    return 1 if errors else 0


if __name__ == "__main__":
    sys.exit(main())
