"""QEMU's registers as the bus of the program, over two pipes: `cxlbench CEDT TOPO [IMAGE] TO FROM <
SCRIPT` writes a line for each access, and reads what became of it.

  w NODE OFF VALUE    ok, or failed
  r NODE OFF          the word's value, or failed

NODE is the number of a node in the topology's order, OFF a place in its block of HDM decoder
registers. A node without decoders has a placeholder here, which reads as the image has it and takes
nothing."""

import os
import re
import select
import subprocess
import time

import program
from peer import Peer, image_of
from qtest import QemuFault

BENCH = os.environ.get("CXLBENCH", os.path.join(program.TOP, "crates", "cxlbench", "out", "cxlbench"))
SILENCE, TICK = 60, 0.1  # seconds: in which the program sends its next line or ends, and between looks whether it has


def number_of(word: str) -> int:
    """A number as the program has it: decimal, or hexadecimal behind 0x."""
    if not re.fullmatch("0x[0-9A-Fa-f]+|[0-9]+", word):
        raise ValueError(word)
    return int(word[2:], 16) if word.startswith("0x") else int(word)


class Bus:
    """Answers lines from QEMU's registers, and keeps what was written."""

    def __init__(self, peer: Peer):
        self.peer, self.writes, self.reads = peer, [], 0

    def answer(self, line: str) -> str:
        try:
            verb, *numbers = line.split()
            number, off, *value = [number_of(word) for word in numbers]
            node = self.peer.nodes[number]
            is_place = off < node.length and off % 4 == 0
            if verb == "r" and not value and is_place:
                self.reads += 1
                return f"{self.word(node, off):#010x}"
            if verb == "w" and len(value) == 1 and is_place:
                self.writes.append((node.name, off, value[0]))
                if node.block:
                    self.peer.write({(node.name, off): value[0]})
                return "ok"
        except (ValueError, IndexError, QemuFault):
            pass
        return "failed"

    def word(self, node, off: int) -> int:
        if off == 0:
            return self.peer.capability(node)
        return self.peer.read(node.name, off) if node.block else 0


def serve(bus: Bus, bench: subprocess.Popen, to: int, back: int) -> None:
    """Answers each line that comes over one pipe on the other, until the program has ended."""
    text, heard = b"", time.monotonic()
    while True:
        has_ended = bench.poll() is not None  # asked first, so that what it wrote before is still read
        came = os.read(to, 1 << 16) if select.select([to], [], [], TICK)[0] else b""
        if not came and has_ended:
            return
        if came:
            heard = time.monotonic()
        elif time.monotonic() - heard > SILENCE:
            raise QemuFault(f"{BENCH} sent no line in {SILENCE} seconds")
        *lines, text = (text + came).split(b"\n")
        for line in lines:
            os.write(back, bus.answer(line.decode("ascii", "replace")).encode() + b"\n")


def run_over(peer: Peer, script: str, *image: str) -> tuple:
    """A script over QEMU's registers: the exit status, the replies, and the bus."""
    bus = Bus(peer)
    status, said = run_words(peer.folder, [peer.table, peer.topology, *image], bus, script.encode())
    return status, said.decode(), bus


def run_words(folder: str, files: list, bus, script: bytes) -> tuple:
    """A script over these files and a bus, with its pipes in a folder: the exit status, and the replies."""
    pipes = [os.path.join(folder, name) for name in ("to", "from")]
    for path in pipes:
        os.mkfifo(path)
    # Opened so that neither side waits for the other: the one without waiting, the other for both directions.
    to, back = os.open(pipes[0], os.O_RDONLY | os.O_NONBLOCK), os.open(pipes[1], os.O_RDWR)
    try:
        with open(os.path.join(folder, "script"), "w+b") as asked, open(os.path.join(folder, "replies"), "w+b") as said:
            asked.write(script)
            asked.seek(0)
            bench = subprocess.Popen([BENCH, *files, *pipes], stdin=asked, stdout=said, stderr=subprocess.DEVNULL)
            try:
                serve(bus, bench, to, back)
            finally:
                bench.kill()
                bench.wait()
            said.seek(0)
            return bench.returncode, said.read()
    finally:
        for opened in (to, back):
            os.close(opened)
        for path in pipes:
            os.unlink(path)


def script_of(lines: list) -> str:
    """A script with each kind of job: made and ended at once, word by word, and taken back."""
    names = [line.split(" ")[1] for line in lines]
    last, destroy = lines[-1], f"destroy {names[-1]}"
    return script([*lines[:-1], f"begin {last}", "step 3", "abort", f"begin {last}", *["step 1"] * 9, "step 1000000",
                   f"begin {destroy}", "step 1", "abort", f"begin {destroy}", "step 2", "abort", destroy, last, destroy,
                   f"begin {last}", "step 1000000", *[f"show {name}" for name in names]])


def script_from_image(lines: list) -> str:
    """One that goes on from the registers that the first has left, whose regions have other names
    then."""
    names = [f"auto{number}" for number in range(len(lines))]
    return script([*[f"show {name}" for name in names], *[f"begin destroy {name}" for name in reversed(names)],
                   "step 1", "abort", f"destroy {names[-1]}", lines[-1], f"show {lines[-1].split(' ')[1]}"])


def script(lines: list) -> str:
    return "".join(line + "\n" for line in lines)


def try_pipe(peer: Peer, tally, lines: list) -> None:
    """Scripts over QEMU's registers, from reset and from an image."""
    compare_script(peer, tally, script_of(lines))
    image = peer.save("first.image", image_of(peer, peer.registers()))
    compare_script(peer, tally, script_from_image(lines), image)


def compare_script(peer: Peer, tally, text: str, *image: str) -> None:
    """It is answered as by `run`, and leaves the registers that it shows last, in which `check`
    finds as many regions as live."""
    status, said, bus = run_over(peer, text, *image)
    wanted = program.answer("run", peer.table, peer.topology, *image, text=text)
    tally.piped += len(bus.writes) + bus.reads
    if (status, said) != wanted:
        at = next((it for it in zip(said.splitlines(), wanted[1].splitlines()) if it[0] != it[1]), (said[-80:], ""))
        tally.fault(f"over the pipe: status {status}, {at[0]!r}; run: status {wanted[0]}, {at[1]!r}")
    registers = peer.registers()
    for (node, off), word in program.shown_words(wanted[1]).items():
        if registers[node, off] != word:
            tally.fault(f"over the pipe: {node} {off:#06x} is {registers[node, off]:#010x} in QEMU, not {word:#010x}")
    left = peer.save("left.image", image_of(peer, registers))
    status, text = program.answer("check", peer.table, peer.topology, left)
    if status or text.count("region ") != len(live_in(wanted[1])):
        tally.fault(f"over the pipe: check of QEMU's registers says {text.strip()[:80]}")


def live_in(replies: str) -> set:
    """The regions that live behind replies in which each that lives is shown."""
    live: set = set()
    for verb, name in re.findall("^(region|destroyed) ([A-Za-z0-9_]+)", replies, re.M):
        live = live | {name} if verb == "region" else live - {name}
    return live
