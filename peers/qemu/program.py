"""The proved program as it is asked here: one answer, or a session line by line; and the register
words that cxl-regions makes of a reply."""

import os
import re
import subprocess
from dataclasses import dataclass

TOP = os.path.dirname(os.path.dirname(os.path.dirname(os.path.abspath(__file__))))
CXLPLAN = os.environ.get("CXLPLAN", os.path.join(TOP, "crates", "cxlplan", "out", "cxlplan"))
REGIONS = os.path.join(TOP, "capture", "cxl-regions")
MARK, MARKED = "mark", "bad line 0 verb"  # a line that has one reply and no effect: it ends what came before
PLACES = [0x0, 0x4, 0x8, 0xc, 0x10, 0x14, 0x18]  # of the words of `show`, in a decoder


class Said(Exception):
    """The program said something else than the checks can go on with."""


def answer(*words: str, text: str = "") -> tuple:
    """The exit status and the output of one run."""
    ran = subprocess.run([CXLPLAN, *words], input=text, stdout=subprocess.PIPE, stderr=subprocess.DEVNULL, text=True,
                         check=False)
    return ran.returncode, ran.stdout


class Session:
    """A running `cxlplan run`, asked line by line. Use it in a `with`."""

    def __init__(self, *files: str):
        self.process = subprocess.Popen([CXLPLAN, "run", *files], stdin=subprocess.PIPE, stdout=subprocess.PIPE,
                                        stderr=subprocess.DEVNULL, text=True)

    def __enter__(self):
        return self

    def __exit__(self, *_):
        self.process.stdin.close()
        self.process.wait()
        self.process.stdout.close()

    def ask(self, line: str) -> list:
        """The lines of its reply."""
        try:
            self.process.stdin.write(f"{line}\n{MARK}\n")
            self.process.stdin.flush()
        except BrokenPipeError:
            pass
        reply = []
        while (said := self.process.stdout.readline()) != MARKED + "\n":
            if not said:
                raise Said(f"{line}: the session ended behind {reply}")
            reply.append(said.rstrip("\n"))
        return reply

    def wants(self, line: str, begin: str) -> list:
        """The words of a reply that has to begin so."""
        reply = self.ask(line)
        if not reply or not f"{reply[0]} ".startswith(f"{begin} "):
            raise Said(f"{line}: {' / '.join(reply)}")
        return reply[0].split(" ")

    def show(self, name: str) -> str:
        return "".join(line + "\n" for line in self.ask(f"show {name}"))

    def extents(self, address: int, length: int) -> list:
        """Where the bytes from a host address on lie: host address, length, endpoint, device
        address."""
        found = []
        for line in self.ask(f"range {address:#x} {length}"):
            match = re.fullmatch("extent 0x([0-9a-f]+) ([0-9]+) ([A-Za-z0-9_]+) 0x([0-9a-f]+)", line)
            if not match:
                raise Said(f"range {address:#x} {length}: {line}")
            found.append((int(match[1], 16), int(match[2]), match[3], int(match[4], 16)))
        return found


@dataclass(frozen=True)
class Word:
    """A register write, and what its word reads behind it."""
    node: str
    off: int
    value: int
    reads: int


def words_of(table: str, topology: str, reply: str) -> dict:
    """The writes that make each region of a reply, in their order, by the region's name."""
    ran = subprocess.run([REGIONS, "--words", table, topology, "-"], input=reply, stdout=subprocess.PIPE,
                         stderr=subprocess.PIPE, text=True, check=False)
    if ran.returncode:
        raise Said(ran.stderr.strip())
    regions, words, node = {}, [], ""
    for line in ran.stdout.splitlines():
        if match := re.match("# ([A-Za-z0-9_]+): [0-9]+ writes", line):
            words = regions.setdefault(match[1], [])
        elif match := re.match("(?:bridge|switch|endpoint) ([A-Za-z0-9_]+), ", line):
            node = match[1]
        elif match := re.match("  0x([0-9a-f]+)  0x([0-9a-f]+)  (?:.*; reads 0x([0-9a-f]+) when done)?", line):
            off, value, reads = match.groups()
            words.append(Word(node, int(off, 16), int(value, 16), int(reads or value, 16)))
    return regions


def shown_words(text: str) -> dict:
    """The words of a reply of `show`, by node and offset."""
    found = {}
    for name, decoder, words in re.findall("^node ([A-Za-z0-9_]+) ([0-9]+)((?: [0-9a-f]{8}){7})$", text, re.M):
        for place, word in zip(PLACES, words.split()):
            found[name, 0x10 + 0x20 * int(decoder) + place] = int(word, 16)
    return found
