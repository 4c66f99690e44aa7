"""A session over the pipes of cxlbench, for tests: what it writes is noted by a peer that knows no rule of writes. It answers each read
that comes before the first line with the word that the registers begin with."""

import os
import struct
import subprocess
import tempfile
import threading

from cxlplan.facts import Write
from told import words_of

SENTINEL, ANSWER = b"step\n", b"bad line 4 missing\n"  # a line that changes nothing, and what it is always answered


def words_at_start(nodes, image):
    """The words with which registers begin: those of the image, or those after reset, which are of an image of zeros."""
    return words_of(nodes, image if image is not None else image_of([[0] * (4 + 8 * node.decoders) for node in nodes]))


def image_of(blocks):
    """The image of these blocks' words."""
    return b"CXLHDM01" + struct.pack("<I", len(blocks)) + b"".join(struct.pack(f"<{len(block)}I", *block) for block in blocks)


class PipeSession:
    """A run of cxlbench with its peer. `writes` are those of the last line."""

    def __init__(self, program, cedt, topo, image, nodes):
        self.nodes, self.writes = nodes, []
        self.words = words_at_start(nodes, image)
        self.place = tempfile.TemporaryDirectory()
        names = [self.keep(name, content) for name, content in (("table", cedt), ("topology", topo), ("image", image))
                 if content is not None]
        for pipe in ("to", "from"):
            os.mkfifo(os.path.join(self.place.name, pipe))
        self.process = subprocess.Popen([program, *names, "to", "from"], cwd=self.place.name, stdin=subprocess.PIPE,
                                        stdout=subprocess.PIPE, stderr=subprocess.DEVNULL)
        self.peer = threading.Thread(target=self.serve, daemon=True)
        self.peer.start()

    def keep(self, name, content):
        with open(os.path.join(self.place.name, name), "wb") as file:
            file.write(content)
        return name

    def serve(self):
        """Answers each line of the pipe until the program has closed it."""
        with open(os.path.join(self.place.name, "to"), encoding="ascii") as lines, \
                open(os.path.join(self.place.name, "from"), "w", encoding="ascii", buffering=1) as answers:
            try:
                for line in lines:
                    answers.write(self.answer(line.split()) + "\n")
            except BrokenPipeError:
                pass

    def answer(self, words):
        node, offset = int(words[1]), int(words[2], 16)
        if words[0] == "w":
            self.writes.append(Write(self.nodes[node].name, offset, int(words[3], 16)))
            return "ok"
        return f"{self.words[node][offset // 4]:#x}"

    def act(self, line):
        """The reply to a line that is no `step` without a number."""
        self.process.stdin.write(SENTINEL)
        self.process.stdin.flush()
        self.until_answered()
        self.writes = []
        self.process.stdin.write(line.encode() + b"\n" + SENTINEL)
        self.process.stdin.flush()
        return self.until_answered()

    def until_answered(self):
        said = b""
        for text in self.process.stdout:
            if text == ANSWER:
                return said.decode()
            said += text
        raise AssertionError(f"cxlbench ended with {said!r}")

    def close(self):
        self.process.stdin.close()
        self.process.stdout.read()
        self.process.stdout.close()
        self.process.wait()
        self.peer.join(10)
        self.place.cleanup()
