"""The two peers of this folder beside cxlbench. The programs are those that the variables CXLBENCH and CXLPLAN name, or else
crates/cxlbench/out/cxlbench and crates/cxlplan/out/cxlplan."""

import os
import subprocess
import sys
import tempfile
import unittest

sys.dont_write_bytecode = True
PIPE = os.path.dirname(os.path.dirname(os.path.abspath(__file__)))
TOP = os.path.dirname(os.path.dirname(PIPE))
CXLBENCH = os.environ.get("CXLBENCH", os.path.join(TOP, "crates", "cxlbench", "out", "cxlbench"))
CXLPLAN = os.environ.get("CXLPLAN", os.path.join(TOP, "crates", "cxlplan", "out", "cxlplan"))
CEDT, TOPO, IMAGE = (os.path.join(TOP, "examples", f"four-endpoints.{it}") for it in ("cedt", "toml", "image"))
SECONDS = 60  # in which a run and its peer end
WORDS = 216  # of the registers of four-endpoints, which are read before the first line
ENABLES = 4  # writes by which its endpoints are let decode
LAST = 2  # words that are read behind the last line
CREATE = "create r0 pmem 0x20000000 d1 d2\n"

sys.path.insert(0, PIPE)
import registers  # noqa: E402 pylint: disable=wrong-import-position
import trace as traced  # noqa: E402 pylint: disable=wrong-import-position


def script(name: str) -> str:
    with open(os.path.join(TOP, "examples", name), encoding="ascii") as file:
        return file.read()


def answer(words: list, text: str) -> tuple:
    """The exit status and the standard output."""
    ran = subprocess.run(words, input=text.encode(), stdout=subprocess.PIPE, stderr=subprocess.DEVNULL, timeout=SECONDS,
                         check=False)
    return ran.returncode, ran.stdout.decode()


class Pipes:
    """A folder with pipes and peers, which end with it."""

    def __enter__(self):
        self.place, self.peers = tempfile.TemporaryDirectory(), []
        return self

    def __exit__(self, *_):
        for peer in self.peers:
            peer.kill()
            peer.wait()
        self.place.cleanup()

    def path(self, name: str) -> str:
        return os.path.join(self.place.name, name)

    def pipe(self, name: str) -> str:
        os.mkfifo(self.path(name))
        return self.path(name)

    def start(self, *words: str) -> None:
        self.peers.append(subprocess.Popen([sys.executable, *words]))

    def wait(self) -> None:
        for peer in self.peers:
            peer.wait(SECONDS)


def over_registers(text: str, *options: str, image: bool = False) -> tuple:
    """A script over registers.py."""
    with Pipes() as pipes:
        to, back = pipes.pipe("to"), pipes.pipe("from")
        reset = [] if image else ["--reset"]
        pipes.start(os.path.join(PIPE, "registers.py"), *reset, *options, IMAGE, to, back)
        ended = answer([CXLBENCH, CEDT, TOPO, *([IMAGE] if image else []), to, back], text)
        pipes.wait()
        return ended


def over_trace(text: str, log: str) -> tuple:
    """A script over registers.py behind trace.py, and the log."""
    with Pipes() as pipes:
        names = [pipes.pipe(it) for it in ("to", "from", "behind-to", "behind-from")]
        pipes.start(os.path.join(PIPE, "registers.py"), "--reset", IMAGE, *names[2:])
        pipes.start(os.path.join(PIPE, "trace.py"), pipes.path(log), *names)
        ended = answer([CXLBENCH, CEDT, TOPO, *names[:2]], text)
        pipes.wait()
        with open(pipes.path(log), encoding="ascii") as file:
            return ended, file.read().splitlines()


def over_lines(*lines: str) -> tuple:
    """A script over a peer that says these lines and no other."""
    with Pipes() as pipes:
        to, back = pipes.pipe("to"), pipes.pipe("from")
        said = "".join(it + "\\n" for it in lines)
        pipes.start("-c", f"import sys\nto = open(sys.argv[1])\nback = open(sys.argv[2], 'w')\nback.write('{said}')\nback.close()\n"
                    "to.read()", to, back)
        return answer([CXLBENCH, CEDT, TOPO, to, back], CREATE)


@unittest.skipUnless(os.access(CXLBENCH, os.X_OK), "./prove --bench builds the program")
class Bench(unittest.TestCase):
    @unittest.skipUnless(os.access(CXLPLAN, os.X_OK), "./prove builds the program")
    def test_replies_are_those_of_run(self):
        for name in ("first.script", "session.script", "steps.script"):
            with self.subTest(name):
                self.assertEqual(over_registers(script(name)), answer([CXLPLAN, "run", CEDT, TOPO], script(name)))
        text = "show auto0\ndestroy auto0\n" + CREATE + "show r0\n"
        self.assertEqual(over_registers(text, image=True), answer([CXLPLAN, "run", CEDT, TOPO, IMAGE], text))

    def test_a_fault_before_the_first_line(self):
        for options in (["--fail", "1"], ["--fail", f"{WORDS}"], ["--flip", "100", "3"], ["--fail", f"{WORDS + 1}"],
                        ["--fail", f"{WORDS + ENABLES}"]):
            with self.subTest(options):
                self.assertEqual(over_registers(CREATE, *options), (7, "error: bus fault\n"))

    def test_a_write_that_fails_is_taken_back(self):
        first = WORDS + ENABLES + 1
        for failing in (first, first + 9, first + 31):
            with self.subTest(failing):
                self.assertEqual(over_registers(CREATE + CREATE, "--fail", f"{failing}"),
                                 (0, "bus fault undone\ncreated r0 window 0 base 0x110000000 size 0x20000000 gran 256 ways 2\n"))

    def test_what_cannot_be_taken_back_stays_pending(self):
        failing = WORDS + ENABLES + 10
        status, said = over_registers(CREATE + "abort\n", "--fail", f"{failing}", "--fail", f"{failing + 1}")
        self.assertEqual((status, said), (0, "bus fault pending r0 9 of 32\naborted r0\n"))

    def test_a_wrong_bit_in_a_word_that_is_shown(self):
        reading = WORDS + ENABLES + 32 + 1
        self.assertEqual(over_registers(CREATE + "show r0\n", "--flip", f"{reading}", "0")[1].splitlines()[1], "bus fault read")

    def test_a_peer_that_says_something_else(self):
        for lines in ([], ["ok"], ["0x"], ["0x1ff", "failed"], ["256"], ["nothing"], [""]):
            with self.subTest(lines):
                self.assertEqual(over_lines(*lines), (7, "error: bus fault\n"))

    def test_words_that_are_no_command(self):
        for words in ([], ["--help", "more"], [CEDT], [CEDT, TOPO, IMAGE]):
            self.assertEqual(answer([CXLBENCH, *words], ""), (1, "usage\n"))
        self.assertEqual(answer([CXLBENCH, "--version"], ""), (0, "cxlbench 1.0.0\n"))
        self.assertEqual(answer([CXLBENCH, "-h"], ""), answer([CXLBENCH, "--help"], ""))
        self.assertEqual(answer([CXLBENCH, CEDT, TOPO, "nowhere", "nowhere"], ""), (2, "error: cannot open nowhere\n"))

    def test_each_access_is_written_down(self):
        (status, said), log = over_trace(CREATE, "log.csv")
        self.assertEqual((status, said), (0, "created r0 window 0 base 0x110000000 size 0x20000000 gran 256 ways 2\n"))
        self.assertEqual(log[0], "number,access,node,offset,value,failed")
        self.assertEqual([it.split(",")[1] for it in log[1:]], ["read"] * WORDS + ["write"] * (ENABLES + 32) + ["read"] * LAST)
        (status, said), log = over_trace(CREATE, "log.vcd")
        self.assertEqual(status, 0)
        self.assertEqual(sum(it.startswith("#") for it in log), WORDS + ENABLES + 32 + LAST)


class Peers(unittest.TestCase):
    def test_lines_over_four_pipes(self):
        lines = {"r 0 0x0": "0x00000382", "r 2 0x4": "0x00000002", "w 2 0x4 0x2": "failed", "w 3 0x4 0x2": "ok",
                 "r 3 0x4": "0x00000002"}
        with Pipes() as pipes:
            names = [pipes.pipe(it) for it in ("to", "from", "behind-to", "behind-from")]
            pipes.start(os.path.join(PIPE, "registers.py"), "--reset", "--flip", "2", "1", "--fail", "3", IMAGE, *names[2:])
            pipes.start(os.path.join(PIPE, "trace.py"), pipes.path("log.csv"), *names)
            with open(names[0], "w", encoding="ascii", buffering=1) as to, open(names[1], encoding="ascii") as back:
                for question, wanted in lines.items():
                    to.write(question + "\n")
                    self.assertEqual(back.readline(), wanted + "\n")
            pipes.wait()
            with open(pipes.path("log.csv"), encoding="ascii") as file:
                self.assertEqual(file.read().splitlines()[2:5],
                                 ["2,read,2,0x4,0x00000002,0", "3,write,2,0x4,0x00000002,1", "4,write,3,0x4,0x00000002,0"])


class Model(unittest.TestCase):
    """The write rules, a line a rule."""

    def setUp(self):
        with open(IMAGE, "rb") as file:
            self.blocks = registers.blocks_of(file.read())
        for block in self.blocks:
            block.reset()
        self.port, self.endpoint = self.blocks[0], self.blocks[-1]

    def commit(self, block, number, base, control=0x600):
        at = 0x10 + 0x20 * number
        for off, word in ((0, base), (4, 1), (8, 0x10000000), (12, 0), (16, 0x200 | control & 0x1ff)):
            block.write(at + off, word)
        return block.read(at + 16)

    def test_words_that_take_nothing(self):
        for off in (0, 4, 8, 12, 0x10 + 0x1c):
            before = self.port.read(off)
            self.port.write(off, 0xffffffff)
            self.assertEqual(self.port.read(off), before)

    def test_the_bits_that_count(self):
        for block, off, word in ((self.port, 0x10, 0xf0000000), (self.port, 0x14, 0xffffffff), (self.port, 0x18, 0xf0000000),
                                 (self.port, 0x24, 0xffffffff), (self.endpoint, 0x24, 0xf0000000), (self.endpoint, 0x28, 0xffffffff)):
            block.write(off, 0xffffffff)
            self.assertEqual(block.read(off), word)

    def test_commits(self):
        self.assertEqual(self.commit(self.endpoint, 0, 0x10000000) & 0xe00, 0xa00)  # it does not decode yet
        self.endpoint.write(4, 2)
        self.assertEqual(self.commit(self.endpoint, 1, 0x20000000) & 0xe00, 0xa00)  # the one before is not committed
        self.assertEqual(self.commit(self.endpoint, 0, 0x10000000) & 0xe00, 0x600)
        self.assertEqual(self.commit(self.endpoint, 1, 0x10000000) & 0xe00, 0xa00)  # below the end of the one before
        self.assertEqual(self.commit(self.endpoint, 1, 0x20000000, 0x77) & 0xe00, 0xa00)  # there are no such codes
        self.assertEqual(self.commit(self.endpoint, 1, 0x20000000) & 0xe00, 0x600)
        self.endpoint.write(4, 0)  # it goes on decoding while a decoder is committed
        self.endpoint.write(0x10, 0)  # so a committed one keeps its words
        self.endpoint.write(0x20, 0)  # and the first is not released before the second
        self.assertEqual([self.endpoint.read(it) for it in (4, 0x10)], [2, 0x10000000])
        self.assertEqual(self.endpoint.read(0x20) & 0xe00, 0x600)
        self.endpoint.write(0x40, 0)
        self.endpoint.write(0x20, 0)
        self.assertEqual([self.endpoint.read(it) & 0xe00 for it in (0x20, 0x40)], [0, 0])

    def test_a_locked_decoder_stays(self):
        self.assertEqual(self.commit(self.port, 0, 0x10000000, 0x100) & 0xf00, 0x700)
        self.port.write(0x20, 0)
        self.assertEqual(self.port.read(0x20) & 0xf00, 0x700)

    def test_accesses_in_a_log(self):
        self.assertEqual(traced.access_of(1, "w 2 0x14 0xff\n", "ok"), traced.Access(1, True, 2, 0x14, 0xff, False))
        self.assertEqual(traced.access_of(2, "r 0 0x0\n", "failed"), traced.Access(2, False, 0, 0, 0, True))


if __name__ == "__main__":
    unittest.main()
