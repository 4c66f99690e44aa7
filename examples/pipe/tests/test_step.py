"""Peers that are out of step with cxlbench, commits that are read back, and words that name no pipe. The program is the one that the
variable CXLBENCH names, or else crates/cxlbench/out/cxlbench."""

import os
import subprocess
import sys
import tempfile
import threading
import unittest

sys.dont_write_bytecode = True
sys.path.insert(0, os.path.dirname(os.path.abspath(__file__)))
import fuzz  # noqa: E402 pylint: disable=wrong-import-position

WORDS, ENABLES, CREATE = 216, 4, 32  # reads before the first line, writes that let endpoints decode, and those of a region
COMMIT = next(n for n, it in enumerate(fuzz.honest_run(fuzz.CXLBENCH, "read-back").questions, 1)
              if it.startswith("w") and int(it.split()[3], 16) >> 9 & 1) if os.access(fuzz.CXLBENCH, os.X_OK) else 0
COMMITTED, ERROR = 1 << 10, 1 << 11


def said_by(lines: str, words=(fuzz.CEDT, fuzz.TOPO), script: str = "") -> tuple:
    """The exit status, the replies and the standard error of a run over a peer that waits for a question, says these bytes, and ends."""
    with tempfile.TemporaryDirectory() as folder:
        pipes = [os.path.join(folder, it) for it in ("to", "from")]
        for pipe in pipes:
            os.mkfifo(pipe)

        def peer():
            with open(pipes[0], "rb", buffering=0) as to, open(pipes[1], "wb", buffering=0) as back:
                to.read(1)
                try:
                    back.write(lines.encode())
                except BrokenPipeError:
                    pass  # no more was read

        thread = threading.Thread(target=peer, daemon=True)
        thread.start()
        ran = subprocess.run([fuzz.CXLBENCH, *words, *pipes], input=script.encode(), stdout=subprocess.PIPE, stderr=subprocess.PIPE,
                             timeout=fuzz.SECONDS, check=False)
        thread.join(fuzz.SECONDS)
        waits = f"cxlbench: waits for a peer that reads {pipes[0]} and writes {pipes[1]}\n"
        return ran.returncode, ran.stdout.decode(), ran.stderr.decode().replace(waits, "waits\n")


def ended(*words: str) -> tuple:
    ran = subprocess.run([fuzz.CXLBENCH, *words], stdin=subprocess.DEVNULL, stdout=subprocess.PIPE, stderr=subprocess.DEVNULL,
                         timeout=fuzz.SECONDS, check=False)
    return ran.returncode, ran.stdout.decode()


def slow(reads: int):
    """A commit that is done only when its control word was read so often."""
    def wrong(line, model, question):
        line.say(model.answer(question) + "\n")
        for _ in range(reads):
            asked = line.ask()
            line.say(f"{int(model.answer(asked), 16) & ~COMMITTED:#x}\n")
        return True
    return wrong


def refuses(line, model, question):
    """A commit that is refused: its error is set."""
    line.say(model.answer(question) + "\n")
    node, off = int(question.split()[1]), int(question.split()[2], 16)
    decoder = model.blocks[node].decoders[(off - 0x10) // 0x20]
    decoder[4] = decoder[4] & ~COMMITTED | ERROR
    return True


@unittest.skipUnless(COMMIT, "./prove --bench builds the program")
class Step(unittest.TestCase):
    def test_what_came_is_told(self):
        asked = "waits\ncxlbench: access 1, r 0 0x0: wanted 0x00000382, "
        for lines, told in (("", 'but the peer ended behind ""'), ("0x382", 'but the peer ended behind "0x382"'),
                            ("0x382\n0x0\n", 'came more than a line: "0x382\\n0x0\\n"'), ("0x\n382\n", 'came more than a line: "0x\\n382\\n"'),
                            ("ok\n", 'came "ok"'), ("0x382\r\n", 'came "0x382\\x0d"'), ("\n", 'came ""'), ("0x383\n", 'came "0x383"'),
                            ("0" * 5000, 'came more than 4096 bytes: "' + "0" * 60 + '" ..')):
            with self.subTest(lines[:20]):
                self.assertEqual(said_by(lines), (7, "error: bus fault\n", f"{asked}{told}\n"))

    def test_a_host_without_endpoints(self):
        topology = '[[bridge]]\nname = "hb16"\nuid = 16\n[[bridge]]\nname = "hb32"\nuid = 32\n'
        with tempfile.NamedTemporaryFile("w", suffix=".toml") as file:
            file.write(topology)
            file.flush()
            status, said, told = said_by("0x383\n", (fuzz.CEDT, file.name), "down 0x110000000\n")
            self.assertEqual((status, said), (7, "unmapped\n"))
            self.assertEqual(told, 'waits\ncxlbench: access 1, r 0 0x0: wanted 0x00000382, came "0x383"\n')

    def test_commits_are_read_back(self):
        good = fuzz.honest_run(fuzz.CXLBENCH, "read-back")
        behind = [good.questions[n + 1] for n, it in enumerate(good.questions) if it.startswith("w") and int(it.split()[3], 16) >> 9 & 1]
        self.assertEqual({it[0] for it in behind}, {"r"})
        self.assertEqual(good.said, fuzz.honest_run(fuzz.CXLBENCH, "shows").said)
        for reads, wanted in ((1, good.said), (999, good.said), (1000, fuzz.run(fuzz.CXLBENCH, "read-back", COMMIT, fuzz.fails).said)):
            with self.subTest(reads):
                came = fuzz.run(fuzz.CXLBENCH, "read-back", COMMIT, slow(reads))
                self.assertEqual((came.status, came.said, came.blocks), (0, wanted, good.blocks))

    def test_a_commit_that_is_refused(self):
        failing = fuzz.run(fuzz.CXLBENCH, "read-back", COMMIT, fuzz.fails)
        came = fuzz.run(fuzz.CXLBENCH, "read-back", COMMIT, refuses)
        self.assertEqual(came.said[0], "bus fault undone")
        self.assertEqual((came.status, came.said, came.blocks), (0, failing.said, failing.blocks))

    def test_more_answers_than_a_script_has_bytes(self):
        """An honest peer's answers have no total: with zeros in front, those of a run take 17 MiB."""
        def pads(line, model, question):
            while question:
                answer = model.answer(question)
                line.say((f"0x{int(answer, 16):04093x}" if answer != "ok" else answer) + "\n")
                question = line.ask()
            return True
        text = fuzz.SHOWS + "show r1\n" * 500
        fuzz.SCRIPTS["padded"] = fuzz.Script(text, False)
        came = fuzz.run(fuzz.CXLBENCH, "padded", 1, pads)
        self.assertEqual((came.status, came.said.count("bus fault read")), (0, 0))
        self.assertGreater(came.said.count(came.said[-1]), 500)

    def test_one_wrong_answer(self):
        counts, lies, errors = fuzz.fuzz(fuzz.CXLBENCH, 400, 67, 2)
        self.assertEqual(errors, [])
        self.assertEqual(len(counts), len(fuzz.STRANGE) + len(fuzz.SAME) + len(fuzz.READS) + len(fuzz.WRITES))
        self.assertEqual({it.split(", ")[2].split(":")[0] for it in lies} - {"denies", "claims"}, set())


@unittest.skipUnless(COMMIT, "./prove --bench builds the program")
class Words(unittest.TestCase):
    def test_no_file_is_written(self):
        with tempfile.TemporaryDirectory() as folder:
            plain, pipe, link = (os.path.join(folder, it) for it in ("plain", "pipe", "link"))
            os.mkfifo(pipe)
            with open(plain, "wb") as file:
                file.write(b"read me")
            os.symlink(plain, link)
            # FROM is forgotten, so IMAGE stands for TO; and files for TO
            for words in ((fuzz.CEDT, fuzz.TOPO, plain, pipe), (fuzz.CEDT, plain, plain, pipe), (fuzz.CEDT, fuzz.TOPO, fuzz.IMAGE, link, pipe),
                          (fuzz.CEDT, fuzz.TOPO, folder, pipe), ("--read-back", fuzz.CEDT, fuzz.TOPO, plain, pipe)):
                with self.subTest(words):
                    self.assertEqual(ended(*words), (2, f"error: cannot open {words[-2]}\n"))
            with open(plain, "rb") as file:
                self.assertEqual(file.read(), b"read me")
            # FROM is looked at before TO is opened, which would wait
            self.assertEqual(ended(fuzz.CEDT, fuzz.TOPO, pipe, "nowhere"), (2, "error: cannot open nowhere\n"))

    def test_words_of_read_back(self):
        for words in (["--read-back"], ["--read-back", "a", "b", "c"], ["a", "b", "--read-back"], ["--read-back", *"abcdef"]):
            self.assertEqual(ended(*words), (1, "usage\n"))


if __name__ == "__main__":
    unittest.main()
