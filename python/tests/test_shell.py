"""`shell`: a session by lines, from a pipe and at a terminal."""

import fcntl
import os
import pty
import select
import signal
import subprocess
import sys
import termios
import time
import unittest

from here import FOUR, PYTHON, Case, asks_the_engine

WORDS = [sys.executable, os.path.join(PYTHON, "cxldesk"), "shell"]


@asks_the_engine
class Shell(Case):
    def test_lines(self):
        """Replies as a script's; a refusal's line is named on standard error, and `--stop` ends there."""
        lines = "regions\n\n# words\ncreate r0 pmem 0x20000000 d1 d2\nregions\ncreate r0 pmem 0x20000000 d1 d2\ndestroy r0\nregions\nquit\nshow r0\n"
        ran = subprocess.run([*WORDS, "--reset", *FOUR[:2]], input=lines, capture_output=True, text=True, check=False)
        self.assertEqual((ran.returncode, ran.stderr), (0, "cxldesk: line 6: name taken r0\n"))
        self.assertEqual(ran.stdout.splitlines(), [
            "no live region", "created r0 window 0 base 0x110000000 size 0x20000000 gran 256 ways 2",
            "region r0 pmem window 0 base 0x110000000 size 0x20000000 gran 256 ways 2", "name taken r0", "destroyed r0", "no live region"])
        ran = subprocess.run([*WORDS, "--stop", *FOUR], input="destroy auto0\nregions\n", capture_output=True, text=True, check=False)
        self.assertEqual((ran.returncode, ran.stdout), (8, "locked hb16 0\n"))

    def test_terminal(self):
        """At a terminal there is a prompt, names are completed, and a refusal is explained."""
        here, there = pty.openpty()
        shell = subprocess.Popen([*WORDS, *FOUR], stdin=there, stdout=there, stderr=there, env={**os.environ, "HOME": self.place, "TERM": "dumb"})
        os.close(there)
        text = self.read(here, b"", "cxl> ")
        for keys, until in ((b"sho\taut\t\n", "cxl> "), (b"destroy auto0\n", "cxl> "), (b"help\n", "cxl> "), (b"history\n", "cxl> ")):
            os.write(here, keys)
            text += self.read(here, b"", until)
        os.write(here, b"quit\n")
        self.assertEqual(shell.wait(20), 0)
        os.close(here)
        for wanted in ("1 regions. `help` tells", "show auto0", "node hb16 0 10000000", "locked hb16 0", "Firmware locked".lower(),
                       "To do: only a reset releases it.", "2 destroy auto0"):
            self.assertIn(wanted, " ".join(text.split()))
        self.assertTrue(os.path.exists(self.path(".cxldesk_history")))

    def test_keyboard(self):
        """Control-C gives up a line and keeps the session; sizes, ways and granularity are completed; a long word is wrapped at words."""
        here, there = pty.openpty()
        shell = subprocess.Popen([*WORDS, "--reset", *FOUR[:2]], stdin=there, stdout=there, stderr=there, start_new_session=True,
                                 preexec_fn=lambda: (signal.signal(signal.SIGINT, signal.SIG_DFL), fcntl.ioctl(there, termios.TIOCSCTTY, 0)),
                                 env={**os.environ, "HOME": self.place, "TERM": "dumb", "COLUMNS": "60"})
        os.close(there)
        text = self.read(here, b"", "cxl> ")
        for keys in (b"show x\x03", b"\x03", b"create r0 pm\t1G\tway\t4\t\n", b"create r1 p\x03", b"show r0\n", b"explain K12\n", b"explain K13\n",
                     b"where 0x110000100\n", b"where d2 0\n", b"room\n", b"destroy r1\n"):
            os.write(here, keys)
            text += self.read(here, b"", "cxl> ")
        os.write(here, b"quit\n")
        self.assertEqual(shell.wait(20), 0)
        os.close(here)
        words = " ".join(text.split())
        for wanted in ("created r0 window 0 base 0x110000000 size 0x40000000 gran 256 ways 4", "region r0 pmem window 0", "K12 wants: all endpoints",
                       "nothing is known of K13; ", "0x110000100 r0 1 1 hb32:0:0 d2 0x0", "d4 pmem 256 MiB 0 B", "no such region r1"):
            self.assertIn(wanted, words)
        explained = text[text.index("K12 wants"):].split("cxl> ")[0].replace("\r", "").splitlines()
        self.assertLessEqual(max(map(len, explained)), 60)

    @staticmethod
    def read(end, text, until):
        """What is written up to a word, or in a minute."""
        started = time.monotonic()
        while not text.decode(errors="replace").endswith(until) and time.monotonic() - started < 60:
            if select.select([end], [], [], 1)[0]:
                text += os.read(end, 4096)
        return text.decode(errors="replace")


if __name__ == "__main__":
    unittest.main()
