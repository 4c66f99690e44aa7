"""The runner of worked cases, over programs of the tests' own: what it passes, what it tells of a difference, and what of a bad file."""

import os
import stat
import subprocess
import sys
import tempfile
import unittest
from pathlib import Path

sys.dont_write_bytecode = True
WORKED = Path(__file__).resolve().parent.parent
sys.path.insert(0, str(WORKED))

import cases  # noqa: E402 pylint: disable=wrong-import-position
import texts  # noqa: E402 pylint: disable=wrong-import-position

HOST = """--- from
by hand
--- table
chbs uid 0 version 1 base 0x80000000 length 0x10000
window base 0x100000000 size 0x10000000 gran 256 arithmetic modulo restrict 0x000e qtg 0 targets 0
--- topology
bridge = [{ name = "hb0", uid = 0 }]
endpoint = [{ name = 'e0', parent = "hb0", port = 0, ram = 0x1_0000_000 }]  # one
"""


class Worked(unittest.TestCase):
    def setUp(self):
        folder = tempfile.TemporaryDirectory()  # pylint: disable=consider-using-with
        self.addCleanup(folder.cleanup)
        self.place = folder.name

    def file(self, name, text):
        path = os.path.join(self.place, name)
        with open(path, "wb") as file:
            file.write(text if isinstance(text, bytes) else text.encode())
        return path

    def program(self, body):
        path = self.file("program", f"#!{sys.executable}\nimport sys\n{body}\n")
        os.chmod(path, os.stat(path).st_mode | stat.S_IXUSR)
        return path

    def said(self, *words):
        ran = subprocess.run([sys.executable, str(WORKED / "run"), *words], stdin=subprocess.DEVNULL, stdout=subprocess.PIPE,
                             stderr=subprocess.PIPE, check=False, text=True)
        self.assertNotIn("Traceback", ran.stderr)
        return ran.returncode, ran.stdout, ran.stderr

    def test_passes(self):
        """The words, the files and the script are handed on; text, status and hint are compared."""
        program = self.program("print(*sys.argv[1:], len(open('table', 'rb').read()), sys.stdin.read().count(chr(10))); print('hint', file=sys.stderr); sys.exit(8)")
        case = self.file("a.case", f"One\n{HOST}--- ask run table 'two words'\none\ntwo\n\n--- answer 8\nrun table two words 108 2\n--- hint\nhint\n")
        self.assertEqual(self.said(program, case), (0, "1 passed, 0 failed\n", ""))

    def test_differences(self):
        """Each difference has its file and line."""
        program = self.program("print('a'); print('x'); print('more')")
        case = self.file("b.case", f"Two\n{HOST}--- ask list table\n--- answer 3\na\nb\n--- hint\nc\n")
        status, text, line = self.said(program, case)
        self.assertEqual((status, line), (1, ""))
        for told in (f"{case}:11: Two\n  expected: exit status 3\n  got:      exit status 0\n", f"{case}:13: Two\n  expected: b\n  got:      x\n",
                     "  expected: the end\n  got:      more\n", f"{case}:15: Two\n  expected: c\n  got:      the end\n", "\n0 passed, 1 failed\n"):
            self.assertIn(told, text)
        self.assertNotIn(f"{case}:15", self.said("--no-hints", program, case)[1])

    def test_no_answer(self):
        case = self.file("c.case", f"Three\n{HOST}--- ask list table\n--- answer\n")
        self.assertIn("got:      the program was ended by signal 9", self.said(self.program("import os; os.kill(os.getpid(), 9)"), case)[1])
        self.assertEqual(self.said("/none", case), (2, "", "worked/run: /none: no program that can be run\n"))
        self.assertEqual(self.said(self.program(""), "none"), (2, "", "worked/run: none: there is no such subject and no such file\n"))
        self.assertEqual(self.said()[0], 2)

    def test_several(self):
        """What stands above the first case is of all; a case may add to it or have its own."""
        path = self.file("d.case", f"Title\n{HOST}--- case one\n--- ask a\n--- answer\n--- case two\n--- also table\nput 9 00\nsize 40\nsum\n"
                         "--- escaped ask b\n\\x41\\(3 bc\n\\)\\\\\\\n--- answer 1\nx\n--- case three\n--- hex image\n43 58 # c\n--- ask c\n--- answer 0 table\nsize 0\n")
        one, two, three = cases.read_cases(Path(path))
        self.assertEqual((one.title, two.title, three.title), ("one", "two", "three"))
        self.assertEqual((len(one.files["table"]), len(two.files["table"]), sum(two.files["table"]) % 256), (108, 40, 0))
        self.assertEqual((two.script, two.status, three.files["image"], three.answer), (b"Abc\nbc\nbc\n\\", 1, b"CX", b""))
        self.assertNotIn("image", one.files)

    def test_image(self):
        image = cases.read_cases(Path(self.file("e.case", f"Title\n{HOST}--- image\ndecoder e0 0 base 0x100000000 size 0x10000000 ways 1 gran 256 commit 1 "
                                                          "committed 1 host-only 1\nword hb0 0x4 0x2\n--- ask a\n--- answer\n")))[0].files["image"]
        self.assertEqual((len(image), image[16], image[160], image[188:192].hex(), image[172:180].hex()), (300, 2, 2, "00160000", "0000000001000000"))

    def test_bad_files(self):
        """One clear line for each file that is no case."""
        program = self.program("")
        ask = "--- ask a\n--- answer\n"
        for number, (text, line) in enumerate((
                (b"\xff", "no UTF-8"), ("", ":1: the first line has to be a title"), ("T\n--- bad\n", ":2: '--- bad' begins no section"),
                ("T\n--- from\nx\n--- ask 'a\n--- answer\n", ":4: a quote is not closed"), (f"T\n{ask}", ":1: the case has no from"),
                ("T\n--- from\nx\n--- ask a\n", ":1: the case has no answer"), (f"T\n--- from\nx\n--- also table\n{ask}", ":4: also adds to the table"),
                (f"T\n--- from\nx\n--- table\nchbs uid 1\n{ask}", ":5: version is missing"), (f"T\n--- from\nx\n--- table\n\nwindo\n{ask}", ":6: a line of a table"),
                (f"T\n--- from\nx\n--- table\nput 900 00\n{ask}", ":5: the file has no more"), (f"T\n--- from\nx\n--- table\nsize 99999999999\n{ask}", ":5: 99999999999 is more"),
                (f"T\n--- from\nx\n--- table\nput 0 0\n{ask}", ":5: '0' are no hexadecimal"), (f"T\n--- from\nx\n--- image\n{ask}", ":5: decoders want a topology"),
                (f"T\n{HOST}--- image\ndecoder e1 0\n{ask}", ":11: there is no decoder 0 of e1"), (f"T\n{HOST}--- image\nword e0 2 0\n{ask}", ":11: there is no word"),
                (f"T\n{HOST}--- image\ndecoder e0 0 ways 5\n{ask}", ":11: ways are"), (f"T\n{HOST}--- image\ndecoder e0 0 lock 2\n{ask}", ":11: 2 is more"),
                ("T\n--- from\nx\n--- escaped ask a\n\\q\n--- answer\n", ":5: \\q is no escape"),
                ("T\n--- from\nx\n--- escaped ask a\n\\(999999999 abc\\)\n--- answer\n", ":5: the text has more"),
                ("T\n--- from\nx\n--- escaped ask a\n\\(99999999999999999999 \\)\n--- answer\n", ":5: the text has more"),
                (f"T\n--- from\nx\n--- ask a\n--- answer 256\n", ":5: behind answer"), (f"T\n--- from\nx\n--- case\n{ask}", ":4: a case has a title"),
                (f"T\n--- from\nx\n{ask}--- case b\n{ask}", ":4: ask stands before the first case"), (f"T\n--- from x\n{ask}", ":2: nothing stands behind from"),
                ("T\n--- from\nx\n--- topology\n" + "x = [" * 999 + f"\n--- image\n{ask}", ":7: 'x' is no number"),
                (f"T\n--- from\nx\n--- topology\nx = \"\"\"\n--- image\n{ask}", "plain TOML"), (f"T\n--- from\nx\n--- fails x\n{ask}", ":5: 'x' is no number"))):
            path = self.file(f"bad{number}.case", text)
            with self.subTest(line):
                status, told, error = self.said(program, path)
                self.assertEqual((status, error, told.count("\n")), (1, "", 2), told)
                self.assertIn(line, told.split("\n")[0])
                self.assertEqual(told.split("\n")[1], "0 passed, 1 failed")

    def test_all_files(self):
        """Each case here has a title and a source, and its table is what its text says."""
        count = 0
        for path in cases.case_files([]):
            for case in cases.read_cases(path):
                count += 1
                with self.subTest(case.title, file=case.name):
                    self.assertGreater(len(case.source), 7)
                    self.assertTrue(case.words or case.status == 1)
        self.assertGreater(count, 500)

    def test_text_of_tables(self):
        """A table of each line, byte for byte."""
        made = texts.table_of('cedt revision 2 oem-id "AB" oem-revision 3 creator "x\\x00y"\ncxims gran 512 maps 0x200,0x400\nother type 9 reserved 7 body 0102\nbytes aabb\n')
        self.assertEqual((made[8], made[10:16], sum(made) % 256, made[36:60].hex(), made[60:].hex()),
                         (2, b"AB\0\0\0\0", 0, "02001800" + "0000" + "0102" + "0002000000000000" + "0004000000000000", "090706000102" + "aabb"))


if __name__ == "__main__":
    unittest.main()
