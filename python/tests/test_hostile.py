"""Nothing that comes from a host or from a word breaks the desk, or has it reach further than the host's folder: each fault that was met,
by its name, and a thousand more that are made. Any exception that is no line is a failure."""

import os
import random
import re
import shutil
import struct
import subprocess
import sys
import unittest
from unittest import mock

from here import FOUR, LOST, PYTHON, Case, asks_the_engine, said, worked_hosts
from cxlplan import BadFile, BadWords, CxlError, Host, Refusal, Table, _engine, _library
from cxlplan.editing import image_of, image_text, table_of, table_text
from cxlplan.fleet import judge
from cxlplan.incoming import FILES, in_bytes, number, read_file, read_within

DESK = [sys.executable, os.path.join(PYTHON, "cxldesk")]
STATUSES = {0, 1, 2, 3, 4, 6, 8, 10, 12}
TOO_LARGE = ("18446744073709551616", "0x10000000000000000", "9" * 5000, "0x" + "f" * 5000)
# Words of the proved texts, of which a name may be one.
NAMES = ("endpoint", "down", "via", "region", "words", "codes", "verdict", "base", "size", "slot", "node", "decoder", "block", "targets",
         "skip", "none", "plan", "window", "row", "refused", "bad", "locked", "busy", "ram", "pmem", "gran", "ways")


class Tried(Case):
    def tried(self, *words):
        """A command that ends with a status of its own and, where it is no answer, with one line."""
        status, text, line = said(*words)
        self.assertIn(status, STATUSES, words)
        self.assertLessEqual(line.count("\n"), 1, words)
        self.assertTrue(all(sign.isprintable() for sign in line.rstrip("\n")), words)
        return status, text, line

    def host(self, name="host", files=tuple(FOUR)):
        folder = self.path(name)
        os.makedirs(folder)
        for place, file in zip(FILES, files):
            shutil.copyfile(file, os.path.join(folder, place))
        return folder


@asks_the_engine
class Folders(Tried):
    """What stands in a host's folder."""

    def test_report(self):
        """The capture's report is a plain file of the folder, or it is left out."""
        for number_of, put in enumerate((lambda at: os.symlink("/etc/passwd", at), lambda at: os.symlink("/dev/zero", at), os.mkfifo, os.mkdir,
                                         lambda at: os.truncate(os.open(at, os.O_CREAT | os.O_WRONLY), 1 << 32))):
            folder, page = self.host(f"host{number_of}"), self.path(f"{number_of}.html")
            put(os.path.join(folder, "report.txt"))
            self.assertEqual(self.tried("report", folder, page)[0], 0)
            text = read_file(page).decode()
            self.assertNotIn("root:", text)
            self.assertNotIn("What the capture put", text)
        folder = self.host("own")
        self.file("own/kept", "its own words\x1b[2J")
        os.symlink("kept", os.path.join(folder, "report.txt"))
        self.assertEqual(self.tried("report", folder, self.path("own.html"))[0], 0)
        self.assertIn("its own words", read_file(self.path("own.html")).decode())

    def test_files(self):
        """Each file of a host in another form is a line, for each command, and nothing is waited for."""
        for place in FILES:
            for name, put in (("link", lambda at: os.symlink("/etc/hostname", at)), ("zero", lambda at: os.symlink("/dev/zero", at)),
                              ("pipe", os.mkfifo), ("folder", os.mkdir), ("loop", lambda at: os.symlink(os.path.basename(at), at))):
                folder = self.host(f"{name}-{place}")
                os.remove(os.path.join(folder, place))
                put(os.path.join(folder, place))
                for words in (("show", folder), ("check", folder), ("where", folder, "0"), ("plan", folder, "r0 pmem 1G ways=4"),
                              ("diff", folder, *FOUR), ("report", folder, self.path("page"))):
                    status, text, line = self.tried(*words)
                    self.assertEqual((status, text), (2, ""), words)
                    self.assertRegex(line, "is a (link out of its folder|pipe|folder|link)\n")
        with self.assertRaises(BadFile):
            read_within(self.place, "a\0b")

    def test_names(self):
        """A folder's name moves no cursor, and is no line of a text."""
        for name in ("line\nchbs uid 9", "clear\x1b[2J", os.fsdecode(b"no\xffutf8"), "x" * 250, "quo\"te", "<b>&"):
            folder = self.host(name)
            for words in (("show", folder), ("check", folder), ("image", folder), ("table", os.path.join(folder, FILES[0])),
                          ("report", folder, self.path("page")), ("where", folder, "0")):
                _, text, _ = self.tried(*words)
                self.assertNotIn("\x1b", text)
            page = read_file(self.path("page"))
            self.assertNotIn(b"\x1b", page)
            self.assertNotIn(b"<b>&<", page)
            os.remove(self.path("page"))
            text = table_text(Host.from_folder(folder).table)
            self.assertEqual(table_of(text), Host.from_folder(folder).table.normal())
            ran = subprocess.run([*DESK, "shell", folder], input=b"regions\n", capture_output=True, check=False)
            self.assertEqual((ran.returncode, ran.stderr, ran.stdout[:12]), (0, b"", b"region auto0"))

    def test_order(self):
        """Files in another order, and a file of another kind."""
        for files in ((1, 0, 2), (0, 2, 1), (2, 1, 0), (1, 2, 0), (0, 0, 2), (0, 1, 1), (2, 2, 2)):
            status, text, line = self.tried("check", *(FOUR[it] for it in files))
            self.assertIn((status, text), [(3, ""), (4, ""), (10, "")])
            if sorted(files) == [0, 1, 2]:
                self.assertTrue(line.endswith("the order is CEDT TOPO IMAGE\n"), line)


@asks_the_engine
class Words(Tried):
    """What a user types, or another program."""

    def test_numbers(self):
        for word in TOO_LARGE:
            for words in (("where", *FOUR, word), ("where", *FOUR, "d2", word), ("where", *FOUR, "0", "--length", word),
                          ("where", *FOUR, "d2", "0", "--length", word), ("fleet", self.place, "--jobs", word)):
                status, text, line = self.tried(*words)
                self.assertEqual((status, text), (1, ""), words)
                self.assertIn(" is above 0xffffffffffffffff", line)
            self.assertEqual(self.tried("plan", "--reset", *FOUR[:2], f"r0 pmem {word} ways=4")[0], 8)
        for word in ("1e9", "-1", "+1", " 1", "1_000", "0b1", "٣", "0x", "", "1G1", "99999999999T", "1KB"):
            self.assertIn(self.tried("where", *FOUR, "0x0", f"--length={word}")[0], (1, 8), word)
        for call in (lambda: Table(Host.from_files(*FOUR).table.data).route(1 << 64), lambda: number("1" * 5000),
                     lambda: Host.from_files(*FOUR).pick("p mem", 1 << 30, 4)):
            self.assertRaises(BadWords, call)
        self.assertEqual(number("0" * 5000 + "7"), 7)
        self.assertRaises(Refusal, Host.from_files(*FOUR).where, 1 << 64)

    def test_lines(self):
        """Line feeds, bytes that are no UTF-8, and words of any length."""
        for word in ("a\nb", "\udcff", "\ud800", "x" * 5000, "\x1b[2J", "\0", "d1,d2", "'", '"', "%s", "..", "-", "--"):
            for words in (("plan", "--reset", *FOUR[:2], f"r0 pmem 1G {word}"), ("plan", "--reset", *FOUR[:2], f"{word} pmem 1G ways=4"),
                          ("plan", *FOUR, f"destroy {word}"), ("where", *FOUR, word, "0"), ("where", *FOUR, word), ("show", word),
                          ("check", *FOUR[:2], word), (word, *FOUR), ("plan", *FOUR, word), ("fleet", word), ("diff", word, word),
                          ("image", *FOUR, "--from", word, "--to", self.path("x")), ("report", *FOUR, os.path.join(self.path("none"), word))):
                with mock.patch("sys.stdin", None):
                    self.tried(*words)
        with Host.from_files(*FOUR).session() as session:
            self.assertRaises(BadWords, session.act, "show a\nshow b")
            for line in ("#" + "x" * 4095 + "\r", "#" + "x" * 4096, " " * 4096 + "\r", "\r", "step", "begin", "step\r", "show \udcff", "\0",
                         "step\x0b", "# step", "bad line 4 missing", "x" * 100000):
                session.act(line)
                self.assertTrue(session.act("show auto0").startswith("region auto0 "), line[:20])

    def test_region_names(self):
        """A region may have the name of any word of a text."""
        with Host.from_files(*FOUR[:2]).session() as session:
            for name in NAMES:
                region = session.create(name, "pmem", 1 << 30, ways=4)
                way = session.down(region.base + 0x100)
                self.assertEqual((region.name, way.region, way.endpoint, way.slot), (name, name, "d2", 1))
                self.assertEqual((session.up("d2", 0).region, session.show(name)[0]), (name, region))
                self.assertEqual(len(session.poison("d2", struct.pack("<10xH20xQII", 1, 0, 1, 0))[0][0].pieces), 1)
                session.destroy(name)

    def test_node_names(self):
        """And so may a node: what is told of it is the same but for its name."""
        host = Host.from_files(*FOUR)
        for first in range(0, len(NAMES) - 6, 6):
            names = dict(zip(("hb16", "hb32", "d1", "d2", "d3", "d4"), NAMES[first:]))
            topology = re.sub(rb'"(hb\d+|d\d)"', lambda it: f'"{names[it[1].decode()]}"'.encode(), host.topology.data)
            other = Host(host.table.data, topology, host.registers, "other")
            self.assertEqual([it.name for it in other.nodes], [names[it.name] for it in host.nodes])
            self.assertEqual([it.words for it in other.decoders], [it.words for it in host.decoders])
            self.assertEqual([it.endpoint for it in other.regions[0].slots], [names[it.endpoint] for it in host.regions[0].slots])
            self.assertEqual((other.where(0x110000100).endpoint, other.host_of(names["d2"], 0).hpa), (names["d2"], 0x110000100))
            self.assertEqual(image_of(other, image_text(other)), host.registers)
            folder = self.folder(f"names{first}", other)
            for words in (("show", folder), ("check", folder), ("diff", folder, *FOUR), ("report", folder, self.path(f"{first}.html")),
                          ("plan", "--reset", folder, "r0 pmem 1G ways=4", "--words"), ("room", folder)):
                self.assertIn(self.tried(*words)[0], (0, 8))

    def test_units(self):
        for line, wanted in (("create r pmem 1G d1", "create r pmem 0x40000000 d1"), ("begin create r pmem 2GiB ways=4 gran=4K",
                             "begin create r pmem 0x80000000 ways=4 gran=4096"), ("load 0x0 4k", "load 0x0 0x1000"), ("# 1G", "# 1G"),
                             ("create 1G pmem 1 2K", "create 1G pmem 1 2K"), ("destroy 1G", "destroy 1G"), ("create r pmem 1GB", "create r pmem 1GB")):
            self.assertEqual(in_bytes(line), wanted)


@asks_the_engine
class Texts(Tried):
    """Texts that are edited, and lists of poison."""

    def test_heads(self):
        """What a table's head has goes into text and back, whatever bytes it is: also a # behind a space."""
        table = bytearray(Host.from_files(*FOUR).table.normal())
        rows = [(b" #a #b", b"a #\"\\x00", b" # ", 7, 8, 1), (b"\0\xff#\n\r\"", b"\\\\\\\"\\x41", b"\\x4 ", 0, 0, 255)]
        some = random.Random(5)
        rows += [(*(bytes(some.choice(b' #"\\x\0\n\xff') for _ in range(size)) for size in (6, 8, 4)), 1, 2, 3) for _ in range(200)]
        for oem, name, creator, revision, creator_revision, form in rows:
            table[8], table[10:36] = form, struct.pack("<6s8sI4sI", oem, name, revision, creator, creator_revision)
            table[9] = 0
            table[9] = -sum(table) % 256
            self.assertEqual(table_of(table_text(Table(bytes(table), "x #\n"))), table)

    def test_fields(self):
        """A field that is given twice is none."""
        host = Host.from_files(*FOUR)
        for text, line in (("decoder d1 0 base 1 base 1", "base stands there twice"), ("decoder d1 0 ways 1 ways-code 0", "ways-code and ways are one field"),
                           ("decoder d1 0 skip 1 targets 0", "targets and skip are one field"), ("decoder d1 0 base " + "9" * 5000, "is no number up to"),
                           ("decoder d1 " + "9" * 5000, "is no number up to"), ('decoder d1 0 base "', "a quote that is not closed"),
                           ("decoder d1 0 targets " + ",".join(["9" * 5000] * 3), "is no number up to")):
            self.assertRaisesRegex(BadWords, f"line 1: .*{line}", image_of, host, text)
        for text, line in (("cedt revision 1 revision 1", "revision stands there twice"), ("cedt\ncedt", "cedt stands there twice"),
                           ("chbs uid 1 uid 1 version 0 base 0 length 0", "uid stands there twice"), ('cedt oem-id "Ω"', "more than one byte"),
                           ("chbs uid " + "9" * 5000 + " version 0 base 0 length 0", "is no number up to")):
            self.assertRaisesRegex(BadWords, line, table_of, text)
        self.assertEqual(table_of("chbs uid " + "0" * 5000 + "1 version 0x" + "0" * 5000 + "1 base 0 length 0"),
                         table_of("chbs uid 1 version 1 base 0 length 0"))
        self.assertRaises(CxlError, image_of, Host(host.table.data, host.topology.data, host.registers[:50]), "decoder d1 0 base 1")

    def test_poison(self):
        """A list that is cut is refused with as many records as it has."""
        record, head = struct.pack("<QII", 0x100 | 2, 1, 0), struct.pack("<10xH20x", 250)
        for count in (0, 1, 7, 99, 100, 101, 249):
            for more in (b"", record[:15]):
                file = self.file("list", head + record * count + more)
                self.assertEqual(self.tried("where", *FOUR, "d2", "--poison", file)[::2], (8, f"cxldesk: poison count 250 {count}\n"))
        for data in (b"", bytes(31), bytes(32), b"\xff" * 40, head + record * 250 + b"more"):
            self.tried("where", *FOUR, "d2", "--poison", self.file("list", data))


@asks_the_engine
class Outputs(Tried):
    def test_inputs(self):
        """No output takes the place of a file that is there."""
        folder, text = self.host(), self.file("text", "decoder d1 0\n")
        before = [read_file(os.path.join(folder, it)) for it in FILES]
        image, table = os.path.join(folder, FILES[2]), os.path.join(folder, FILES[0])
        os.symlink("none", self.path("lost"))
        for words in (("plan", folder, "r0 pmem 1G ways=4", "--image", image), ("plan", "--reset", folder, "r0 pmem 1G ways=4", "--image", image),
                      ("report", folder, image), ("image", folder, "--from", text, "--to", text), ("image", folder, "--from", text, "--to", image),
                      ("table", "--from", self.file("t", table_text(Table(before[0]))), "--to", table), ("fleet", folder, "--out", image),
                      ("fleet", folder, "--db", table), ("report", folder, self.path("lost")), ("report", folder, "/dev/null")):
            self.assertIn(self.tried(*words)[0], (1, 8), words)
        self.assertEqual([read_file(os.path.join(folder, it)) for it in FILES], before)
        self.assertEqual(sorted(os.listdir(folder)), sorted(FILES))

    def test_closed(self):
        """Outputs that are closed or full, and a standard input that is closed."""
        commands = (["check", *FOUR], ["show", *FOUR, "--json"], ["--help"], ["--version"], ["fleet", self.host()], ["check", "/none"],
                    ["shell", *FOUR], ["check", *FOUR[:2], "-"], ["room", "--reset", *FOUR[:2]], ["check", "/none", "--json"])
        for words in commands:
            for ends, status in ((">&-", None), ("2>&-", None), (">&- 2>&-", None), ("<&-", None), ("<&- >&- 2>&-", None), (">/dev/full", None),
                                 (">/dev/full 2>/dev/full", None), ("| true", None)):
                ran = subprocess.run(["bash", "-c", f'set -o pipefail; "$@" {ends}', "-", *DESK, *words], input=b"regions\n", capture_output=True,
                                     timeout=60, check=False)
                self.assertNotIn(b"Traceback", ran.stderr, (words, ends))
                self.assertNotIn(b"Error", ran.stderr, (words, ends))
                self.assertLessEqual(ran.stderr.count(b"\n"), 1, (words, ends))
                self.assertIn(ran.returncode, STATUSES, (words, ends, status))
                if ">&-" in ends.replace("2>&-", "") or "/dev/full" in ends:
                    self.assertNotEqual(ran.returncode, 0, (words, ends))


class Found(Case):
    """Where the library and the program are looked for."""

    def placed(self, *folders):
        """The places of a package that stands in these folders."""
        package = os.path.join(self.place, *folders, "cxlplan")
        with mock.patch.object(_engine, "HERE", package), mock.patch.object(_library, "_HERE", package), \
                mock.patch.dict(os.environ, {"CXLPLAN_LIBRARY": "", "CXLPLAN": "", "PATH": "/none"}):
            # the first is beside the package itself, as a wheel has it
            self.assertEqual(_library.places()[0], f"{package}/libcxlplan.so.1")
            return [it.replace(self.place, "") for it in _library.places()[1:]], _engine.homes("crates/cxlplan/out", "bin"), _engine.program_file()

    def test_checkout(self):
        """Of an unbuilt checkout nothing that is found by going up is taken."""
        for name in ("lib", "bin"):
            os.makedirs(self.path(name))
        self.file("lib/libcxlplan.so.1", "")
        os.chmod(self.file("bin/cxlplan", "#!/bin/sh\n"), 0o755)
        os.makedirs(self.path("a/b"))
        self.file("a/b/crates.txt", "")
        self.assertEqual(self.placed("a", "b", "python"), (
            ["/a/b/crates/cxl_c/out/libcxlplan.so.1", "libcxlplan.so.1"], [f"{self.place}/a/b/crates/cxlplan/out"], None))
        for folders in (("python",), ("a", "site-packages"), ("a", "b", "c", "python"), ("a",)):
            self.assertEqual(self.placed(*folders), (["libcxlplan.so.1"], [], None))
        self.assertEqual(self.placed("share", "cxlplan", "python"), (
            ["/lib/libcxlplan.so.1", "libcxlplan.so.1"], [f"{self.place}/bin"], f"{self.place}/bin/cxlplan"))

    def test_programs(self):
        """A program that is none is a line."""
        for name, data in (("empty", b""), ("text", b"words"), ("ends", b"#!/bin/sh\nexit 3\n"), ("says", b"#!/bin/sh\necho \xff; exit 1\n"),
                           ("killed", b"#!/bin/sh\nkill -9 $$\n")):
            program = self.file(name, data)
            os.chmod(program, 0o755)
            for words in (["check", *FOUR], ["where", *FOUR, "0"], ["--version"], ["shell", *FOUR]):
                ran = subprocess.run([*DESK, *words], env={**os.environ, "CXLPLAN": program, "CXLPLAN_LIBRARY": "/none"}, input=b"regions\n",
                                     capture_output=True, timeout=60, check=False)
                self.assertNotIn(b"Traceback", ran.stderr, (name, words))
                self.assertLessEqual(ran.stderr.count(b"\n"), 1)


@asks_the_engine
class Made(Tried):
    """Hosts, texts and words that are made from those at hand: a thousand and more."""

    SEED, HOSTS, TEXTS, LINES = 64, 500, 300, 400

    def changed(self, some, data):
        """Bytes with something else in them."""
        data = bytearray(data)
        for _ in range(some.choice((1, 1, 2, 5))):
            at = some.randrange(len(data) + 1)
            kind = some.randrange(6)
            if kind == 0 and at < len(data):
                data[at] ^= 1 << some.randrange(8)
            elif kind == 1:
                data[at:at + some.randrange(40)] = b""
            elif kind == 2:
                data[at:at] = bytes(some.choice((0, 255, 10, 13, 32, 34, 35, 48, 65, 200)) for _ in range(some.randrange(1, 20)))
            elif kind == 3:
                del data[at:]
            elif kind == 4:
                data[at:at + 8] = some.choice((b"\xff", b"\0")) * 8
            else:
                data += data[:some.randrange(200)]
        return bytes(data)

    def test_hosts(self):
        some, hosts = random.Random(self.SEED), [Host.from_files(*FOUR), Host.from_files(*LOST), *list(worked_hosts())[:12]]
        for number_of in range(self.HOSTS):
            host = some.choice(hosts)
            files = [host.table.data, host.topology.data, host.registers]
            for place in some.sample(range(3), some.choice((1, 1, 1, 2))):
                files[place] = self.changed(some, files[place])
            folder = self.folder("made", Host(*files))
            words = some.choice((("show",), ("check",), ("where", "0x110000000"), ("image",), ("room", "--kind", "pmem"), ("diff",),
                                 ("plan", "r0 pmem 1G ways=2", "--words"), ("plan", "r9 ram 256M ways=1", "--linux"), ("report",)))
            rest = {"diff": FOUR, "report": [self.path(f"{number_of}.html")]}.get(words[0], words[1:])
            with self.subTest(number=number_of, words=words):
                self.tried(words[0], folder, *rest, *(["--json"] if some.random() < 0.3 else []))
                verdict = judge(folder, decoders=True)
                self.assertNotIn("not understood", verdict["text"])

    def test_texts(self):
        some, host = random.Random(self.SEED + 1), Host.from_files(*FOUR)
        for number_of in range(self.TEXTS):
            is_table = some.random() < 0.5
            text = self.changed(some, (table_text(host.table) if is_table else image_text(host)).encode())
            with self.subTest(number=number_of):
                words = ("table",) if is_table else ("image", *FOUR)
                status, _, _ = self.tried(*words, "--from", self.file("text", text), "--to", self.path("made"))
                if status == 0:
                    os.remove(self.path("made"))

    def test_lines(self):
        some = random.Random(self.SEED + 2)
        signs = "abcdef0123456789xGMK=,._- \t\r#\"'\\\0\x1b\udcffé"
        words_of = ("create", "destroy", "begin", "step", "abort", "show", "down", "up", "range", "spread", "load", "store", "copy", "move", "poison",
                    "auto0", "r0", "ram", "pmem", "1G", "0x10000000", "ways=4", "gran=256", "d1", "d2", "hb16", "0", "0x110000000", "64")
        with Host.from_files(*FOUR).session() as session:
            for number_of in range(self.LINES):
                line = " ".join(some.choice(words_of) for _ in range(some.randrange(1, 8))) if some.random() < 0.7 else "".join(
                    some.choice(signs) for _ in range(some.randrange(60)))
                with self.subTest(number=number_of, line=line):
                    session.act(in_bytes(line))
                    self.assertEqual(session.act("down 0"), "unmapped\n")
                    if number_of % 8 == 0:
                        self.tried("plan", *FOUR, line)


if __name__ == "__main__":
    unittest.main()
