"""The subcommands that ask: their texts, statuses and faults."""

import json
import os
import struct
import subprocess
import sys
import unittest

from here import FOUR, LOST, PYTHON, Case, asks_the_engine, machines, said, written_hosts
from cxlplan import Host
from cxlplan.desk.whereis import payloads
from cxlplan.editing import image_of, image_text
import window_tables

CHECKED = """\
region auto0 pmem window 0 base 0x110000000 size 0x40000000 gran 256 ways 4
slot auto0 0 d1 from 0x0 bytes 0x10000000
slot auto0 1 d2 from 0x0 bytes 0x10000000
slot auto0 2 d3 from 0x0 bytes 0x10000000
slot auto0 3 d4 from 0x0 bytes 0x10000000
"""


@asks_the_engine
class Asked(Case):
    def test_check(self):
        self.assertEqual(said("check", *FOUR), (0, CHECKED, ""))
        status, text, line = said("check", *LOST)
        self.assertEqual((status, line, text.splitlines()[0]), (8, "", "breach K12 d4 0"))
        self.assertIn("it has 4 ways of 512 bytes, and others of its kind in the range have 4 ways of 256 bytes", text)
        self.assertEqual([row for row in text.splitlines() if "<-" in row],
                         ["decoder d4 0 committed base 0x110000000 size 0x40000000 ways 4 gran 512 skip 0x0 <- broken, differs"])

    def test_windows(self):
        """A window of each verdict: which of its causes it is, and why in words."""
        files = [self.file("table", window_tables.each_verdict()), self.file("topology", window_tables.topology())]
        status, text, _ = said("show", "--reset", *files, "--json")
        windows = json.loads(text)["windows"]
        self.assertEqual((status, [f"{it['verdict']} {it['cause']}".strip() for it in windows]),
                         (0, [row[-1] for row in window_tables.WINDOWS]))
        self.assertEqual([it["why"] for it in windows if it["cause"]], [
            "no CHBS of the table has the target 3", "the target 4 is no bridge of CXL 2.0", "the target 7 is no bridge of CXL 2.0",
            "the target 5 is no bridge of the topology", "there is no CXIMS of 1024 bytes, which XOR needs",
            "of the maps of the CXIMS of 2048 bytes that 2 ways need, one cannot be used",
            "of the maps of the CXIMS of 4096 bytes that 2 ways need, one cannot be used",
            "the CXIMS of 8192 bytes has 0 maps, and 2 ways need 1"])

    def test_aligned(self):
        """At a terminal columns stand under their names."""
        _, text, _ = said("check", *FOUR, "--aligned")
        self.assertEqual(text.splitlines()[:3], ["Regions", "  name   kind  window         base   size  gran  ways",
                                                 "  auto0  pmem       0  0x110000000  1 GiB   256     4"])

    def test_where(self):
        for words, text in (
                (["0x110000100"], "down 0x110000100 region auto0 slot 1 position 1 via hb32:0:0 endpoint d2 dpa 0x0\n"),
                (["d2", "0x0"], "host 0x110000100 region auto0\n"),
                (["0x1100000f0", "--length", "32"], "extent 0x1100000f0 16 d1 0xf0\nextent 0x110000100 16 d2 0x0\n"),
                (["0x1100000f0", "--length", "1K"], said("where", *FOUR, "0x1100000f0", "--length", "1024")[1]),
                (["0x110000000", "--length", "1M"], "".join(f"slot {i} d{i + 1} 262144\n" for i in range(4))),
                (["d2", "0xc0", "--length", "128"],
                 "run 0x1100001c0 length 64 region auto0\nrun 0x110000500 length 64 region auto0\n")):
            with self.subTest(words):
                self.assertEqual(said("where", *FOUR, *words), (0, text, ""))
        for words, status, line in (
                (["0x0"], 8, "cxldesk: unmapped; no region is so low; of a device's byte the question is: HOST ENDPOINT DPA\n"),
                (["0x150000000"], 8, "cxldesk: unmapped\n"), (["110000100"], 8, "cxldesk: unmapped; 0x is missing in front of 110000100\n"),
                (["d2", "0x110000100"], 8, "cxldesk: unmapped; 0x110000100 is a host address, of which the question is: HOST 0x110000100\n"),
                (["0x0", "d2"], 1, "cxldesk: ENDPOINT stands before DPA: d2 0x0\n"),
                (["d9", "0"], 8, "cxldesk: no such endpoint d9; there are d1, d3, d2, d4\n"),
                (["dd2", "0"], 8, "cxldesk: no such endpoint dd2; d2 is the nearest\n"),
                (["0x110000000", "--length", "4Q"], 1, "cxldesk: '4Q' is no number; sizes are bytes, as 0x40000000 for 1 GiB\n"),
                (["d2", "0x1", "--length", "64"], 1, "cxldesk: a range of device bytes begins at a multiple of 64 and has a multiple of 64 bytes\n"),
                (["11000f"], 1, "cxldesk: '11000f' is no number; in hexadecimal 0x is missing\n"),
                (["1G"], 1, "cxldesk: '1G' is no number; sizes are bytes, as 0x40000000 for 1 GiB\n")):
            with self.subTest(words):
                self.assertEqual(said("where", *FOUR, *words), (status, "", line))

    def test_refusals(self):
        """Behind a refusal stands what is in the way, and what to do."""
        for words, wanted in (
                ("r0 pmem 0x20000000 d1 d3", ["refused no-window", "window 0: its targets are not exactly the bridges of the endpoints, which are 16, 32"]),
                ("r0 ram 0x20000000 d1 d2", ["refused span d1 no-room 0x0 0x0", "The endpoint has no room of this kind"]),
                ("r0 pmem 0x10000000 d1 d2", ["refused size", "multiple of 256 MiB", "0x is missing"]),
                ("r0 pmem 0x50000000 ways=5", ["refused ways 5", "1, 2, 3, 4, 6, 8, 12 or 16"]),
                ("r0 pmem 20000000 d1 d2", ["refused size", "0x is missing"]),
                ("r0 pmem 1G d1 d2", ["refused span d1 no-room 0x0 0x10000000"]), ("r0 pmem 1Q d1 d2", ["bad line 15 number", "'1Q' is no size"]),
                ("r0 pmme 1G d1 d2", ["bad line 10 kind", "'pmme' is no kind of memory"]),
                ("r0 pmem 1G d1,d2", ["bad line 26 name", "'d1,d2' is no name", "endpoints stand apart: d1 d2"]),
                ("r0 pmem 1G d1 hb1", ["no such endpoint hb1"]), ("r0 pmem 1G d1 dd4", ["no such endpoint dd4", "d4 is the nearest"]),
                ("r0 pmem 40000000 d1 d2", ["refused size", "'40000000' is decimal", "0x40000000 is 1 GiB"]),
                ("destroy auto0", ["no such region auto0"])):
            with self.subTest(words):
                status, text, line = said("plan", "--reset", *FOUR[:2], words)
                self.assertEqual((status, line), (8, ""))
                for part in wanted:
                    self.assertIn(part, text)

    def test_options_anywhere(self):
        """Options may stand between the words."""
        self.assertEqual(said("plan", "--reset", *FOUR[:2], "r0", "pmem", "--linux", "0x20000000", "d1", "d2"),
                         said("plan", "--reset", "--linux", *FOUR[:2], "r0 pmem 0x20000000 d1 d2"))
        self.assertEqual(said("where", *FOUR, "--json", "0x110000100"), said("where", "--json", *FOUR, "0x110000100"))

    def test_no_base(self):
        """Where a region could start at the window's end alone, the higher one has to go first."""
        host = Host.from_files(*FOUR)
        text = image_text(host).replace("0x110000000", "0x1d0000000")
        high = Host(host.table.data, host.topology.data.replace(b"pmem = 0x10000000", b"pmem = 0x40000000"), image_of(host, text))
        self.assertIn("window 0: it would start at 0x210000000 at the least, and end past 0x210000000, the window's end. To do: end the region "
                      "that lies highest below these nodes first.\n", said("plan", self.folder("high", high), "r1 pmem 0x20000000 d1 d2")[1])

    def test_locked(self):
        self.assertIn("locked hb16 0\nFirmware locked this decoder", said("plan", *FOUR, "destroy auto0")[1])

    def test_diff(self):
        self.assertEqual(said("diff", *FOUR, *LOST), (8, "".join(f"~ decoder {name} 0 lock yes -> no\n" for name in ("hb16", "hb32", "d1", "d3", "d2"))
                                                      + "~ decoder d4 0 lock yes -> no gran 256 -> 512\n- region 0x110000000 size 0x40000000 window 0 gran 256 ways 4 "
                                                      "kind pmem slots d1:0x0,d2:0x0,d3:0x0,d4:0x0\n"
                                                      "~ verdict check verdict sound, 1 regions -> breach K12 d4 0\n", ""))
        self.assertEqual(said("diff", *FOUR, *FOUR), (0, "", ""))

    def test_diff_whole(self):
        """What is new or gone is told whole: regions, nodes, and decoders with what they held."""
        host = Host.from_files(*FOUR)
        idle = self.file("idle", image_of(host, "".join(f"decoder {name} 0\n" for name in ("hb16", "hb32", "d1", "d2", "d3", "d4"))))
        held = "committed no -> yes commit no -> yes base none -> 0x110000000 size none -> 0x40000000"
        text = said("diff", *FOUR[:2], idle, *FOUR)[1]
        self.assertIn(f"~ decoder hb16 0 {held} ways none -> 2 gran none -> 512 targets none -> 0,1\n", text)
        self.assertIn(f"~ decoder d4 0 {held} ways none -> 4 gran none -> 256 skip none -> 0\n", text)
        self.assertIn("+ region 0x110000000 size 0x40000000 window 0 gran 256 ways 4 kind pmem slots d1:0x0,d2:0x0,d3:0x0,d4:0x0\n", text)
        text = said("diff", self.captured("x4-pass-switch"), *FOUR)[1]
        self.assertIn("- node port3 kind switch parent hb32 port 0 decoders 4 targets 8 low yes high yes passthrough no ram 0 pmem 0\n", text)
        self.assertIn("- decoder mem0 0 committed yes base 0x110000000 size 0x40000000 ways 4 gran 2048 skip 0 lock no host_only yes\n", text)
        self.assertNotIn("- decoder mem0 1", text)

    def test_every_host(self):
        """Each machine and each worked host goes through `show` and `check`; each broken one has words on what was found."""
        folders = [self.captured(machine) for machine in machines.MACHINES + machines.HOLES + machines.NEWER]
        written = list(written_hosts())
        self.assertGreater(len(written), 10)
        folders += [self.folder(host.name, host) for host in written]
        rules = set()
        for folder in folders:
            with self.subTest(folder):
                is_open = Host.from_folder(folder).verdict == "unknown"
                self.assertEqual(said("show", folder)[::2], (13 if is_open else 0, ""))
                status, text, line = said("check", folder)
                self.assertEqual((line, status == 13), ("", is_open))
                if text.startswith("breach"):
                    rules.add(text.split()[1])
                    self.assertRegex(text, r"(?m)^At decoder \d+ of \w+: .+\.$")
        self.assertGreater(len(rules), 2)


class Poison(Case):
    RECORD = struct.pack("<QII", 0x100 | 2, 1, 0)

    def test_payloads(self):
        """Any number of records in lists that a line takes; a list behind one that says there is more."""
        head = struct.pack("<BxQH20x", 0, 0, 250)
        self.assertEqual([struct.unpack_from("<H", it, 10)[0] for it in payloads(head + self.RECORD * 250)], [100, 100, 50])
        more = struct.pack("<BxQH20x", 1, 0, 1) + self.RECORD
        self.assertEqual(list(payloads(more + head[:10] + b"\1\0" + head[12:] + self.RECORD)),
                         [more, head[:10] + b"\1\0" + head[12:] + self.RECORD])
        self.assertEqual(list(payloads(bytes(31))), [bytes(31)])
        self.assertEqual(list(payloads(bytes(32))), [bytes(32)])

    @asks_the_engine
    def test_file(self):
        """A file of 250 records comes to as many runs; one that is cut is refused."""
        data = struct.pack("<BxQH20x", 0, 0, 250) + b"".join(struct.pack("<QII", 64 * i | 3, 1, 0) for i in range(250))
        status, text, line = said("where", *FOUR, "d2", "--poison", self.file("list", data))
        self.assertEqual((status, line, text.count("\nrun "), text.count("record ")), (0, "", 250, 250))
        self.assertEqual(text.splitlines()[-1], f"run {0x110000100 + 62 * 1024 + 64:#x} length 64 region auto0")
        self.assertEqual(said("where", *FOUR, "d2", "--poison", self.file("cut", data[:40])), (8, "", "cxldesk: poison count 250 0\n"))
        self.assertEqual(said("where", *FOUR, "d2", "--poison", self.file("none", b"")), (8, "", "cxldesk: bad line 10 missing\n"))


class Words(Case):
    def test_faults(self):
        """One line that names what is wrong."""
        for words, status, line in (
                ("shwo x", 1, "shwo is no command; see cxldesk --help"), ("show --jsn x", 1, "unknown option --jsn; see cxldesk --help"),
                ("show", 1, "no HOST is named: a folder that cxl-capture made, or CEDT TOPO IMAGE; see cxldesk show --help"),
                (f"show {FOUR[0]}", 1, f"{FOUR[0]} is no folder, and CEDT TOPO IMAGE are 3 files; see cxldesk show --help"),
                ("show /none", 2, "/none: No such file or directory"), (f"show {self.place}", 2,
                 f"{self.place}/table.cedt: is not there; cxl-capture makes table.cedt, topo.toml, image.bin"),
                (f"show {FOUR[0]} {self.place} {FOUR[2]}", 2, f"{self.place}: is a folder"),
                (f"show {' '.join(FOUR)} more", 1, "more: one word too many; see cxldesk show --help"),
                (f"fleet {FOUR[0]}", 2, f"{FOUR[0]}: is no folder"), ("fleet x --job 3", 1, "unknown option --job; see cxldesk --help"),
                (f"fleet {self.place} --out {self.place}", 1, f"{self.place}: is a folder"),
                (f"fleet {self.place} --db {self.place}", 1, f"{self.place}: is a folder"),
                ("plan --words --csv x", 1, "argument --csv: not allowed with argument --words; see cxldesk plan --help")):
            with self.subTest(words):
                self.assertEqual(said(*words.split()), (status, "", f"cxldesk: {line}\n"))

    def test_help(self):
        """Each command has a help, and where the reader of a pipe is gone it ends quietly."""
        self.assertEqual(said()[0], 0)
        for command in ("", "show", "check", "where", "room", "plan", "diff", "report", "fleet", "shell", "image", "table"):
            status, text, line = said(*command.split(), "--help")
            self.assertEqual((status, line, text.splitlines()[0][:14]), (0, "", "usage: cxldesk"))
        end, other = os.pipe()
        os.close(end)
        with open(other, "wb") as pipe, open("/dev/full", "wb") as full:
            for output, status, line in ((pipe, 1, b""), (full, 6, b"cxldesk: standard output: No space left on device\n")):
                ran = subprocess.run([sys.executable, os.path.join(PYTHON, "cxldesk"), "--help"], stdout=output, stderr=subprocess.PIPE, check=False)
                self.assertEqual((ran.returncode, ran.stderr), (status, line))


if __name__ == "__main__":
    unittest.main()
