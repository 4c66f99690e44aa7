"""cxl-regions: its commands for Linux, its register writes, and its images, over machines and worked hosts."""

import contextlib
import io
import json
import os
import re
import subprocess
import sys
import tempfile
import unittest
from unittest import mock

import machines
import peer
import worked
from program import asks_the_program, cxlplan
from cxlplan import Host, files, planning, regions

CAPTURE, REGIONS = machines.load("cxl-capture"), machines.load("cxl-regions")
FOUR = [os.path.join(machines.TOP, "examples", "four-endpoints." + end) for end in ("cedt", "toml")]

# What `plan` says of 'create r0 pmem 0x40000000 d1 d2 d3 d4' over examples/four-endpoints, and parts of replies.
PLAN = """\
plan r0 pmem window 0 base 0x110000000 size 0x40000000 gran 256 ways 4
row hb16 0 ways 2 gran 512 targets 0,1
row hb32 0 ways 2 gran 512 targets 0,1
row d1 0 ways 4 gran 256 skip 0x0
row d3 0 ways 4 gran 256 skip 0x0
row d2 0 ways 4 gran 256 skip 0x0
row d4 0 ways 4 gran 256 skip 0x0
"""
SHOW = """\
region r0 pmem window 0 base 0x110000000 size 0x40000000 gran 256 ways 4
node hb16 0 10000000 00000001 40000000 00000000 00001611 00000100 00000000
node hb32 0 10000000 00000001 40000000 00000000 00001611 00000100 00000000
node d1 0 10000000 00000001 40000000 00000000 00001620 00000000 00000000
node d3 0 10000000 00000001 40000000 00000000 00001620 00000000 00000000
node d2 0 10000000 00000001 40000000 00000000 00001620 00000000 00000000
node d4 0 10000000 00000001 40000000 00000000 00001620 00000000 00000000
slot 0 d1 0x0
slot 1 d2 0x0
slot 2 d3 0x0
slot 3 d4 0x0
"""
CREATED = "created r0 window 0 base 0x110000000 size 0x40000000 gran 256 ways 4\n"
COMMAND = "cxl create-region -m -t pmem -d decoder0.0 -w 4 -g 256 -s 0x40000000 d1 d2 d3 d4\n"
D4 = """\
endpoint d4, below port 1 of hb32, decoder 0
  0x0010  0x10000000  base low
  0x0014  0x00000001  base high: from 0x110000000
  0x0018  0x40000000  size low
  0x001c  0x00000000  size high: 0x40000000 bytes
  0x0024  0x00000000  DPA skip low
  0x0028  0x00000000  DPA skip high: 0x0 bytes are skipped
  0x0020  0x00001020  control: 4 ways of 256 bytes, host-only memory
  0x0020  0x00001220  control with commit; reads 0x00001620 when done
"""


class Case(unittest.TestCase):
    def setUp(self):
        place = tempfile.TemporaryDirectory()
        self.addCleanup(place.cleanup)
        self.place = place.name

    def file(self, name, data):
        return machines.save(data if isinstance(data, bytes) else data.encode(), os.path.join(self.place, name))

    def said(self, *words):
        """The status, and what is printed on standard output and standard error."""
        out, err = io.StringIO(), io.StringIO()
        with contextlib.redirect_stdout(out), contextlib.redirect_stderr(err):
            status = REGIONS.main(list(words))
        return status, out.getvalue(), err.getvalue()

    def image(self, table, topology, reply):
        """The image that is made for a reply."""
        out, reply = os.path.join(self.place, "made.bin"), self.file("reply", reply)
        self.assertEqual(self.said("--image", out, table, topology, reply), (0, "", ""))
        with open(out, "rb") as opened:
            made = opened.read()
        os.remove(out)
        return made

    def captured(self, machine):
        """The table, the topology and the image of a machine."""
        folder = os.path.join(self.place, machine)
        CAPTURE.main(["--from", self.file("copy", machines.pack(machines.tree_of(machine))), folder])
        return [os.path.join(folder, file) for file in ("table.cedt", "topo.toml", "image.bin")]


@asks_the_program
class Texts(Case):
    def test_plan_and_show(self):
        """A plan, the same region shown, and a script's whole reply come to the same command, writes and image."""
        higher = SHOW.replace("10000000 00000001", "20000000 00000001").replace("0x110000000", "0x120000000")
        script = "refused size\n" + higher + "destroyed r0\n" + CREATED + SHOW + "stored 4\n"
        images = set()
        for reply in (PLAN, SHOW, script):
            file = self.file("reply", reply)
            status, text, _ = self.said(*FOUR, file)
            self.assertEqual((status, text.splitlines(True)[-1]), (0, COMMAND))
            status, text, _ = self.said("--words", *FOUR, file)
            self.assertEqual((status, text.split("\n\n")[1] + "\n"), (0, D4))
            nodes = re.findall("^(?:bridge|endpoint) ([^,]*)", text, re.M)
            self.assertEqual(nodes, ["d4", "d2", "d3", "d1", "hb32", "hb16"])
            images.add(self.image(*FOUR, reply))
        self.assertEqual(len(images), 1)

    def test_three_ways(self):
        """Below three targets Linux counts the first device of each, and then the second; and the peer does, too."""
        window = peer.Window(0, 0, False, 256, [7, 8, 9])
        self.assertEqual([window.target_of(slot) for slot in range(6)], [0, 1, 2, 0, 1, 2])
        self.assertEqual([window.position_of(slot, 6) for slot in range(6)], [0, 4, 2, 3, 1, 5])
        window = peer.Window(0, 0, False, 256, list(range(6)))
        self.assertEqual([window.position_of(slot, 12) for slot in range(12)], [0, 1, 8, 9, 4, 5, 6, 7, 2, 3, 10, 11])
        for bridges, below in ((3, 2), (6, 2), (3, 4), (3, 1), (6, 1), (12, 1)):
            nodes = [[0x382]] * bridges + [[0x1b05, bridge, port, 0, 1 << 28] for bridge in range(bridges) for port in range(below)]
            host = [self.file("table", worked.table_of(nodes, [[0x300000000, 12 << 28, 0, 0, 0xe, *range(bridges)]])),
                    self.file("nodes", worked.topology_of(nodes))]
            status, plan = cxlplan("plan", *host, f"create r0 pmem {bridges * below << 28:#x} ways={bridges * below}")
            self.assertEqual(status, 0, plan)
            ends = [f"n{bridges + below * bridge + port}" for port in range(below) for bridge in range(bridges)]
            self.assertEqual(self.said(*host, self.file("reply", plan))[1].split()[-len(ends):], ends)

    def test_root_decoders(self):
        """Linux numbers the windows that it takes: not one of half a size, nor one over a bridge that is not there."""
        nodes = [[0x382], [0x382]]
        windows = [[number << 32, size, 0, 0, 0xe, *targets] for number, (size, targets) in enumerate((
            (1 << 28, [0]), (1 << 27, [0]), (1 << 28, [0, 2]), (1 << 28, [1, 0])))]
        host = Host(worked.table_of(nodes, windows), worked.topology_of(nodes))
        self.assertEqual([planning.root_decoder(host, number) for number in (0, 3)], [0, 1])

    def test_bad_input(self):
        """One line, status 1 and nothing written."""
        with open(FOUR[1], encoding="ascii") as opened:
            topology = opened.read()
        bad = [
            (FOUR[0], FOUR[1], CREATED, "r0 was created, but no `show` of it follows"),
            (FOUR[0], FOUR[1], "", "no region in it"),
            (FOUR[0], FOUR[1], "refused uneven hb16\n", "no region in it; it says 'refused uneven hb16'"),
            (FOUR[0], FOUR[1], "breach K12 d4 0\n", "it says 'breach K12 d4 0'"),
            (FOUR[0], FOUR[1], PLAN.replace("row d4", "row d9"), "line 7: 'd9' does not fit the host"),
            (FOUR[0], FOUR[1], PLAN.replace("d4 0", "d4 4"), "line 7: decoder 4 of d4 does not fit the host"),
            (FOUR[0], FOUR[1], PLAN.replace("hb32 0 ways 2 gran 512 targets 0,1", "hb32 0 ways 2 gran 512 targets 0,7"),
             "the rows of r0 do not lead to its slots on this host"),
            (FOUR[0], FOUR[1], SHOW.replace("1 d2", "1 d3").replace("2 d3", "2 d2"), "do not lead to its slots"),
            (FOUR[0], FOUR[1], SHOW.replace("slot 2", "slot 3", 1), "line 10: slot 3 does not fit the host"),
            (FOUR[0], FOUR[1], PLAN.replace("window 0", "window 3"), "line 1: list index out of range"),
            (FOUR[0], FOUR[1], PLAN.replace("ways 4", "ways 3"), "line 1: window 0 does not fit the host"),
            (FOUR[0], FOUR[1], PLAN.replace("base 0x1", "base 0x9"), "line 1: base 0x910000000 size 0x40000000"),
            (FOUR[0], FOUR[1], PLAN.replace("gran 512", "gran 500"), "line 2: 500 is not in list"),
            (FOUR[0], self.file("topology", topology.replace('name = "d1"', 'name = "d2"')), PLAN, "topology: no topology: "),
            (FOUR[0], self.file("cut", topology + "[[endpoint"), PLAN, "cut: no topology: toml"),
            (FOUR[0], self.file("odd", topology + "\n?"), PLAN, "odd: no topology: toml"),
            (FOUR[0], self.file("kind", "bridge = 7"), PLAN, "no topology"),
            (FOUR[0], self.file("range", topology + "high = 3"), PLAN, "range: no topology: kind endpoint 3 high"),
            (FOUR[0], FOUR[1], PLAN.replace("skip 0x0", "skip 0x40000000"), "the share of d1 ends past its memory"),
            (FOUR[0], self.file("key", "[[bridge]]\nuid = 1"), PLAN, "no topology: key bridge 0 name"),
            (FOUR[1], FOUR[1], PLAN, "no whole CEDT"),
            (FOUR[0] + "x", FOUR[1], PLAN, "No such file or directory"),
            (FOUR[0], FOUR[1], b"\0" * (1 << 20) + b"\0", "more than 1048576 bytes"),
        ]
        out = os.path.join(self.place, "out")
        for table, topology, reply, wanted in bad:
            with self.subTest(wanted):
                status, text, line = self.said("--image", out, table, topology, self.file("reply", reply))
                self.assertEqual((status, text, line.count("\n"), os.path.exists(out)), (1, "", 1, False))
                self.assertIn(wanted, line)
        self.file("out", b"mine")
        self.assertIn("there already", self.said("--image", out, *FOUR, self.file("reply", PLAN))[2])
        self.assertIn("no registers in it", self.said("--words", *FOUR, self.file("reply", (
            "region 0x110000000 size 0x20000000 window 0 gran 256 ways 2 pmem\nslot 0 d1 0x0\nslot 1 d2 0x0\n")))[2])
        self.assertEqual(sorted(os.listdir(self.place)),
                         ["cut", "key", "kind", "odd", "out", "range", "reply", "topology"])

    def test_words(self):
        """Words that are no form: one line that names what is wrong. Options may stand anywhere."""
        wanted = "names are given, and wanted are CEDT, TOPO, REPLY"
        for words, why in {
            "": f"0 {wanted}", "a b": f"2 {wanted}", "--words a b c d": f"4 {wanted}",
            "--wrods a b c": "unknown option --wrods", "--wrods": "unknown option --wrods",
            "--image": "argument --image: expected one argument",
            "--words --image f a b c": "argument --image: not allowed with argument --words",
        }.items():
            with self.subTest(words):
                self.assertEqual(self.said(*words.split()), (1, "", f"cxl-regions: {why}; see cxl-regions --help\n"))
        self.assertEqual(self.said("--help"), (0, regions.__doc__ + "\n", ""))
        reply = self.file("reply", PLAN)
        self.assertEqual(self.said(FOUR[0], "--words", FOUR[1], reply), self.said("--words", *FOUR, reply))

    def test_places_that_take_no_file(self):
        reply, none = self.file("reply", PLAN), os.path.join(self.place, "none", "out")
        self.assertEqual(self.said("--image", none, *FOUR, reply), (
            1, "", f"cxl-regions: {none}: No such file or directory\n"))
        out = os.path.join(self.place, "out")
        fault = OSError(30, "Read-only file system", os.path.join(self.place, ".cxl-regions-1"))
        with mock.patch.object(files, "Nameless", side_effect=fault):
            self.assertEqual(self.said("--image", out, *FOUR, reply), (
                1, "", f"cxl-regions: {out}: Read-only file system\n"))
        self.assertEqual(os.listdir(self.place), ["reply"])

    def test_an_output_that_takes_nothing(self):
        """A pipe whose reader is gone ends it quietly; a full disk is said."""
        words = [sys.executable, os.path.join(machines.TOOLS, "cxl-regions"), *FOUR, self.file("reply", PLAN)]
        end, other = os.pipe()
        os.close(end)
        with open(other, "wb") as pipe, open("/dev/full", "wb") as full:
            for output, said in ((pipe, b""), (full, b"cxl-regions: standard output: No space left on device\n")):
                ran = subprocess.run(words, stdout=output, stderr=subprocess.PIPE, check=False)
                self.assertEqual((ran.returncode, ran.stderr), (1, said))


@asks_the_program
class Circle(Case):
    """What is made is given to the program, which finds the same regions in it."""

    def test_machines(self):
        """The regions of each captured machine: `cxl list` has the devices in the command's order, and the image holds
        what the registers held."""
        for machine in machines.MACHINES:
            table, topology, image = self.captured(machine)
            _, checked = cxlplan("check", table, topology, image)
            with open(image, "rb") as opened:
                image = opened.read()
            names = [node.name for node in peer.read_topology(topology)]
            shown = worked.shown(checked, image, names)
            made = self.image(table, topology, shown)
            with self.subTest(machine):
                self.assertEqual(cxlplan("check", table, topology, self.file("made", made)), (0, checked))
                was, now = worked.blocks_of(image, len(names)), worked.blocks_of(made, len(names))
                self.assertEqual([[words if words[4] & 0x400 else None for words in block] for block in was],
                                 [[words if words[4] & 0x400 else None for words in block] for block in now])
                for reply in (shown, checked):
                    _, text, _ = self.said(table, topology, self.file("reply", reply))
                    commands = [line for line in text.splitlines() if line.startswith("cxl")]
                    self.assertEqual(commands, self.listed(machine))

    def listed(self, machine):
        """The commands of the regions that `cxl list` shows, by their base."""
        by_base = {region["base"]: region["kind"] for region in machines.listed_regions(machine)}
        commands = []
        for decoder in json.loads(machines.data_of(machine, "cxl-list.json"))[0]["decoders:root0"]:
            for region in decoder.get(f"regions:{decoder['decoder']}", []):
                devices = sorted(region["mappings"], key=lambda share: share["position"])
                commands.append((region["resource"], (
                    f"cxl create-region -m -t {by_base[region['resource']]} -d {decoder['decoder']} "
                    f"-w {region['interleave_ways']} -g {region['interleave_granularity']} -s {region['size']:#x} "
                    + " ".join(share["memdev"] for share in devices))))
        return [command for _, command in sorted(commands)]

    def test_plans(self):
        """Plans over each machine and example and each worked host, of each kind and number of ways that it takes."""
        hosts = [self.captured(machine)[:2] for machine in machines.MACHINES] + [FOUR]
        for number, (table, topology) in enumerate({(table, topology) for table, topology, _ in worked.hosts()}):
            hosts.append([self.file(f"w{number}.cedt", table), self.file(f"w{number}.toml", topology)])
        taken = set()
        for table, topology in hosts:
            for ways in (1, 2, 3, 4, 6, 8, 12, 16):
                for kind in ("ram", "pmem"):
                    line = f"create r0 {kind} {ways << 28:#x} ways={ways}"
                    status, plan = cxlplan("plan", table, topology, line)
                    if status == 0:
                        taken.add(ways)
                        with self.subTest(topology=os.path.basename(topology), line=line):
                            self.circle(table, topology, plan)
        self.assertEqual(taken, {1, 2, 3, 4, 6, 8, 12, 16})

    def circle(self, table, topology, plan):
        made = self.image(table, topology, plan)
        status, checked = cxlplan("check", table, topology, self.file("made", made))
        words = plan.splitlines()[0].split(" ")
        self.assertEqual((status, checked.splitlines()[:1]), (0, [
            f"region {words[6]} size {words[8]} window {words[4]} gran {words[10]} ways {words[12]} {words[2]}"]))
        by_plan, by_check = (self.said(table, topology, self.file("reply", reply))[1] for reply in (plan, checked))
        self.assertEqual(by_plan.splitlines()[-1], by_check.splitlines()[-1])
        host = (table, topology, self.file("reply", plan))
        self.assertEqual(made, peer.image(*host))
        self.beside(*host)

    def beside(self, *host):
        """The commands and the writes of a reply are those of the peer."""
        self.assertEqual((self.said(*host)[1], self.said("--words", *host)[1]), (peer.commands(*host), peer.words(*host)))

    def test_worked_images(self):
        """Images of the worked cases: the same regions are found in what is made; and where all of an image is regions, what is made is the
        image, to the last bit."""
        count = plain = 0
        for table, topology, image in worked.hosts():
            host = [self.file("table", table), self.file("nodes", topology)]
            status, checked = cxlplan("check", *host, self.file("image", image))
            if status == 0 and checked:
                count += 1
                names = [node.name for node in peer.read_topology(host[1])]
                shown = worked.shown(checked, image, names)
                made = self.image(*host, shown)
                with self.subTest(checked):
                    self.assertEqual(cxlplan("check", *host, self.file("made", made)), (0, checked))
                    self.beside(*host, self.file("reply", shown))
                    if worked.is_plain(image, len(names)):
                        plain += 1
                        self.assertEqual(made, image)
        self.assertGreater(count, 20)
        self.assertGreater(plain, 10)


if __name__ == "__main__":
    unittest.main()
