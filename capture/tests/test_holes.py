"""Hosts on which Linux released decoders below committed ones: a capture of one is never better than the host. Where it
is not told what a decoder holds, the files are made all the same, the decoder is named, and the status is 2."""

import itertools
import json
import os
import re
import tempfile
import unittest

import machines
import made_hosts
from program import asks_the_program, cxlplan
from test_bad_input import DECODER, DEVICES, ENDPOINT, HB16, ROOT, both, holding, leading, removed, run
from test_list import walk, without_idle

CAPTURE = machines.load("cxl-capture")
TOLD = ["copy", "tree", "folder", "new copy", "list", "older list", "list without idle"]  # forms without registers
READ = ["registers", "unasked", "copied registers"]
FORMS = TOLD + READ
MADE = ["table.cedt", "topo.toml", "image.bin"]
COMMITTED, GRANULARITY = 1 << 10, 15  # of a control word

# The decoders of which a form does not tell what they hold; the forms that are not here tell all.
BELOW, DESTROYED = "decoder1.0 decoder2.0 decoder3.0", "decoder1.0 decoder2.0"
FAILED = "decoder1.0 decoder1.1 decoder2.0 decoder3.0"
NOT_TOLD = {
    "uncommitted-below": {form: BELOW for form in TOLD},
    "destroyed-below": {form: DESTROYED for form in TOLD},
    "destroy-failed": {**{form: BELOW for form in TOLD}, "copy": FAILED,
                       "list without idle": "decoder1.0 decoder2.0 decoder2.1 decoder3.0"},
    "fw-16k-k612": {form: "decoder1.0 decoder2.0 decoder3.0 decoder4.0" for form in TOLD},
    "two-regions": {"copy": "decoder1.0 decoder1.1 decoder2.0 decoder3.0 decoder3.1"},
    "x4-hb-rp": {}, "flr-k612": {},
}
RESET = "flr-k612"  # a device of it was reset, of which Linux knows nothing


def older(item):
    """By an older `cxl list`, which does not tell how many decoders are committed, nor the parent's port."""
    item.pop("decoders_committed", None)
    item.pop("parent_dport", None)


class Case(unittest.TestCase):
    @classmethod
    def setUpClass(cls):
        place = tempfile.TemporaryDirectory()
        cls.addClassCleanup(place.cleanup)
        cls.place = place.name

    @classmethod
    def save(cls, data):
        file, name = tempfile.mkstemp(dir=cls.place)
        os.close(file)
        return machines.save(data, name)

    @classmethod
    def lay(cls, tree):
        return machines.lay(tree, tempfile.mkdtemp(dir=cls.place))

    @classmethod
    def capture(cls, words):
        """The status, what is said on standard error, and the folder that was made."""
        folder = tempfile.mkdtemp(dir=cls.place)
        status, said = run([*words, folder])
        return status, said, folder

    def read(self, folder):
        """The report, the nodes and the blocks of a folder that was made."""
        with open(os.path.join(folder, "report.txt"), encoding="ascii") as file:
            report = file.read()
        with open(os.path.join(folder, "topo.toml"), encoding="ascii") as file:
            nodes = machines.read_topology(file.read())
        with open(os.path.join(folder, "image.bin"), "rb") as file:
            return report, nodes, machines.read_image(file.read(), nodes)


def unknown_in(report):
    """The decoders that a report names first of all."""
    first = report.split("\n\n")[0]
    return re.findall("^- (decoder[0-9.]+) of ", first, re.M) if first.startswith("The registers of some ") else []


class Hosts(Case):
    @classmethod
    def setUpClass(cls):
        """Captures each host in each form: by host and form the words, the status, what is said, and the folder."""
        super().setUpClass()
        cls.made = {}
        for key in itertools.product(NOT_TOLD, FORMS):
            words = cls.words(*key)
            cls.made[key] = words, *cls.capture(words)

    @classmethod
    def words(cls, host, form):
        """The words that capture a host in one of FORMS."""
        tree, changes = machines.live_tree(host), {"list": None, "older list": older, "list without idle": without_idle}
        if form in changes:
            listed = json.loads(machines.data_of(host, "cxl-list.json"))
            listed = walk(listed, changes[form]) if changes[form] else listed
            return ["--list", cls.save(json.dumps(listed).encode()), "--table", machines.path_of(host, "cedt")]
        if form in READ:
            folder = cls.lay(tree)
            made_hosts.lay_image(host, folder)
            if form == "copied registers":
                return ["--from", cls.save(CAPTURE.copy_of(CAPTURE.Folder(folder)))]
            return ["--from", folder, "--registers"] if form == "registers" else ["--from", folder]
        packed = cls.save(machines.pack(tree))
        return ["--from", {"copy": lambda: machines.path_of(host, "copy.tar.gz"), "tree": lambda: packed,
                           "folder": lambda: cls.lay(tree),
                           "new copy": lambda: cls.save(CAPTURE.copy_of(CAPTURE.Archive(packed)))}[form]()]

    def test_regions_are_those_of_the_attributes(self):
        """What is read of a live host is what was read of it by hand, where that was."""
        count = 0
        for host in ("uncommitted-below", "destroy-failed"):
            tree = machines.live_tree(host)
            for line in machines.data_of(host, "attributes.txt").decode().splitlines():
                if match := re.match("(decoder[1-9][0-9.]*) region=(.*) start=([^ ]+) size=([^ ]+) ways=", line):
                    folder, count = machines.folder_of(tree, match[1]), count + 1
                    shown = [tree[f"{folder}/{file}"].decode().strip() for file in ("region", "start", "size")]
                    self.assertEqual(shown, [*match.groups()[1:]])
        self.assertEqual(count, 24)

    def test_what_is_known_is_the_hardware_s(self):
        """Each decoder that is not named is committed where that of the hardware is, and holds the same then; but where
        a device was reset, of which nothing but its registers tells."""
        for (host, form), (_, _, _, folder) in self.made.items():
            if host == RESET and form in TOLD:
                continue
            with self.subTest(host, form=form):
                report, nodes, blocks = self.read(folder)
                wanted = machines.read_topology(machines.data_of(host, "topo.toml").decode())
                real = machines.read_image(machines.data_of(host, "registers.bin"), wanted)
                self.assertEqual([{**node, "decoders": 4} for node in nodes], wanted)
                for node, (_, made), (_, held) in zip(nodes, blocks, real):
                    port = re.match("[a-z]+([0-9]+),", node["comment"]).group(1)
                    for i, (one, other) in enumerate(zip(made, held)):
                        if f"decoder{port}.{i}" not in unknown_in(report):
                            self.assert_same(one, other, f"decoder{port}.{i}")

    def assert_same(self, made, held, name):
        """As far as a list tells, which does not tell by what a decoder of one way interleaves."""
        self.assertEqual(made[4] & COMMITTED, held[4] & COMMITTED, name)
        if made[4] & COMMITTED:
            one, other = ([*words[:4], words[4] & ~(0 if words[4] & 0xf0 else GRANULARITY), *words[5:]]
                          for words in (made, held))
            self.assertEqual(one, other, name)

    def test_what_is_not_known_is_named(self):
        for (host, form), (words, status, said, folder) in self.made.items():
            names = NOT_TOLD[host].get(form, "").split()
            with self.subTest(host, form=form):
                wanted = 2 if names else 3 if form in TOLD else 0
                self.assertEqual((status, unknown_in(self.read(folder)[0])), (wanted, names))
                self.assertEqual(said, "" if not names else (
                    f"cxl-capture: {words[1]}: the registers of {', '.join(names)} are not known, as report.txt says; "
                    "cxl-capture, as root on the machine itself, reads them\n"))

    def test_released_is_said_of_nothing_but_what_was_read(self):
        for (host, form), (_, _, _, folder) in self.made.items():
            with self.subTest(host, form=form):
                report = self.read(folder)[0]
                self.assertEqual(" was released" in report, form in READ and host in machines.HOLES + [RESET])

    def test_a_reset_is_a_difference(self):
        """And of no other host attributes and registers differ, but of two that are not wholly told."""
        for (host, form), (_, _, _, folder) in self.made.items():
            with open(os.path.join(folder, "sources.json"), encoding="ascii") as file:
                found = [(item["kernel"], item["what"], item["told"], item["read"]) for item in json.load(file)["differences"]]
            with self.subTest(host, form=form):
                self.assertEqual(found, [("decoder3.0", "committed", "yes", "no")] if host == RESET and form in READ else [])

    def test_what_a_list_says_of_decoders_below_others(self):
        """Only where none is in a hole it may say that they are committed as those are."""
        for host in NOT_TOLD:
            report, before = self.read(self.made[host, "older list"][3])[0], " and what stands before one of them in"
            self.assertIn("- How many decoders are committed. Those of committed regions are", report)
            self.assertEqual(before in report, host in machines.NEWER + [RESET])

    def test_why_it_is_not_known(self):
        for host, form, sentences in [
            ("uncommitted-below", "tree", [
                "The registers of some decoders are not known. `cxl-capture`, as root on the machine itself, reads them:\n"
                "- decoder1.0 of hb16 is below a committed one, in a region that the kernel shows as not committed. Linux may "
                "have released it, or firmware set it and Linux could not put its region together. It was taken as not "
                "committed.\n- decoder2.0 of mem0 is ", "Linux shows 3 bridges, switches and endpoints, and 3 committed"]),
            ("uncommitted-below", "registers", [
                "- decoder1.0 of hb16 was released, or reset, below a committed one.\n- decoder2.0 of mem0 was released, or"]),
            ("flr-k612", "registers", [
                "- decoder3.0 of mem1: committed is yes by Linux, but no in its register. It was released, or reset, and Linux "
                "does not know."]),
            ("uncommitted-below", "copy", [
                "The registers of some decoders are not known. `cxl-capture`, as root on the machine itself, reads "
                "them:\n- decoder1.0 of hb16 may have been released. Its region is not told, as by a kernel "
                "that makes none, or in a copy of an earlier cxl-capture. It was taken as committed.\n"]),
            ("uncommitted-below", "list without idle", [
                "- decoder1.0 of hb16 may have been released. Whether region0 is committed is not told; "
                "`cxl list -vvv` lists that. It was taken as committed."]),
            ("destroyed-below", "tree", [
                "- decoder1.0 of hb32 is in no region and has size 0x0, below a committed one. Linux may have released "
                "it, or firmware committed it. It was taken as committed.",
                "- decoder2.0 of hb16 is in no region and has size 0x20000000, below a committed one. Linux may have "
                "released it, or firmware committed it. It was taken as not committed.\n\nLinux shows 6 "]),
            ("destroy-failed", "list", [
                "- decoder2.0 of mem1 has dpa_size 0x10000000, which is not the share of one of 2 ways of its size "
                "0x0, or no multiple of 256 MiB. It was taken as not committed."]),
            ("destroy-failed", "list without idle", [
                "- decoder2.1 of mem1 has a skip that is not known, as the device memory of the one before it is not. "
                "It was taken as not committed."]),
        ]:
            report = self.read(self.made[host, form][3])[0]
            for sentence in sentences:
                with self.subTest(host, form=form):
                    self.assertIn(sentence, report)

    def test_with_registers_all_words_are_the_hardware_s(self):
        for host, form in itertools.product(NOT_TOLD, READ):
            with self.subTest(host, form=form):
                with open(os.path.join(self.made[host, form][3], "image.bin"), "rb") as file:
                    self.assertEqual(file.read(), machines.data_of(host, "registers.bin"))

    @asks_the_program
    def test_check_says_of_a_capture_what_it_says_of_the_host(self):
        """Or the status is 2; or 3, where a reset is not seen. And none of the captures with a hole is sound, but for two of
        which no region is told."""
        for (host, form), (_, status, _, folder) in self.made.items():
            with self.subTest(host, form=form):
                files = [machines.path_of(host, file) for file in ("cedt", "topo.toml", "registers.bin")]
                real = cxlplan("check", *files)
                self.assertEqual(real[0] == 8, host in machines.HOLES + [RESET])
                made = cxlplan("check", *[os.path.join(folder, file) for file in MADE])
                self.assertTrue(made == real or status == 2 or status == 3 and host == RESET, made)
                if host in machines.HOLES and form not in ("copy", "list without idle"):
                    self.assertEqual(made, (8, "breach K2 hb16 1\n"))


class Changed(Case):
    """The machine x2-hb, changed: each bridge and endpoint has decoder 0 of region0 committed, and three idle ones."""

    @classmethod
    def setUpClass(cls):
        super().setUpClass()
        cls.whole = machines.tree_of("x2-hb")
        cls.items = machines.attributes_of(CAPTURE.copy_of(CAPTURE.Archive(cls.save(machines.pack(cls.whole)))))

    def tree(self, *spoils):
        items = dict(self.items)
        for spoil in spoils:
            spoil(items)
        return items

    def made(self, *spoils, words=()):
        """Of a capture of the changed machine: status, unknown decoders, report, and blocks by the node's name."""
        status, _, folder = self.capture([*words, "--from", self.lay(self.tree(*spoils))])
        report, nodes, blocks = self.read(folder)
        return status, unknown_in(report), report, {node["name"]: block for node, block in zip(nodes, blocks)}

    def host(self, *spoils):
        """The changed machine with its hardware."""
        items = self.tree(*spoils)
        items.update({path: item for path, item in self.whole.items() if path.endswith("/config")})
        folder = self.lay(items)
        made_hosts.lay_hardware("x2-hb", folder)
        return folder

    def second(self, port, decoder, **attributes):
        """Decoder 1 of a port or endpoint is counted as committed, too, and shows these attributes."""
        return both(holding(f"{port}/decoders_committed", "2"), *[
            holding(f"{port}/{decoder}/{name}", value) for name, value in attributes.items()])


class Spoiled(Changed):
    """By its attributes."""

    def test_device_memory_that_does_not_fit(self):
        """It was taken as not committed, and a word says what does not fit; the other decoders stand as they are."""
        for spoil, name, why in [
            (holding(f"{DECODER}/dpa_resource", "0x8000000"), "decoder3.0",
             "has dpa_resource 0x8000000, which is below 0x0, or no multiple of 256 MiB"),
            (holding(f"{DECODER}/dpa_size", "0x8000000"), "decoder3.0",
             "has dpa_size 0x8000000, which is not the share of one of 2 ways of its size 0x20000000, or no multiple"),
            (holding(f"{DECODER}/dpa_size", "0x20000000"), "decoder3.0",
             "has dpa_size 0x20000000, which is not the share"),
            (self.second(ENDPOINT, "decoder3.1", region="region0", start="0x130000000", size="0x10000000",
                         dpa_resource="0x0", dpa_size="0x10000000"), "decoder3.1",
             "has dpa_resource 0x0, which is below 0x10000000, or no multiple of 256 MiB"),
        ]:
            with self.subTest(why):
                status, unknown, report, blocks = self.made(spoil)
                self.assertEqual((status, unknown), (2, [name]))
                self.assertIn(f"- {name} of mem0 {why}", report)
                self.assertIn("It was taken as not committed.\n\nLinux shows 4 ", report)
                self.assertEqual(blocks["mem0"][1][int(name[-1])], (0, 0, 0, 0, 0x1000, 0, 0, 0))
                self.assertEqual(blocks["mem1"][1][0][4], 0x1612)

    def test_what_the_kernel_says_of_one_decoder(self):
        """By its region, the number of committed ones, the lock and its size: how it is taken, and if that is known."""
        region1 = both(holding(f"{ROOT}/decoder0.0/region1/commit", "1"),
                       lambda items: items.update({f"{DEVICES}/region1": f"../../../../{ROOT}/decoder0.0/region1"}))
        port = self.second(HB16, "decoder2.1", region="region1", start="0x130000000", size="0x10000000",
                           target_list="0")
        none, untold = holding(f"{HB16}/decoder2.0/region", ""), removed(f"{HB16}/decoder2.0/region")
        reset, locked = holding(f"{ROOT}/decoder0.0/region0/commit", "0"), holding(f"{HB16}/decoder2.0/locked", "1")
        empty, free = holding(f"{HB16}/decoder2.0/size", "0x0"), holding(f"{HB16}/decoders_committed", "0")
        for said, spoils, is_taken, is_known in [
            ("its region is committed", [region1, port], True, True),
            ("its region is not", [region1, port, reset], False, False),
            ("its region is not, and it is locked", [region1, port, reset, locked], False, False),
            ("it is in no region", [region1, port, none], False, False),
            ("it is in no region, and has no bytes", [region1, port, none, empty], True, False),
            ("it is in no region, and is locked", [region1, port, none, locked], True, True),
            ("its region is not told", [region1, port, untold], True, False),
            ("of its region nothing is told", [region1, port, removed(f"{DEVICES}/region0")], True, False),
            ("the last one, in no region", [none], True, True),
            ("the last one, whose region is not told", [untold], True, True),
            ("the last one, whose region is not committed", [reset], False, False),
            ("behind the last one", [free], False, True),
            ("behind the last one, and locked", [free, locked], False, False),
        ]:
            with self.subTest(said):
                _, unknown, report, blocks = self.made(*spoils)
                self.assertEqual(bool(blocks["hb16"][1][0][4] & COMMITTED), is_taken)
                self.assertEqual("decoder2.0" not in unknown, is_known)
                if not is_known:
                    self.assertIn(f"It was taken as {'committed' if is_taken else 'not committed'}.", report)

    def test_a_passthrough_bridge_in_no_region(self):
        """Above committed decoders: it may have a decoder, which is not committed, and then bytes are lost."""
        one = [removed(f"{DEVICES}/decoder2.{i}") for i in (1, 2, 3)] + [removed(f"{HB16}/dport1")]
        one.append(holding(f"{HB16}/decoders_committed", "0"))
        self.assertEqual(self.made(*one)[:2], (3, []))
        none = holding(f"{HB16}/decoder2.0/region", "")
        status, unknown, report, blocks = self.made(*one, none)
        self.assertEqual((status, unknown, blocks["hb16"][1]), (2, ["decoder2.0"], [(0,) * 8]))
        self.assertIn("- decoder2.0 of hb16 is in no region, though decoders below it are committed. It may be one "
                      "that is not. hb16 was taken as passthrough.\n", report)
        idle = holding(f"{ENDPOINT}/decoders_committed", "0")
        self.assertEqual(self.made(*one, none, idle)[:2], (3, []), "nothing below it is committed")

    def test_a_list_without_the_last_committed_decoder(self):
        """It has no bytes, or it would be listed; and those below it that are not listed are not known."""
        def change(item):
            if item.get("port") == "port2":
                item["decoders_committed"] = 3
            return without_idle(item)
        listed = json.dumps(walk(json.loads(machines.data_of("x2-hb", "cxl-list.json")), change)).encode()
        status, _, folder = self.capture(["--list", self.save(listed), "--table", machines.path_of("x2-hb", "cedt")])
        report, nodes, blocks = self.read(folder)
        self.assertEqual((status, unknown_in(report)), (2, ["decoder2.1"]))
        made = dict(zip([node["name"] for node in nodes], blocks))["hb16"]
        self.assertEqual([words[2:5] for words in made[1]], [
            (0x20000000, 0, 0x1602), (0, 0, 0x1600), (0, 0, 0x1600), (0, 0, 0x1000)])

    def test_a_list_with_a_range_in_no_region(self):
        """Where the number of committed decoders is not told, such a decoder may be firmware's."""
        def change(item):
            if item.get("decoder") == "decoder3.1":
                item.update({"resource": 0x130000000, "size": 0x10000000, "dpa_resource": 0x10000000,
                             "dpa_size": 0x10000000})
        listed = json.dumps(walk(json.loads(machines.data_of("x2-hb", "cxl-list.json")), change)).encode()
        status, _, folder = self.capture(["--list", self.save(listed), "--table", machines.path_of("x2-hb", "cedt")])
        report = self.read(folder)[0]
        self.assertEqual((status, unknown_in(report)), (2, ["decoder3.1"]))
        self.assertIn("decoder3.1 of mem0 is in no region, though cxl list shows size 0x10000000. Firmware may have "
                      "committed it. It was taken as not committed.", report)


class Registers(Changed):
    """With --registers nothing is needed of the attributes but the tree."""

    def files(self, *spoils):
        status, said, folder = self.capture(["--registers", "--from", self.host(*spoils)])
        self.assertEqual((status, said), (0, ""))
        files = {}
        for name in os.listdir(folder):
            with open(os.path.join(folder, name), "rb") as file:
                files[name] = file.read()
        return files

    def test_whatever_the_attributes_say(self):
        decoders = [removed(f"{DEVICES}/decoder{port}.{i}") for port in (1, 2, 3, 4) for i in range(4)]
        counts = [removed(f"{port}/decoders_committed") for port in (HB16, ENDPOINT)]
        zero, plain = [holding(f"{port}/decoders_committed", "0") for port in (HB16, ENDPOINT)], self.files()
        for said, spoils, why in [
            ("a size that no register holds", [holding(f"{DECODER}/size", "0x20000100")], "no multiple of 256 MiB"),
            ("ways that there are none of", [holding(f"{DECODER}/interleave_ways", "5")], "'5' is none of 1, 2, 3,"),
            ("no attribute of a decoder", [removed(f"{DECODER}/{name}") for name in ("size", "locked", "dpa_size")],
             "No such file or directory."),
            ("a decoder whose folder is gone", [removed(DECODER)], "decoder3.0 is not there"),
            ("a decoder in no port's folder", [leading(f"{DEVICES}/decoder3.0", "../nowhere/decoder3.0")], "is not there"),
            ("a decoder that is not shown", [removed(f"{DEVICES}/decoder3.1")], "decoders are missing or elsewhere"),
            ("no decoders at all", decoders, None),
            ("no number of committed ones", counts, None),
            ("device memory that does not fit", [holding(f"{DECODER}/dpa_size", "0x0")], None),
            ("none committed", zero, None),
            ("no region told", [removed(f"{DECODER}/region")], None),
        ]:
            with self.subTest(said):
                files = self.files(*spoils)
                for name in MADE:
                    self.assertEqual(files[name], plain[name], name)
                report = files["report.txt"].decode()
                self.assertEqual("What Linux shows of the decoders of mem0 was not used. " in report, bool(why))
                self.assertIn(why or "Linux shows ", report)

    def test_an_endpoint_without_decoders_is_read_too(self):
        """Its driver may have failed. Only one without registers is left out."""
        spoils = [removed(f"{DEVICES}/decoder3.{i}") for i in range(4)]
        spoils.append(holding(f"{ENDPOINT}/decoders_committed", "0"))
        self.assertEqual(self.files(*spoils)["image.bin"], self.files()["image.bin"])
        host = self.host(*spoils)
        device = made_hosts.pci_devices(host)["0000:11:00.0"]
        made_hosts.put_words(os.path.join(device, "resource0"), 0x100c, [0x12810006])
        status, _, folder = self.capture(["--registers", "--from", host])
        report, nodes, _ = self.read(folder)
        self.assertEqual((status, [node["name"] for node in nodes]), (2, ["hb16", "hb32", "mem1"]))
        self.assertIn("- endpoint3 was left out: it has no decoder, or is right below the root, as in CXL 1.1.", report)

    def test_where_registers_are_not_found(self):
        """What Linux shows stands; and where that is nothing, or does not tell, it is said as without registers."""
        for name, value, wanted in [("dpa_size", "0x0", 2), ("interleave_ways", "5", 1)]:
            host = self.host(holding(f"{DECODER}/{name}", value))
            device = made_hosts.pci_devices(host)["0000:11:00.0"]
            made_hosts.put_words(os.path.join(device, "resource0"), 0x100c, [0x12810006])
            status, said, _ = self.capture(["--registers", "--from", host])
            self.assertEqual(status, wanted)
            self.assertIn({2: "the registers of decoder3.0 are not known, as report.txt says\n",
                           1: "/interleave_ways: '5' is none of 1, 2, "}[wanted], said)


class Empty(Changed):
    """Committed decoders without bytes, which firmware sets to lock a block, and --leave-empty."""

    def empties(self, port, number, count):
        """So many decoders behind decoder 0 are committed without bytes."""
        return both(holding(f"{port}/decoders_committed", str(count + 1)), *[
            holding(f"{port}/decoder{number}.{i}/locked", "1") for i in range(1, count + 1)])

    def test_they_are_left_out_and_named(self):
        lock = [self.empties(HB16, 2, 3), self.empties(ENDPOINT, 3, 1)]
        status, unknown, report, blocks = self.made(*lock)
        self.assertEqual((status, unknown, len(blocks["hb16"][1])), (3, [], 4))
        self.assertEqual([words[4] for words in blocks["hb16"][1]], [0x1603, 0x1700, 0x1700, 0x1700])
        status, unknown, report, blocks = self.made(*lock, words=["--leave-empty"])
        self.assertEqual((status, unknown), (3, []))
        self.assertEqual([words[4] for words in blocks["hb16"][1]], [0x1603])
        self.assertEqual([words[4] for words in blocks["mem0"][1]], [0x1612, 0x1000, 0x1000, 0x1000])
        for sentence in [*[f"- Decoder {i} of hb16 is committed without bytes. It was left out.\n" for i in (1, 2, 3)],
                         "- Decoder 1 of mem0 is committed without bytes. It was left out.\n",
                         "- mem0 has 1 free decoders here that the hardware has not.\n"]:
            self.assertIn(sentence, report)

    def test_one_between_others_and_its_skip(self):
        """From the hardware: what an empty decoder skips is skipped by the next one, and the rest moves down."""
        host = self.host()
        device = made_hosts.pci_devices(host)["0000:11:00.0"]
        made_hosts.put_words(os.path.join(device, "resource0"), 0x1138 + 0x20, [
            0, 0, 0, 0, 0x1710, 0x10000000, 0, 0, 0x30000000, 1, 0x10000000, 0, 0x1600, 0x20000000, 0, 7])
        made_hosts.put_words(os.path.join(host, "dev", "mem"), 0x100011138 + 0x20, [0, 0, 0, 0, 0x1700, 0, 0, 0] * 3)
        status, _, folder = self.capture(["--registers", "--leave-empty", "--from", host])
        report, nodes, blocks = self.read(folder)
        made = dict(zip([node["name"] for node in nodes], blocks))
        self.assertEqual((made["hb16"][0][0], len(made["hb16"][1])), (0x380, 1), "its capability word says as many")
        made = made["mem0"]
        self.assertEqual((status, made[0][0] & 15, len(made[1])), (2, 2, 4), "it has more skipped than there is")
        self.assertEqual(made[1][1:], [(0x30000000, 1, 0x10000000, 0, 0x1600, 0x30000000, 0, 7),
                                       (0, 0, 0, 0, 0x1000, 0, 0, 0), (0, 0, 0, 0, 0x1000, 0, 0, 0)])
        self.assertIn("- Decoder 1 of mem0 is committed without bytes. It was left out.\n", report)

    def test_nothing_is_left_out_where_there_is_none(self):
        for machine in machines.MACHINES:
            tree = CAPTURE.Archive(self.save(machines.pack(machines.tree_of(machine))))
            made = CAPTURE.files_by(CAPTURE.Reader(tree, leave_empty=True))
            self.assertEqual(made, CAPTURE.files_of(tree))

    def test_one_that_may_have_been_released_stays_unknown(self):
        second = self.second(HB16, "decoder2.1", region="region0", start="0x130000000", size="0x10000000",
                             target_list="0")
        spoils = [second, holding(f"{HB16}/decoder2.0/region", ""), holding(f"{HB16}/decoder2.0/size", "0x0")]
        status, unknown, report, _ = self.made(*spoils, words=["--leave-empty"])
        self.assertEqual((status, unknown), (2, ["decoder2.0"]))
        self.assertIn("- Decoder 0 of hb16 is committed without bytes. It was left out.\n", report)

    @asks_the_program
    def test_such_a_host_is_judged_and_simulated(self):
        lock = [self.empties(HB16, 2, 3), self.empties(ENDPOINT, 3, 3)]
        said = {}
        for name, spoils, words in [("plain", [], []), ("locked", lock, []), ("left out", lock, ["--leave-empty"])]:
            _, _, folder = self.capture([*words, "--from", self.lay(self.tree(*spoils))])
            files = [os.path.join(folder, file) for file in MADE]
            said[name] = cxlplan("check", *files), cxlplan("run", *files)
        self.assertEqual(said["locked"], ((8, "breach K6 hb16 1\n"),) * 2)
        self.assertEqual(said["left out"], said["plain"])
        self.assertEqual((said["plain"][0][0], said["plain"][1]), (0, (0, "")))


if __name__ == "__main__":
    unittest.main()
