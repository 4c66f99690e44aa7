"""Registers that are read from the hardware, for which files stand: a machine's tree with its configuration spaces,
BARs of its switches and endpoints, and a /dev/mem with the registers of its bridges."""

import json
import os
import re
import struct
import tempfile
import unittest
from unittest import mock

import machines
import made_hosts
from test_bad_input import run
from test_machines import everything_in

CAPTURE = machines.load("cxl-capture")
MEANINGLESS = 0xf0  # in the capability word of an endpoint
HB16, BLOCK = 0x100010000, 0x1128  # where the registers of bridge 16 stand, and where a node's decoder block in them
LOCATOR = 0x148  # in the configuration space of mem0
NO_REGISTERS = "mem0 has no HDM decoder registers. What Linux shows of them stands."
NOT_TOLD = "Where the registers of mem0 are is not told. What Linux shows of them stands."


class Registers(unittest.TestCase):
    def setUp(self):
        place = tempfile.TemporaryDirectory()
        self.addCleanup(place.cleanup)
        self.place = place.name

    def host(self, machine):
        """What is read of a machine, as files: its copy, its configuration spaces and its registers."""
        tree = machines.tree_of(machine)
        file = machines.save(machines.pack(tree), os.path.join(self.place, "tree"))
        items = machines.attributes_of(CAPTURE.copy_of(CAPTURE.Archive(file)))
        items.update({path: item for path, item in tree.items() if path.endswith("/config")})
        host = machines.lay(items, tempfile.mkdtemp(dir=self.place))
        made_hosts.lay_hardware(machine, host)
        return host

    def files(self, host, status=0, words=("--registers",)):
        """The files made of a host."""
        made, files = tempfile.mkdtemp(dir=self.place), {}
        self.assertEqual(run([*words, "--from", host, made]), (status, ""))
        for name in os.listdir(made):
            with open(os.path.join(made, name), "rb") as file:
                files[name] = file.read()
        return files

    def refused(self, source):
        """What is said where a source is refused."""
        made = os.path.join(tempfile.mkdtemp(dir=self.place), "made")
        status, said = run(["--registers", "--from", source, made])
        self.assertEqual((status, said.count("\n")), (1, 1), said)
        self.assertEqual(os.listdir(os.path.dirname(made)), [], "something was written")
        return said

    def test_the_image_is_the_hardware_s_word_for_word(self):
        for machine in machines.MACHINES:
            with self.subTest(machine):
                made, registers = self.files(self.host(machine)), machines.registers_of(machine)
                nodes = machines.read_topology(made["topo.toml"].decode())
                for node, (head, decoders) in zip(nodes, machines.read_image(made["image.bin"], nodes)):
                    pci = re.search("PCI ([^ ,]+)", node["comment"]).group(1)
                    component = next(found for key, found in registers.items() if (
                        key == ("bridge", node.get("uid")) or found["path"][-1] == pci))
                    self.assertEqual("passthrough" in node, not component["decoders"])
                    if component["decoders"]:
                        capability = component["capability"] & ~(MEANINGLESS if node["kind"] == "endpoint" else 0)
                        self.assertEqual(head, (capability, component["global"], 0, 0))
                        self.assertEqual(decoders, component["decoders"])

    def test_table_and_topology_are_those_of_the_tree(self):
        for machine in machines.MACHINES:
            host = self.host(machine)
            made, plain = self.files(host), self.files(host, 3, ["--attributes"])
            self.assertEqual((made["table.cedt"], made["topo.toml"]), (plain["table.cedt"], plain["topo.toml"]))
            self.assertEqual(self.files(host, 0, []), made, "they are read without being asked for")

    def test_hardware_is_only_read(self):
        host = self.host("odd-ids")
        memory, opened = os.path.join(host, "dev", "mem"), []
        before, tree = os.stat(memory), everything_in(os.path.join(host, "sys"))

        def open_file(path, flags, *more, **named):
            opened.append((str(path), flags))
            return os_open(path, flags, *more, **named)

        os_open = os.open
        with mock.patch.object(CAPTURE.os, "open", open_file):
            self.files(host)
        flags = {path: flags for path, flags in opened if path.startswith(host)}
        self.assertEqual({flag & (os.O_ACCMODE | os.O_CREAT | os.O_TRUNC) for flag in flags.values()}, {os.O_RDONLY})
        self.assertEqual(flags[memory] & os.O_SYNC, os.O_SYNC)
        self.assertEqual(everything_in(os.path.join(host, "sys")), tree)
        after = os.stat(memory)
        self.assertEqual((after.st_mtime_ns, after.st_ctime_ns), (before.st_mtime_ns, before.st_ctime_ns))

    def test_reports(self):
        report = self.files(self.host("single-rp"))["report.txt"].decode()
        self.assertIn("The HDM decoder registers of 2 of them were read from the hardware", report)
        self.assertIn("hb16 was taken as passthrough, without decoder registers: its component registers have no HDM "
                      "decoder capability.", report)
        self.assertNotIn("enable bits", report)
        report = self.files(self.spoiled("config", LOCATOR, 0x16c1000b), 3)["report.txt"].decode()
        for sentence in ("The HDM decoder registers of 3 of them were", "- The enable bits.",
                         "Of the others stands what Linux shows.\n\nWhat the kernel does not show"):
            self.assertIn(sentence, report)

    def test_another_bar_with_the_registers_behind_an_offset(self):
        host = self.spoiled("config", LOCATOR + 12, 0x2 << 16 | 0x102)
        folder = made_hosts.pci_devices(host)["0000:11:00.0"]
        with open(os.path.join(folder, "resource0"), "rb") as bar:
            machines.save(bytes(2 << 16) + bar.read(), os.path.join(folder, "resource2"))
        os.remove(os.path.join(folder, "resource0"))
        self.assertEqual(self.files(host), self.files(self.host("x2-hb")))

    # ---- Hardware that is other than the machines'.

    def spoiled(self, file, at, word):
        """The machine x2-hb with another word in one of its files: those of /dev/mem, or of the PCI device of mem0."""
        host = self.host("x2-hb")
        folder = os.path.join(host, "dev") if file == "mem" else made_hosts.pci_devices(host)["0000:11:00.0"]
        with open(os.path.join(folder, file), "r+b") as opened:
            opened.seek(at)
            opened.write(struct.pack("<I", word))
        return host

    def test_hardware_that_can_do_less(self):
        for file, at, word, lines in [
            ("resource0", BLOCK, 0x112, "decoders = 4\nhigh = false\nways3 = false\nways16 = false\nram"),
            ("mem", HB16 + BLOCK, 0x242, "decoders = 4\ntargets = 4\nlow = false\n\n"),
            ("mem", HB16 + BLOCK, 0x1b82, "uid = 16\ndecoders = 4\n\n"),
        ]:
            self.assertIn(lines, self.files(self.spoiled(file, at, word))["topo.toml"].decode())

    def test_what_linux_shows_otherwise_is_said(self):
        """And where the registers are not found, what it shows is told."""
        lost = "ister. It was released, or reset, and Linux does not know."
        for file, at, word, status, sentence in [
            ("resource0", BLOCK + 0x20, 0x1000, 0, "decoder3.0 of mem0: committed is yes by Linux, but no in its reg" + lost),
            ("resource0", BLOCK + 0x20, 0x1613, 0, "decoder3.0 of mem0: granularity is 1024 by Linux, but 2048 in its register."),
            ("resource0", BLOCK + 0x20, 0x1622, 0, "decoder3.0 of mem0: ways is 2 by Linux, but 4 in its register."),
            ("resource0", BLOCK + 0x20, 0x712, 2, "decoder3.0 of mem0: target_type is expander by Linux, but accelerator in"),
            ("resource0", BLOCK + 0x24, 1 << 28, 2, "decoder3.0 of mem0: skip is 0x0 by Linux, but 0x10000000 in its register."),
            ("resource0", BLOCK + 0x10, 0x20000000, 0, "decoder3.0 of mem0: base is 0x110000000 by Linux, but 0x120000000 in"),
            ("resource0", BLOCK + 0x40, 0x1600, 0, "decoder3.1 of mem0: committed is no by Linux, but yes in its register."),
            ("mem", HB16 + BLOCK + 0x24, 1, 0, "decoder2.0 of hb16: targets is 0 by Linux, but 1 in its register."),
            ("resource0", 0x100c, 0x12810006, 3, NO_REGISTERS),
            ("config", LOCATOR, 0x16c1000b, 3, NOT_TOLD),
            ("config", LOCATOR + 4, 0x2408086, 3, NOT_TOLD),
            ("config", 0x100, 0x10010003, 3, NOT_TOLD),  # a capability behind itself
            ("config", 0x100, 0xffffffff, 3, NOT_TOLD),
        ]:
            with self.subTest(file, at=at, word=word):
                host, made = self.spoiled(file, at, word), tempfile.mkdtemp(dir=self.place)
                self.assertEqual(run(["--registers", "--from", host, made])[0], status)
                with open(os.path.join(made, "report.txt"), encoding="ascii") as report:
                    self.assertIn(sentence, report.read())
                with open(os.path.join(made, "sources.json"), encoding="ascii") as sources:
                    texts = [item["text"] for item in json.load(sources)["differences"]]
                self.assertEqual(any(sentence in text for text in texts), ": " in sentence)

    def test_hardware_that_is_refused(self):
        for file, at, word, wanted in [
            ("resource0", 0x1000, 0xffffffff, "resource0: 0xffffffff at 0x1000 is no header of CXL capabilities"),
            ("resource0", BLOCK, 0x1b1d, "resource0: the capability word 0x00001b1d has a reserved number of decoders, or"),
            ("resource0", 0x100c, 0xff810005, "resource0: the capability word 0x00000000 has a reserved number of dec"),
            ("mem", HB16 + BLOCK, 0x332, "hb16 has the capability word 0x00000332, whose number of targets cxlplan does"),
            ("mem", HB16 + 0x1000, 0, "/dev/mem: 0x00000000 at 0x100011000 is no header of CXL capabilities"),
            ("config", LOCATOR + 12, 0x101, "resource1: no registers can be mapped at 0x1000: "),
            ("config", LOCATOR + 12, 0x10100, "resource0: no registers can be mapped at 0x11000: "),
            ("config", LOCATOR + 16, 0xffffffff, "resource0: no registers can be mapped at 0xffffffff00001000: "),
        ]:
            with self.subTest(wanted):
                host = self.spoiled(file, at, word)
                self.assertIn(wanted, self.refused(host))
                self.assert_told(host, "hb16" if file == "mem" else "mem0", wanted)

    def assert_told(self, host, name, why):
        """Without --registers the attributes of a node are told where its registers cannot be read, and a line says why."""
        made = tempfile.mkdtemp(dir=self.place)
        status, said = run(["--from", host, made])
        with open(os.path.join(made, "sources.json"), encoding="ascii") as sources:
            nodes = {node["node"]: node for node in json.load(sources)["nodes"]}
        self.assertEqual((status, [node for node in nodes if nodes[node]["source"] == "told"]), (3, [name]))
        self.assertEqual({decoder["source"] for decoder in nodes[name]["decoders"]}, {"told"})
        self.assertIn(why, nodes[name]["why"])
        self.assertEqual((f"the registers of {name} could not be read: " in said, why in said), (bool(said), bool(said)))

    def test_hardware_that_may_not_be_read(self):
        """Without root the configuration space ends early, and where Linux keeps /dev/mem closed it is not there."""
        host = self.host("x2-hb")
        os.rename(os.path.join(host, "dev"), os.path.join(host, "closed"))
        self.assertIn("/dev/mem: no registers can be mapped at 0x100011000: ", self.refused(host))
        os.rename(os.path.join(host, "closed"), os.path.join(host, "dev"))
        for folder in made_hosts.pci_devices(host).values():
            os.truncate(os.path.join(folder, "config"), 64)
        self.assertIn("/config: ends before 0x100; root alone may read so far\n", self.refused(host))

    def test_copies_hold_no_registers(self):
        archive = machines.save(machines.pack(machines.tree_of("x6")), os.path.join(self.place, "x6.tar.gz"))
        self.assertEqual(self.refused(archive), f"cxl-capture: {archive}: a copy holds no registers; they are read on "
                                                "the machine itself\n")


if __name__ == "__main__":
    unittest.main()
