"""The files made of the six machines, by each way to make them, given to cxlplan: its answers are what `cxl list` shows
of the regions."""

import itertools
import os
import tempfile
import unittest

import machines
import made_hosts
from program import asks_the_program, cxlplan

CAPTURE = machines.load("cxl-capture")


@asks_the_program
class Program(unittest.TestCase):
    def setUp(self):
        place = tempfile.TemporaryDirectory()
        self.addCleanup(place.cleanup)
        self.place = place.name

    def captured(self, machine, source="copy"):
        """The folder of the four files, made from a copy, from the hardware or from a list."""
        folder = os.path.join(self.place, f"{machine}-{source}")
        if source == "copy":
            words = ["--from", machines.save(machines.pack(machines.tree_of(machine)), folder + ".tar.gz")]
        elif source == "hardware":
            words = ["--registers", "--from", machines.lay(machines.tree_of(machine), folder + ".host")]
            made_hosts.lay_hardware(machine, words[-1])
        else:
            words = ["--list", machines.path_of(machine, "cxl-list.json"), "--table", machines.path_of(machine, "cedt")]
        self.assertEqual(CAPTURE.main([*words, folder]), 0 if source == "hardware" else 3)
        return folder

    def test_route(self):
        """The first chunk of each share of a region goes to the bridge above the share's memory device."""
        for machine in machines.MACHINES:
            table, nodes = os.path.join(self.captured(machine), "table.cedt"), machines.listed_nodes(machine)
            for region in machines.listed_regions(machine):
                for slot, (device, _) in enumerate(region["slots"]):
                    while "parent" in nodes[device]:
                        device = nodes[device]["parent"]
                    uid = nodes[device]["uid"]
                    address = f"{region['base'] + slot * region['gran']:#x}"
                    with self.subTest(machine, address=address):
                        self.assertEqual(cxlplan("route", table, address), (0, (
                            f"window {region['window']} position {region['targets'][uid]} bridge {uid}\n")))

    def test_check(self):
        """Each machine is accepted, with its regions, and their shares by slot, from whatever it was captured."""
        for machine, source in itertools.product(machines.MACHINES, ["copy", "hardware", "list"]):
            folder = self.captured(machine, source)
            files = [os.path.join(folder, file) for file in ("table.cedt", "topo.toml", "image.bin")]
            answer = cxlplan("check", *files)
            text = ""
            for region in machines.listed_regions(machine):
                text += (f"region {region['base']:#x} size {region['size']:#x} window {region['window']} "
                         f"gran {region['gran']} ways {region['ways']} {region['kind']}\n")
                for slot, (device, dpa) in enumerate(region["slots"]):
                    text += f"slot {slot} {device} {dpa:#x}\n"
            with self.subTest(machine, source=source):
                self.assertEqual(answer, (0, text))

    def test_registers_that_linux_does_not_show_are_judged(self):
        """The enable bit and the error bit of an endpoint, and a capability word that allows less."""
        for at, word, wanted in [(0x112c, 0, (8, "breach K2 mem0 0\n")), (0x1148, 0x1e12, (8, "breach K3 mem0 0\n")),
                                 (0x1128, 0x1a02, (8, "breach K5 mem0 0\n"))]:
            with self.subTest(word), tempfile.TemporaryDirectory(dir=self.place) as place:
                host = machines.lay(machines.tree_of("x2-hb"), os.path.join(place, "host"))
                made_hosts.lay_hardware("x2-hb", host)
                device = made_hosts.pci_devices(host)["0000:11:00.0"]
                made_hosts.put_words(os.path.join(device, "resource0"), at, [word])
                self.assertEqual(CAPTURE.main(["--registers", "--from", host, os.path.join(place, "made")]), 0)
                files = [os.path.join(place, "made", file) for file in ("table.cedt", "topo.toml", "image.bin")]
                self.assertEqual(cxlplan("check", *files), wanted)

    def test_the_lists_of_the_guide(self):
        """One whose machine is sound, and one that was changed so that a device deals by another granularity."""
        text = machines.data_of("x2-hb", "cxl-list.json").decode()
        at = text.index('"decoder3.0"')
        text = text[:at] + text[at:].replace("1024", "2048", 1)
        changed = machines.save(text.encode(), os.path.join(self.place, "list"))
        lost, table = os.path.join(self.place, "lost"), machines.path_of("x2-hb", "cedt")
        self.assertEqual(CAPTURE.main(["--list", changed, "--table", table, lost]), 3)
        shown = machines.guide()
        for folder, name, status in [(lost, "lost", 8), (self.captured("odd-ids", "list"), "bug", 0)]:
            said = cxlplan("check", *[os.path.join(folder, file) for file in ("table.cedt", "topo.toml", "image.bin")])
            self.assertEqual(said[0], status)
            self.assertIn(f"\n$ ./cxlplan check {name}/table.cedt {name}/topo.toml {name}/image.bin\n{said[1]}", shown)


if __name__ == "__main__":
    unittest.main()
