"""The files made of the six machines, beside what the registers held and what `cxl list` says."""

import ast
import os
import re
import sys
import tempfile
import unittest
from unittest import mock

import machines

CAPTURE = machines.load("cxl-capture")


class Machines(unittest.TestCase):
    @classmethod
    def setUpClass(cls):
        """The copy of each machine, and the files of it, both made from its whole tree."""
        cls.copies, cls.files = {}, {}
        with tempfile.TemporaryDirectory() as folder:
            for machine in machines.MACHINES:
                packed = machines.pack(machines.tree_of(machine))
                tree = CAPTURE.Archive(machines.save(packed, os.path.join(folder, "tree")))
                cls.copies[machine], cls.files[machine] = CAPTURE.copy_of(tree), CAPTURE.files_of(tree)

    def nodes(self, machine):
        return machines.read_topology(self.files[machine]["topo.toml"].decode())

    def blocks(self, machine):
        """Each node with the component of `regs` that it is, and its block."""
        registers, nodes = machines.registers_of(machine), self.nodes(machine)
        for node, block in zip(nodes, machines.read_image(self.files[machine]["image.bin"], nodes)):
            pci = re.search("PCI ([^ ,]+)", node["comment"]).group(1)
            serial = re.search("serial (0x[0-9a-f]+)", node["comment"])
            key = ("bridge", node["uid"]) if node["kind"] == "bridge" else (
                ("endpoint", int(serial.group(1), 16)) if serial else ("switch", pci))
            component = registers.pop(key)
            self.assertEqual(component["path"][-1], "" if node["kind"] == "bridge" else pci)
            yield node, component, block
        self.assertEqual(registers, {}, "a component of the machine is missing")

    def test_table_is_the_host_s(self):
        for machine in machines.MACHINES:
            self.assertEqual(self.files[machine]["table.cedt"], machines.data_of(machine, "cedt"))

    def test_nodes_are_those_of_cxl_list(self):
        for machine in machines.MACHINES:
            with self.subTest(machine):
                nodes = {node["name"]: node for node in self.nodes(machine)}
                self.assertEqual({name: {key: value for key, value in node.items() if key not in ("name", "comment")}
                                  for name, node in nodes.items()}, machines.listed_nodes(machine))

    def test_parents_come_first(self):
        for machine in machines.MACHINES:
            names, kinds = [], []
            for node in self.nodes(machine):
                self.assertIn(node.get("parent"), [None] + names)
                names.append(node["name"])
                kinds.append(["bridge", "switch", "endpoint"].index(node["kind"]))
            self.assertEqual(kinds, sorted(kinds))

    def test_committed_decoders_are_those_of_the_registers(self):
        for machine in machines.MACHINES:
            for node, component, (head, decoders) in self.blocks(machine):
                with self.subTest(machine, node=node["name"]):
                    if "passthrough" in node:
                        self.assertEqual((component["decoders"], head, decoders), ([], (0x10, 0, 0, 0), [(0,) * 8]))
                        continue
                    self.assertEqual(len(decoders), len(component["decoders"]))
                    for made, real in zip(decoders, component["decoders"]):
                        self.assertEqual(made[4] >> 10 & 1, real[4] >> 10 & 1, "committed")
                        if real[4] >> 10 & 1:
                            self.assertEqual(made, real)

    def test_heads_of_blocks(self):
        """These are not shown. QEMU's ports have 0x382; its endpoints say one target, where none is meant."""
        for machine in machines.MACHINES:
            for node, component, (head, _) in self.blocks(machine):
                if "passthrough" not in node:
                    self.assertEqual(head, (component["capability"] & ~(0xf0 if node["kind"] == "endpoint" else 0),
                                            component["global"], 0, 0))

    def test_port_numbers_and_skips_of_odd_ids(self):
        found = {node["name"]: decoders[0] for node, _, (_, decoders) in self.blocks("odd-ids")}
        nodes = {node["name"]: (node.get("parent"), node.get("port")) for node in self.nodes("odd-ids")}
        self.assertEqual((nodes["mem3"], nodes["mem0"]), (("port4", 9), ("port4", 2)))
        self.assertEqual(found["port4"][5], 0x209)
        self.assertEqual(found["hb52"][5], 0x3c8)
        self.assertEqual(found["mem1"][5], 0x30000000)

    def test_reports(self):
        for machine, sentences in {
            "single-rp": ["Linux shows 4 bridges, switches and endpoints, and 2 committed decoders in them.",
                          "hb16 was taken as passthrough, without decoder registers: its decoder is not committed, but "
                          "decoders below it are."],
            "odd-ids": ["Nothing is below port 5 of port4."],
            "ram-and-pmem": ["What could not be placed, or is not certain:\n- Nothing."],
            "x6": ["- The enable bits.", "- The capability registers.", "- The registers of decoders that are not"],
        }.items():
            for sentence in sentences:
                self.assertIn(sentence, self.files[machine]["report.txt"].decode())

    def test_a_copy_tells_as_much_as_the_host(self):
        for machine in machines.MACHINES:
            with self.subTest(machine), tempfile.TemporaryDirectory() as folder:
                file = machines.save(self.copies[machine], os.path.join(folder, "copy.tar.gz"))
                self.assertEqual(CAPTURE.main(["--from", file, os.path.join(folder, "made")]), 3)
                self.assertEqual(sorted(os.listdir(folder)), ["copy.tar.gz", "made"])
                for name, data in self.files[machine].items():
                    with open(os.path.join(folder, "made", name), "rb") as made:
                        self.assertEqual(made.read(), data)
                self.assertEqual(CAPTURE.copy_of(CAPTURE.Archive(file)), self.copies[machine], "a copy of the copy")
                unpacked = machines.lay(machines.items_of(self.copies[machine]), os.path.join(folder, "unpacked"))
                self.assertEqual(CAPTURE.files_of(CAPTURE.Folder(unpacked)), self.files[machine], "unpacked")

    def test_a_copy_holds_what_is_read_and_no_more(self):
        known = re.compile(
            r"sys/bus/cxl/devices/[a-z]+[0-9.]+|sys/firmware/acpi/tables/CEDT|sys/devices/(.*/)?(uport|parent_dport|"
            r"dport[0-9]+|decoders_committed|start|size|interleave_(ways|granularity)|locked|target_(type|list)|"
            r"dpa_(resource|size)|region|commit|serial|(ram|pmem)/size|(pci)?[0-9a-f:.]+|mem[0-9]+|ACPI0017:00|driver)|"
            r"cxl-capture/copy\.json")
        for machine in machines.MACHINES:
            for path in machines.items_of(self.copies[machine]):
                self.assertTrue(known.fullmatch(path), path)
            self.assertLess(len(self.copies[machine]), 16384)

    def test_a_host_gives_the_same_and_is_only_read(self):
        """The whole tree as files of the system: the same files and the same copy, and nothing of the tree changes."""
        with tempfile.TemporaryDirectory() as folder:
            host = machines.lay(machines.tree_of("odd-ids"), os.path.join(folder, "host"))
            before = everything_in(host)
            CAPTURE.write(os.path.join(folder, "made"), CAPTURE.files_of(CAPTURE.Folder(host)))
            self.assertEqual(CAPTURE.copy_of(CAPTURE.Folder(host)), self.copies["odd-ids"])
            self.assertEqual(everything_in(host), before)
            for name, data in self.files["odd-ids"].items():
                with open(os.path.join(folder, "made", name), "rb") as made:
                    self.assertEqual(made.read() == data, name != "sources.json", name)

    def test_the_forms_on_the_machine_itself(self):
        with tempfile.TemporaryDirectory() as folder:
            host = CAPTURE.Folder(machines.lay(machines.attributes_of(self.copies["x6"]), os.path.join(folder, "host")))
            made, copy = os.path.join(folder, "made"), os.path.join(folder, "copy.tar.gz")
            with mock.patch.object(CAPTURE, "Folder", lambda root: {"/": host}[root]):
                words = "--attributes"
                self.assertEqual((CAPTURE.main([words, made]), CAPTURE.main([words, "--copy", copy])), (3, 0))
            for name, data in self.files["x6"].items():
                with open(os.path.join(made, name), "rb") as file:
                    self.assertEqual(file.read() == data, name != "sources.json", name)
            with open(copy, "rb") as file:
                self.assertEqual(machines.attributes_of(file.read()), machines.attributes_of(self.copies["x6"]))
            self.assertEqual(sorted(os.listdir(folder)), ["copy.tar.gz", "host", "made"])

    def test_the_example_is_a_copy(self):
        with open(os.path.join(machines.TOP, "examples", "x4-pass-switch.tar.gz"), "rb") as example:
            self.assertEqual(machines.items_of(example.read()), machines.items_of(self.copies["x4-pass-switch"]))

    def test_the_guide_shows_what_is_made(self):
        text, made = machines.guide(), self.files["x4-pass-switch"]
        topology, report = made["topo.toml"].decode().splitlines(), made["report.txt"].decode().splitlines()
        self.assertIn("\n$ head -22 host/topo.toml\n" + "\n".join(topology[:22]) + "\n$ tail -3", text)
        self.assertIn("\n$ tail -3 host/report.txt\n" + "\n".join(report[-3:]) + "\n```", text)

    def test_python_3_9_alone(self):
        with open(os.path.join(machines.TOOLS, "cxl-capture"), encoding="ascii") as program:
            tree = ast.parse(program.read(), feature_version=(3, 9))
        imported = [name.name for node in ast.walk(tree) if isinstance(node, ast.Import) for name in node.names]
        imported += [node.module for node in ast.walk(tree) if isinstance(node, ast.ImportFrom)]
        for name in imported if hasattr(sys, "stdlib_module_names") else []:
            self.assertIn(name, sys.stdlib_module_names)


def everything_in(folder):
    """Each path with its kind, mode, change time, and content or target."""
    found = {}
    for place, folders, files in os.walk(folder):
        for name in folders + files:
            path = os.path.join(place, name)
            status = os.lstat(path)
            content = os.readlink(path) if os.path.islink(path) else None
            if os.path.isfile(path) and content is None:
                with open(path, "rb") as file:
                    content = file.read()
            found[path] = (status.st_mode, status.st_mtime_ns, status.st_ctime_ns, content)
    return found


if __name__ == "__main__":
    unittest.main()
