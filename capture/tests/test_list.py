"""The files made of what `cxl list` prints and of a table, beside those made of the machine's own tree."""

import json
import os
import re
import struct
import tempfile
import unittest

import machines
from test_bad_input import run

CAPTURE = machines.load("cxl-capture")
TOLD = ["table.cedt", "topo.toml"]
GRANULARITY = 15  # of a control word


def acpidump(table, name="CEDT"):
    """A table as acpidump prints it."""
    text = f"{name} @ 0x000000007E5D7000\n"
    for at in range(0, len(table), 16):
        row = table[at:at + 16]
        text += f"{at:04X}: ".rjust(10) + "".join(f"{byte:02X} " for byte in row).ljust(48)
        text += " " + "".join(chr(byte) if 32 <= byte < 127 else "." for byte in row) + "\n"
    return (text + "\n").encode()


# ---- Other prints of the same machine.

def walk(item, change):
    """Each object of a list, changed; an object for which the change answers True is left out."""
    if isinstance(item, list):
        return [walk(part, change) for part in item if not (isinstance(part, dict) and change(part))]
    return {key: walk(value, change) for key, value in item.items()} if isinstance(item, dict) else item


def without_idle(item):
    """By -BDEPMRT: no idle decoder and no region that has no driver."""
    return item.get("state") == "disabled"


def newer(machine):
    """By the `cxl list` of 2025: it names the parent's port, and how many decoders are committed."""
    registers = machines.registers_of(machine)

    def change(item):
        if "port" in item or "endpoint" in item:
            memory = item.get("memdev")
            component = next(found for key, found in registers.items() if (
                key == ("endpoint", memory["serial"]) if memory else found["path"][-1] == item["host"]
                or key[0] == "bridge" and item["host"] == f"pci0000:{key[1]:02x}"))
            path = component["path"]
            item["parent_dport"] = path[-2] if len(path) > 1 else item["host"]
            item["decoders_committed"] = sum(decoder[4] >> 10 & 1 for decoder in component["decoders"])
    return change


class List(unittest.TestCase):
    def setUp(self):
        place = tempfile.TemporaryDirectory()
        self.addCleanup(place.cleanup)
        self.place = place.name

    def file(self, name, data):
        return machines.save(data, os.path.join(self.place, name))

    def made(self, machine, change=None, table=None, unknown=""):
        """The files made of a machine's list, with each of its objects changed, and said of decoders not known."""
        listed = json.loads(machines.data_of(machine, "cxl-list.json"))
        folder = tempfile.mkdtemp(dir=self.place)
        words = ["--list", self.file("list.json", json.dumps(walk(listed, change) if change else listed).encode()),
                 "--table", self.file("table", table or machines.data_of(machine, "cedt")), folder]
        status, said = run(words)
        self.assertEqual((status, unknown in said, bool(said)), (2 if unknown else 3, True, bool(unknown)), said)
        files = {}
        for name in os.listdir(folder):
            with open(os.path.join(folder, name), "rb") as file:
                files[name] = file.read()
        return files

    def of_tree(self, machine):
        file = self.file("tree", machines.pack(machines.tree_of(machine)))
        return CAPTURE.files_of(CAPTURE.Archive(file))

    def assert_same_registers(self, made, wanted):
        """But for the granularity of decoders of one way, which a list does not tell."""
        nodes = machines.read_topology(wanted["topo.toml"].decode())
        blocks = [machines.read_image(files["image.bin"], nodes) for files in (made, wanted)]
        for got, want in zip(*blocks):
            self.assertEqual(got[0], want[0])
            for ours, theirs in zip(got[1], want[1]):
                free = GRANULARITY if theirs[4] & 0xf0 == 0 else 0
                self.assertEqual(ours[4] & ~free, theirs[4] & ~free)
                self.assertEqual(ours[:4] + ours[5:], theirs[:4] + theirs[5:])

    def assert_same_committed(self, made, wanted):
        """The same, of committed decoders alone."""
        blocks = []
        for files in (made, wanted):
            nodes = machines.read_topology(files["topo.toml"].decode())
            blocks.append([[words[:4] + words[5:] for words in decoders if words[4] >> 10 & 1]
                           for _, decoders in machines.read_image(files["image.bin"], nodes)])
        self.assertEqual(*blocks)

    def test_a_list_tells_as_much_as_the_tree(self):
        for machine in machines.MACHINES:
            wanted = self.of_tree(machine)
            for name, change in {"older": None, "newer": newer(machine)}.items():
                with self.subTest(machine, name=name):
                    made = self.made(machine, change)
                    self.assertEqual([made[file] for file in TOLD], [wanted[file] for file in TOLD])
                    self.assert_same_registers(made, wanted)

    def test_what_a_list_does_not_tell_is_said(self):
        for machine, change, said, unsaid in [
            ("odd-ids", None, ["cxl list shows 10 bridges, switches and endpoints, and 10 committed decoders in them.",
                               "- How many decoders are committed. ", "- Nothing is below port 5 of port4.",
                               "- The port on which a device hangs. Of 8 devices their places in the regions tell it.",
                               "- Whether a decoder is locked", "- The granularity of a decoder of one way."],
             ["idle"]),
            ("odd-ids", newer("odd-ids"), ["- Whether a decoder is locked"],
             ["- How many decoders", "on which a device"]),
            ("single-rp", None, ["hb16 was taken as passthrough, without decoder registers: it has one port and one "
                                 "decoder, and cxl list does not tell whether that is committed."], []),
            ("single-rp", newer("single-rp"), ["hb16 was taken as passthrough, without decoder registers: its decoder "
                                               "is not committed, but decoders below it are."], []),
        ]:
            report = self.made(machine, change)["report.txt"].decode()
            for sentence in said:
                self.assertIn(sentence, report)
            for sentence in unsaid:
                self.assertNotIn(sentence, report)

    def test_a_list_without_idle_decoders(self):
        """Nor does it list a region without a driver, as each of ram-and-pmem is, nor so whether that is committed."""
        unknown = {"ram-and-pmem": "the registers of decoder1.0, decoder1.1, decoder1.2, decoder2.0, decoder2.1, "
                                   "decoder2.2, decoder3.0, decoder3.1 are not known"}
        for machine in machines.MACHINES:
            with self.subTest(machine):
                made = self.made(machine, without_idle, unknown=unknown.get(machine, ""))
                wanted, report = self.of_tree(machine), made["report.txt"].decode()
                self.assert_same_committed(made, wanted)
                self.assertIn("- Decoders that are idle; -vvv lists them.", report)
                nodes = [{**node, "decoders": 0} for node in machines.read_topology(made["topo.toml"].decode())]
                self.assertEqual(nodes, [{**node, "decoders": 0}
                                         for node in machines.read_topology(wanted["topo.toml"].decode())])
                if machine == "ram-and-pmem":
                    self.assertIn("Of mem0, mem1 it was taken from the PCI numbers", report)

    def test_ports_without_regions(self):
        """Nothing names the port of a device below port4 of odd-ids, which has three ports and two devices."""
        def change(item):
            item.pop("mappings", None)
        made = self.made("odd-ids", change)
        self.assertIn("mem0 was placed below port 2 of port4. It may as well be another of [2, 5, 9], which cxl list "
                      "does not tell.", made["report.txt"].decode())
        self.assertEqual(made["topo.toml"], self.of_tree("odd-ids")["topo.toml"])

    def test_bridges_by_their_other_names(self):
        """Where the root's ports have the names of ACPI devices, those of the PCI host bridges are the other ones."""
        def swap(item):
            if "alias" in item:
                item.update({key: item["alias"] for key in ("dport", "target") if key in item},
                            alias=item.get("dport", item.get("target")))
            item.pop("mappings", None)
        for machine in ("x4-pass-switch", "single-rp"):
            self.assertEqual(self.made(machine, swap)["topo.toml"], self.of_tree(machine)["topo.toml"])

    def test_a_decoder_of_no_committed_region_is_not_known(self):
        """Where the number of committed decoders is not told; where it is 0, Linux released them all."""
        def reset(item):
            item.update({"decode_state": "reset"} if "decode_state" in item else {})
            newer("x2-hb")(item)
            if "decoders_committed" in item:
                item["decoders_committed"] = 0

        def older(item):
            reset(item)
            item.pop("decoders_committed", None)
        report = self.made("x2-hb", reset)["report.txt"].decode()
        self.assertIn("and 0 committed decoders in them.", report)
        self.assertIn("decoder3.0 of mem0 is not committed, and so was taken as empty, though cxl list shows size 0x20000000.",
                      report)
        report = self.made("x2-hb", older, unknown="decoder1.0, decoder2.0, decoder3.0, decoder4.0 are not")["report.txt"]
        self.assertIn("and 0 committed decoders in them.", report.decode())
        self.assertIn("- decoder3.0 of mem0 is in a region that cxl list shows as not committed. Linux may have released it, "
                      "or firmware set it and Linux could not put its region together. It was taken as not", report.decode())

    def test_one_odd_device_is_left_out(self):
        """One without a serial number, and one with a decoder of a size that no register holds."""
        def nameless(item):
            if item.get("endpoint") == "endpoint4":
                item["memdev"].pop("serial")

        def uneven(item):
            if item.get("decoder") == "decoder4.0" and "size" in item:
                item["size"] += 1
        for change, why in (nameless, "mem1 has no serial number."), (uneven, "size: 0x20000001 is no multiple of 256 MiB."):
            made = self.made("x2-hb", change, unknown=": mem1 was left out, as report.txt says\n")
            names = [node["name"] for node in machines.read_topology(made["topo.toml"].decode())]
            self.assertEqual(names, ["hb16", "hb32", "mem0"])
            self.assertIn(why, made["report.txt"].decode().split("\n\n")[0])

    def test_a_memory_device_of_no_port(self):
        listed = json.loads(machines.data_of("x2-hb", "cxl-list.json"))
        loose = {"memdev": "mem7", "serial": 7, "host": "0000:99:00.0"}
        listed = [{"anon memdevs": [loose]}, {"buses": listed}]
        tree = CAPTURE.Listing(json.dumps(listed).encode())
        files = CAPTURE.files_of(tree, machines.data_of("x2-hb", "cedt"))
        self.assertIn("mem7 is the endpoint of no port. It was left out.", files["report.txt"].decode())
        self.assertEqual(files["topo.toml"], self.of_tree("x2-hb")["topo.toml"])

    def test_the_guide_shows_what_is_made(self):
        text, report = machines.guide(), self.made("odd-ids")["report.txt"].decode().splitlines()
        self.assertIn("\n$ tail -8 bug/report.txt\n" + "\n".join(report[-8:]) + "\n$ ./cxlplan check bug", text)

    # ---- Tables.

    def test_a_table_as_text(self):
        table = machines.data_of("odd-ids", "cedt")
        text = acpidump(b"DSDT" + bytes(60), "DSDT") + acpidump(table) + acpidump(bytes(9), "SSDT")
        bare = re.sub(rb"(?m)(?<=[0-9A-F])  .*$", b"", text)  # no column of characters
        for data in (text, acpidump(table), text.replace(b"\n", b"\r\n"), bare):
            self.assertEqual(self.made("odd-ids", None, data)["table.cedt"], table)

    def test_a_table_beside_a_tree(self):
        """Also where none stands in its place; and a copy then holds it."""
        items, table = machines.tree_of("x6"), machines.data_of("x6", "cedt")
        for content in (None, b"no table"):
            items.pop(machines.TABLE, None)
            items.update({machines.TABLE: content} if content else {})
            archive = self.file("x6.tar.gz", machines.pack(items))
            folder = machines.lay(items, tempfile.mkdtemp(dir=self.place))
            for source in (archive, folder):
                made, text = tempfile.mkdtemp(dir=self.place), self.file("cedt.txt", acpidump(table))
                self.assertEqual(run(["--table", text, "--from", source, made]), (3, ""))
                with open(os.path.join(made, "table.cedt"), "rb") as file:
                    self.assertEqual(file.read(), table)
                self.assertEqual(run(["--from", source, os.path.join(self.place, "none")])[0], 1)
        copy = machines.items_of(CAPTURE.copy_of(CAPTURE.Archive(archive), table))
        self.assertEqual(copy[machines.TABLE], table)

    # ---- Bad input.

    def assert_refused(self, listed, table, *wanted):
        before = sorted(os.listdir(self.place))
        status, said = run(["--list", listed, "--table", table, os.path.join(self.place, "made")])
        self.assertEqual((status, said.count("\n")), (1, 1), said)
        self.assertTrue(said.isascii() and said[:-1].isprintable(), repr(said))
        for part in wanted:
            self.assertIn(part, said)
        self.assertEqual(sorted(os.listdir(self.place)), before, "something was written")

    def test_bad_tables(self):
        cedt, listed = machines.data_of("x2-hb", "cedt"), self.file("list", machines.data_of("x2-hb", "cxl-list.json"))
        text = acpidump(cedt)
        for data, wanted in [
            (b"", "no whole CEDT"), (cedt[:-1], "no whole CEDT"), (cedt + b"\0", "no whole CEDT"),
            (cedt[:-1] + b"\1", "its checksum is wrong"), (text[:-80], "no whole CEDT"),
            (text.replace(b"0020: ", b"0030: "), "no whole CEDT"),
            (text.replace(b"43 45", b"43 4G", 1), "no whole CEDT"),
            (acpidump(cedt, "DSDT"), "no whole CEDT"), (acpidump(cedt[:-1] + b"\1"), "its checksum is wrong"),
            (b"CEDT @ 0x", "no whole CEDT"), (bytes(1048577), "more than 1048576 bytes"),
        ]:
            file = self.file("table", data)
            with self.subTest(wanted, size=len(data)):
                self.assert_refused(listed, file, f"cxl-capture: {file}: {wanted}")
        self.assert_refused(listed, os.path.join(self.place, "none"), "none: No such file or directory")
        self.assert_refused(listed, self.place, f"{self.place}: no file")

    def test_bad_lists(self):
        table = self.file("table", machines.data_of("x2-hb", "cedt"))
        text = machines.data_of("x2-hb", "cxl-list.json").decode()
        for old, new, wanted in [
            (text, "", "no JSON, as `cxl list -vvv` prints it"),
            (text, "[" * 100000, "no JSON, as `cxl list -vvv` prints it"),
            (text, "[" + "{}," * 600000 + "{}]", "no JSON, as `cxl list -vvv` prints it: more than 524288 values"),
            (text, "[" + "[]," * 600000 + "[]]", "no JSON, as `cxl list -vvv` prints it: more than 524288 values"),
            (text, "\ud800".encode("utf-8", "surrogatepass").decode("latin-1"), "no JSON"),
            (text, "[]", "no bus with a port is listed"), (text, "7", "no bus with a port is listed"),
            (text, '[{"memdev":"mem0"}]', "no bus with a port is listed"),
            (text, '{"bus":"root0"}', "no bus with a port is listed"), (text, '{"bus":[]}', "bus is '[]', no name"),
            (text[-40:], "", "no JSON"),
            ('"endpoints:port1"', '"memdevs:port1"', "port1: its memory devices are listed without their endpoints"),
            (text, text.replace('"decoders:', '"orders:'), "no bus with a decoder is listed; `cxl list -vvv`"),
            ('"root0"', '"root0/../../etc"', "bus is 'root0/../../etc', no name"),
            ('"host":"0000:11:00.0"', '"host":"../../x"', "mem0: host is '../../x', no name"),
            ('"host":"0000:11:00.0"', '"host":["x"]', "mem0: host is \"['x']\", no name"),
            ('"dport":"pci0000:20"', '"dport":""', "a dport: dport is '', no name"),
            ('"memdev":{', '"health":{', "a memdev: memdev is 'None', no name"),
            ('"size":536870912', '"size":"512.00 MiB (536.87 MB)"', "'512.00 MiB (536.87 MB)', no number; with -u"),
            ('"size":536870912', '"size":-1', "size is '-1', no number"),
            ('"size":536870912', '"size":true', "size is 'True', no number"),
            ('"size":536870912', '"size":5e8', "size is '500000000.0', no number"),
            ('"size":536870912', '"size":1' + "0" * 5000, "size is '1000000"),
            ('"interleave_ways":2', '"interleave_ways":5', "/interleave_ways: '5' is none of 1, 2, 3, "),
            ('"dports":[', '"dports":{}, "x":[', "root0: dports is no list"),
            ('"dports":[', '"dports":[7,', "a dport: dport is 'None', no name"),
            ('"position":', '"place":', "position is 'None', no number"),
            ('"ports:root0":[', '"ports:root0":[{"port":"port1","host":"pci0000:30"},', "port1 is listed twice"),
            ('"decoder":"decoder3.1"', '"decoder":"decoder1.1"', "decoder1.1 is listed twice"),
        ]:
            self.assertIn(old, text)
            file = self.file("list", text.replace(old, new, 1).encode())
            with self.subTest(old[:60], new=new[:60]):
                self.assert_refused(file, table, f"cxl-capture: {file}: ", wanted)
        self.assert_refused(os.path.join(self.place, "none"), table, "none: No such file or directory")

    def test_more_devices_than_ports(self):
        listed = json.loads(machines.data_of("x2-hb", "cxl-list.json"))
        for port in listed[0]["ports:root0"]:
            port["dports"] = []
        file = self.file("list", json.dumps(listed).encode())
        table = self.file("table", machines.data_of("x2-hb", "cedt"))
        self.assert_refused(file, table, ": 1 devices hang below the ports []; `cxl list -vvv`")


if __name__ == "__main__":
    unittest.main()
