"""sources.json: where each register comes from, in its written form; and hosts that no profile of ten decoders holds, or
that Linux does not know, which are never captured with status 0."""

import json
import os
import re
import struct
import tempfile
import unittest
from unittest import mock

import machines
import made_hosts
import test_holes
from program import asks_the_program, cxlplan
from test_bad_input import DECODER, DEVICES, ENDPOINT, HB16, MEM0, ROOT, both, holding, leading, removed, run
from test_holes import FORMS, NOT_TOLD, READ, Changed
from test_list import walk

CAPTURE = machines.load("cxl-capture")
BLOCK = 0x1128  # where a node's decoder block stands in its component registers
COUNT_CODES = {12: 6, 14: 7, 16: 8, 20: 9, 24: 10, 28: 11, 32: 12}

with open(os.path.join(machines.TOOLS, "sources.schema.json"), encoding="utf-8") as opened:
    SCHEMA = json.load(opened)
KINDS = {"object": dict, "array": list, "string": str, "integer": int, "boolean": bool, "null": type(None)}


def faults(value, schema, place="$"):
    """Where a value is none of a schema, of as much of JSON Schema as the written one uses."""
    if "$ref" in schema:
        yield from faults(value, SCHEMA["$defs"][schema["$ref"].split("/")[-1]], place)
    if value not in schema.get("enum", [value]) or value != schema.get("const", value):
        yield f"{place} is {value!r}"
    kinds = schema.get("type", list(KINDS))
    if not any(type(value) is KINDS[kind] for kind in ([kinds] if isinstance(kinds, str) else kinds)):
        yield f"{place} is no {kinds}"
    elif isinstance(value, list):
        for number, item in enumerate(value):
            yield from faults(item, schema.get("items", {}), f"{place}[{number}]")
    elif isinstance(value, dict):
        known = schema.get("properties", {})
        yield from (f"{place} lacks {key}" for key in schema.get("required", []) if key not in value)
        for key, item in value.items():
            if key not in known and schema.get("additionalProperties") is False:
                yield f"{place}.{key} is not written down"
            yield from faults(item, known.get(key, {}), f"{place}.{key}")


class Sources(Changed):
    """Captures of which sources.json is read."""

    def sources(self, folder):
        with open(os.path.join(folder, "sources.json"), encoding="ascii") as file:
            said = json.load(file)
        self.assertEqual(list(faults(said, SCHEMA)), [])
        _, nodes, blocks = self.read(folder)
        self.assertEqual([(node["node"], len(node["decoders"])) for node in said["nodes"]],
                         [(node["name"], node.get("decoders", 0)) for node in nodes])
        for node, (_, decoders) in zip(said["nodes"], blocks):
            held = [(number, bool(words[4] & 1 << 10)) for number, words in enumerate(decoders)]
            self.assertEqual([(item["decoder"], item["committed"]) for item in node["decoders"]], held[:len(node["decoders"])])
        return said

    def captured(self, words, status):
        """What sources.json, the report and the topology say of a capture with this status."""
        found, said, folder = self.capture(words)
        self.assertEqual(found, status, said)
        sources = self.sources(folder)
        self.assertEqual(sources["status"], status)
        report, nodes, blocks = self.read(folder)
        return sources, report, dict(zip([node["name"] for node in nodes], zip(nodes, blocks)))

    def told(self, *spoils, status=2, words=()):
        """The same of the machine x2-hb, changed, by its attributes."""
        return self.captured([*words, "--from", self.save(machines.pack(self.tree(*spoils)))], status)

    def listed(self, change, status, machine="x2-hb"):
        """The same of a list of a machine, changed."""
        text = json.dumps(walk(json.loads(machines.data_of(machine, "cxl-list.json")), change))
        return self.captured(["--list", self.save(text.encode()), "--table", machines.path_of(machine, "cedt")], status)

    # ---- The form.

    def test_a_validator_that_sees_faults(self):
        whole, _, _ = self.told(status=3)
        for spoil in (lambda it: it.pop("known"), lambda it: it.update(more=1), lambda it: it.update(status=True),
                      lambda it: it.update(status=1), lambda it: it["nodes"][0].update(source="guessed"),
                      lambda it: it["nodes"][0]["decoders"][0].update(decoder="0"), lambda it: it.update(time=7)):
            said = json.loads(json.dumps(whole))
            spoil(said)
            self.assertEqual(len(list(faults(said, SCHEMA))), 1)

    def test_each_captured_host_in_each_form(self):
        for host in NOT_TOLD:
            for form in FORMS:
                with self.subTest(host, form=form):
                    names = NOT_TOLD[host].get(form, "").split()
                    said, _, _ = self.captured(test_holes.Hosts.words.__func__(type(self), host, form),
                                               2 if names else 0 if form in READ else 3)
                    decoders = {item["kernel"]: item for node in said["nodes"] for item in node["decoders"]}
                    usual = "read" if form in READ else "told"
                    self.assertEqual({name: item["source"] for name, item in decoders.items()},
                                     {name: "unknown" if name in names else usual for name in decoders})
                    self.assertEqual({node["source"] for node in said["nodes"]}, {usual})
                    self.assertEqual(said["known"], "unknown" if names else usual)
                    self.assertEqual(sorted(name for name, item in decoders.items() if item["why"]), sorted(names))
                    for name in names:
                        self.assertEqual({item["committed"] for item in decoders[name]["readings"]}, {True, False})
                    self.assertEqual((said["outside"], said["left_out"]), ([], []))

    def test_both_readings_are_named(self):
        said, _, _ = self.captured(test_holes.Hosts.words.__func__(type(self), "fw-16k-k612", "tree"), 2)
        self.assertEqual(said["nodes"][0]["decoders"][0]["readings"], [
            {"committed": False, "text": "Linux released it"},
            {"committed": True, "text": "firmware set it, and Linux could not put its region together"}])

    def test_the_version_is_that_of_the_package(self):
        from cxlplan import __version__
        self.assertEqual(CAPTURE.VERSION, __version__)

    # ---- When, by what, and of which kernel; and what a copy takes along.

    def machine(self, *spoils):
        """The hardware of x2-hb as the machine itself."""
        host = self.host(*spoils, holding("proc/sys/kernel/osrelease", "6.12.95"))
        real = CAPTURE.Folder
        patch = mock.patch.object(CAPTURE, "Folder", lambda root: real(host if root == "/" else root))
        patch.start()
        self.addCleanup(patch.stop)
        return host

    def test_the_machine_itself_and_its_copy(self):
        self.machine()
        live, _, _ = self.captured([], 0)
        status, said, _ = self.capture(["--attributes"])
        self.assertEqual((status, said), (3, ""))
        copy = os.path.join(self.place, "live.tar.gz")
        self.assertEqual(run(["--copy", copy]), (0, ""))
        self.assertEqual([live[key] for key in ("from", "kernel", "read_by", "known")],
                         ["machine", "6.12.95", CAPTURE.TOOL, "read"])
        self.assertRegex(live["time"], "^20[0-9]{2}-[01][0-9]-[0-3][0-9]T[0-9:]{8}Z$")
        self.assertEqual([node["driver"] for node in live["nodes"]], ["cxl_port"] * 4)
        said, _, _ = self.told(removed(f"{HB16}/driver"), status=3)
        self.assertEqual({node["driver"] for node in said["nodes"]}, {None, "cxl_port"})
        made, _, _ = self.captured(["--from", copy], 0)
        self.assertEqual({**made, "from": "machine", "time": live["time"]}, live)
        with open(copy, "rb") as file:
            data = file.read()
        again = CAPTURE.copy_of(CAPTURE.Archive(copy))
        self.assertEqual(machines.items_of(again), machines.items_of(data))
        unpacked, _, _ = self.captured(["--registers", "--from", self.lay(machines.items_of(data))], 0)
        self.assertEqual(unpacked, made)

    def test_a_machine_that_lets_nothing_be_read(self):
        """Each node is told, a line says so, and the copy says why."""
        host = self.machine()
        os.rename(f"{host}/dev/mem", f"{host}/dev/gone")
        for folder in made_hosts.pci_devices(host).values():
            os.truncate(os.path.join(folder, "config"), 64)
        status, said, folder = self.capture([])
        self.assertEqual(run(["--copy", os.path.join(self.place, "closed.tar.gz")]), (0, ""))
        self.assertEqual(status, 3)
        self.assertIn("the registers of hb16, hb32, mem0, mem1 could not be read: /", said)
        sources = self.sources(folder)
        self.assertEqual({node["source"] for node in sources["nodes"]}, {"told"})
        self.assertIn("/dev/mem: no registers can be mapped at 0x100011000: No such file", sources["nodes"][0]["why"])
        copied, report, _ = self.captured(["--from", os.path.join(self.place, "closed.tar.gz")], 3)
        self.assertEqual([node["why"] for node in copied["nodes"]], [node["why"] for node in sources["nodes"]])
        self.assertIn("The registers of mem0 could not be read: ", report)

    def test_a_copy_that_anybody_made(self):
        """What it says of itself, and its blocks, may be anything."""
        copy = {"cxl-capture/copy.json": b"{}"}
        self.told(lambda items: items.update(copy), status=3)
        for more, wanted in [
            ({"cxl-capture/copy.json": b"{"}, "copy.json: Expecting property name"),
            ({"cxl-capture/copy.json": b"[" * 9999}, "copy.json: "),
            ({"cxl-capture/copy.json": None}, "cxl-capture/copy.json"),
        ]:
            file = self.save(machines.pack(self.tree(lambda items: items.update(more))))
            status, said, _ = self.capture(["--from", file])
            self.assertEqual((status, said.count("\n")), ((1, 1) if more["cxl-capture/copy.json"] else (3, 0)), said)
        for block in (b"", b"\x13", bytes(16), struct.pack("<I", 0x1b1d) + bytes(200), b"\x12" + bytes(200)):
            items = {**copy, "cxl-capture/blocks/endpoint3": block}
            said, _, _ = self.told(lambda items_of: items_of.update(items), status=3)
            self.assertEqual({node["source"] for node in said["nodes"]}, {"told"})
        odd = json.dumps({"kernel": "\u00fc\n" * 99, "time": 7, "read_by": ["x"], "unread": {"port2": 9, "port1": "\x1b[2J"}})
        said, report, _ = self.told(holding("cxl-capture/copy.json", odd), status=3)
        self.assertEqual((said["time"], said["read_by"], len(said["kernel"])), (None, None, 100))
        self.assertIn("The registers of hb32 could not be read: ?[2J.", report)

    # ---- What Linux does not know, or shows in no usual way.

    def test_a_bridge_that_linux_gave_up(self):
        """Firmware locked decoders of no bytes in it. In each form the status is 2; with registers they are what they are."""
        tree = machines.live_tree(machines.GIVEN_UP)
        folder = self.lay(tree)
        made_hosts.lay_image(machines.GIVEN_UP, folder)
        copy, listed, table = (machines.path_of(machines.GIVEN_UP, file) for file in ("copy.tar.gz", "cxl-list.json", "cedt"))
        for words in (["--from", copy], ["--from", self.lay(tree)], ["--list", listed, "--table", table]):
            said, report, nodes = self.captured(words, 2)
            self.assertEqual([[item["source"] for item in node["decoders"]] for node in said["nodes"]], [["unknown"]])
            self.assertIn("Each decoder of hb16 is not shown, though 1 of hb16 are counted as committed: Linux gave the port",
                          report)
            self.assertEqual([(item["what"], item["kernel"], item["matters"]) for item in said["left_out"]],
                             [("no-port", "mem0", True), ("no-port", "mem1", True)])
        for words in (["--from", folder], ["--from", folder, "--registers"]):
            said, _, nodes = self.captured(words, 2)  # since nothing was read of the devices below
            self.assertEqual([[item["source"] for item in node["decoders"]] for node in said["nodes"]], [["read"] * 4])
            self.assertEqual([words[4] for words in nodes["hb16"][1][1]], [0x1611, 0x1700, 0x1700, 0x1700])
            self.assertEqual({item["told"] for item in said["differences"]}, {None})

    def test_an_older_bridge_without_decoders(self):
        """Where Linux shows none, and counts none, it may be passthrough, or given up."""
        decoders = [removed(f"{DEVICES}/decoder{port}.{i}") for port in (2, 3) for i in range(4)]
        counts = [holding(f"{port}/decoders_committed", "0") for port in (HB16, ENDPOINT)]
        said, _, nodes = self.told(*decoders, *counts, removed(f"{HB16}/dport1"))
        self.assertEqual(([(node["node"], node["source"]) for node in said["nodes"]], said["known"]),
                         ([("hb16", "unknown"), ("hb32", "told"), ("mem1", "told")], "unknown"))
        self.assertTrue(nodes["hb16"][0]["passthrough"])

    def test_a_host_of_cxl_1_1_devices_alone(self):
        items = self.tree(*[removed(f"{DEVICES}/{name}") for name in ("port1", "port2", "endpoint4", "mem1")], *[
            removed(f"{DEVICES}/decoder{port}.{i}") for port in (1, 2, 4) for i in range(4)])
        below = f"{ROOT}/endpoint3"
        for path in [path for path in items if path.startswith(ENDPOINT)]:
            items[path.replace(ENDPOINT, below)] = items.pop(path)
        for path, target in ((f"{DEVICES}/endpoint3", f"../../../../{below}"), (f"{below}/parent_dport", f"../dport16"), (
                f"{below}/uport", "../" * below.count("/") + "../" + MEM0)):
            items[path] = target
        for i in range(4):
            items[f"{DEVICES}/decoder3.{i}"] = f"../../../../{below}/decoder3.{i}"
        said, report, nodes = self.captured(["--from", self.save(machines.pack(items))], 2)
        self.assertEqual((nodes, said["known"]), ({}, "told"))
        found = [(item["what"], item["kernel"]) for item in said["left_out"] if item["matters"]]
        self.assertEqual(found, [("cxl-1.1", "endpoint3")])
        self.assertIn("These files do not hold the whole host, which may use what was left out:\n- endpoint3 was left", report)

    def test_a_kernel_that_does_not_count_committed_decoders(self):
        """As 6.1: those of committed regions are, and one in none with a range is not known. It is never status 0."""
        counts = [removed(f"{port}/decoders_committed") for port in (HB16, HB16.replace("2", "1"), ENDPOINT)]
        plain, _, nodes = self.told(status=3)
        said, report, found = self.told(*counts, status=3)
        self.assertEqual((said, found), (plain, nodes))
        self.assertIn("- How many decoders of hb16 are committed is not told; those of committed regions are.", report)
        said, _, _ = self.told(*counts, holding(f"{ENDPOINT}/decoder3.1/size", "0x10000000"))
        self.assertEqual([item["kernel"] for node in said["nodes"] for item in node["decoders"] if item["source"] == "unknown"],
                         ["decoder3.1"])

    def test_one_odd_device_is_left_out(self):
        for spoil, why in [
            (removed(f"{MEM0}/serial"), "mem0 has no serial number."),
            (holding(f"{MEM0}/ram/size", "0x18000000"), "/ram/size: 0x18000000 is no multiple of 256 MiB."),
            (holding(f"{MEM0}/pmem/size", "268435457"), "/pmem/size: 0x10000001 is no multiple of 256 MiB."),
            (holding(f"{DECODER}/start", "0x110001000"), "decoder3.0/start: 0x110001000 is no multiple of 256 MiB."),
            (holding(f"{DECODER}/size", "0x20000100"), "decoder3.0/size: 0x20000100 is no multiple of 256 MiB."),
            (holding(f"{DECODER}/target_type", "cache"), "decoder3.0/target_type: 'cache' is none of accelerator, expander."),
        ]:
            with self.subTest(why):
                said, report, nodes = self.told(spoil)
                self.assertEqual([*nodes], ["hb16", "hb32", "mem1"])
                found = [(item["what"], item["kernel"], item["matters"]) for item in said["left_out"]]
                self.assertEqual(found, [("odd", "mem0", True)])
                self.assertIn(why, report.split("\n\n")[0])
        idle = holding(f"{ENDPOINT}/decoders_committed", "0")
        said, _, _ = self.told(removed(f"{MEM0}/serial"), idle, status=3)
        self.assertEqual([item["matters"] for item in said["left_out"]], [False], "nothing of it is committed")

    def test_by_registers_a_device_of_no_port_matters_where_it_decodes(self):
        for spoil, status in ((0x1612, 2), (0x1000, 0)):
            host = self.host(*[removed(f"{DEVICES}/{name}") for name in ("endpoint3", *[f"decoder3.{i}" for i in range(4)])])
            made_hosts.put_words(os.path.join(made_hosts.pci_devices(host)["0000:11:00.0"], "resource0"), BLOCK + 0x20, [spoil])
            said, _, _ = self.captured(["--from", host], status)
            self.assertEqual([(item["what"], item["kernel"], item["matters"]) for item in said["left_out"]],
                             [("no-port", "mem0", status == 2)])

    # ---- Hosts of today.

    def with_decoders(self, port, number, count, **last):
        """A port with so many decoders as attributes, of which the last one says more."""
        def spoil(items):
            for i in range(4, count):
                for name in ("start", "size", "interleave_ways", "interleave_granularity", "locked", "target_type", "target_list",
                             "dpa_resource", "dpa_size", "region"):
                    if f"{port}/decoder{number}.3/{name}" in items:
                        items[f"{port}/decoder{number}.{i}/{name}"] = items[f"{port}/decoder{number}.3/{name}"]
                items[f"{DEVICES}/decoder{number}.{i}"] = f"../../../../{port}/decoder{number}.{i}"
            for name, value in last.items():
                items[f"{port}/decoder{number}.{count - 1}/{name}"] = value.encode()
        return spoil

    def test_more_than_ten_decoders_as_attributes(self):
        for count in COUNT_CODES:
            said, report, nodes = self.told(self.with_decoders(HB16, 2, count), status=3)
            self.assertEqual((nodes["hb16"][0]["decoders"], nodes["hb16"][1][0][0] & 15), (10, 5))
            self.assertEqual(said["nodes"][0]["hardware_decoders"], count)
            self.assertIn(f"- hb16 has {count} decoders. These files have the first ten.\n", report)
        used = both(self.with_decoders(HB16, 2, 12, start="0x130000000", size="0x10000000", region="region0"),
                    holding(f"{HB16}/decoders_committed", "12"))
        said, report, nodes = self.told(used)
        self.assertEqual([(item["what"], item["node"], item["decoder"], item["kernel"]) for item in said["outside"]][-1:],
                         [("decoders", "hb16", 11, "decoder2.11")])
        self.assertIn("- decoder2.11 of hb16 is committed, and is above the tenth.\n", report)

    def test_more_than_ten_decoders_in_registers(self):
        """In a device and in a bridge, of each code; and one committed above the tenth."""
        for count, code in COUNT_CODES.items():
            for top, status in ((0x1000, 0), (0x1600, 2)):
                host = self.host()
                device = os.path.join(made_hosts.pci_devices(host)["0000:11:00.0"], "resource0")
                memory = os.path.join(host, "dev", "mem")
                for file, at, capability in ((device, 0, 0x1b10 | code), (memory, 0x100010000, 0x380 | code)):
                    made_hosts.put_words(file, at + BLOCK, [capability])
                    made_hosts.put_words(file, at + BLOCK + 16 + 32 * 4, [0, 0, 0, 0, 0x1000, 0, 0, 0] * (count - 4))
                    made_hosts.put_words(file, at + BLOCK + 16 + 32 * (count - 1), [0, 2, 1 << 28, 0, top, 0, 0, 0])
                said, report, nodes = self.captured(["--from", host], status)
                self.assertEqual([nodes[name][0]["decoders"] for name in ("hb16", "mem0", "mem1")], [10, 10, 4])
                self.assertEqual([nodes[name][1][0][0] & 15 for name in ("hb16", "mem0")], [5, 5])
                self.assertEqual([(item["node"], item["decoder"]) for item in said["outside"] if item["what"] == "decoders"],
                                 [("hb16", count - 1), ("mem0", count - 1)] if status else [])
                self.assertEqual(nodes["mem0"][1][1][0][4], 0x1612, "the first ten are those of the hardware")

    def test_empty_decoders_are_left_out_before_the_tenth_is_counted(self):
        host = self.host()
        made_hosts.put_words(os.path.join(host, "dev", "mem"), 0x100010000 + BLOCK, [0x386])
        made_hosts.put_words(os.path.join(host, "dev", "mem"), 0x100010000 + BLOCK + 48, [0, 0, 0, 0, 0x1700, 0, 0, 0] * 11)
        said, _, _ = self.captured(["--from", host], 2)
        self.assertEqual([item["decoder"] for item in said["outside"]], [10, 11])
        said, _, nodes = self.captured(["--leave-empty", "--from", host], 0)
        self.assertEqual(([item["what"] for item in said["left_out"]], len(nodes["hb16"][1][1])), (["empty-decoder"] * 11, 1))

    def test_a_list_with_more_than_ten_decoders(self):
        def change(item):
            if item.get("port") == "port2":
                item["decoders:port2"] += [{**item["decoders:port2"][3], "decoder": f"decoder2.{i}"} for i in range(4, 12)]
        said, _, nodes = self.listed(change, 3)
        self.assertEqual((nodes["hb16"][0]["decoders"], said["nodes"][0]["hardware_decoders"]), (10, 12))

    def test_what_else_is_outside_the_profile(self):
        second = self.second(ENDPOINT, "decoder3.1", region="region0", start="0x130000000", size="0x10000000",
                             dpa_resource="0x20000000", dpa_size="0x10000000")
        table = bytearray(machines.data_of("x2-hb", "cedt"))
        hole = bytearray(table)
        at = CAPTURE.windows_of(bytes(table))[0].at
        struct.pack_into("<QQ", hole, at + 8, 0, 3 << 28)
        hole[9] = (hole[9] - sum(hole)) % 256
        low = both(holding(machines.TABLE, bytes(hole)), *[
            holding(f"{place}/{name}", value) for place in (DECODER, f"{HB16}/decoder2.0") for name, value in (
                ("start", "0x0"), ("size", "0x40000000"), ("dpa_size", "0x20000000"))],
            holding(f"{MEM0}/pmem/size", str(1 << 29)))
        for what, spoil, name, words in [
            ("dynamic-capacity", second, "decoder3.1", "holds device memory from 0x20000000, behind ram and pmem"),
            ("translated-addresses", holding(f"{DECODER}/start", "0x0"), "decoder3.0", "which is in no window, though Linux"),
            ("accelerator", holding(f"{DECODER}/target_type", "accelerator"), "decoder3.0", "is one of an accelerator (type 2)"),
            ("low-memory-hole", low, "decoder3.0", "has a range beyond its window's end, as where there is a low-memory"),
        ]:
            with self.subTest(what):
                said, report, _ = self.told(spoil)
                self.assertIn((what, "mem0", name), [(item["what"], item["node"], item["kernel"]) for item in said["outside"]])
                self.assertIn(words, report.split("\n\n")[0])
                self.assertTrue(report.startswith("This host is outside the profile of cxlplan"))

    def table_with(self, code):
        """The table of x2-hb with a second window, of this code of ways."""
        table = machines.data_of("x2-hb", "cedt")
        window = CAPTURE.windows_of(table)[0]
        record = bytearray(table[window.at:window.end])
        struct.pack_into("<QQB", record, 8, 0x800000000, 1 << 32, code)
        made = bytearray(table + record + table[window.at:window.end])
        struct.pack_into("<Q", made, len(made) - (window.end - window.at) + 8, 0x900000000)
        struct.pack_into("<I", made, 4, len(made))
        made[9] = (made[9] - sum(made)) % 256
        return bytes(made)

    def test_a_window_with_a_reserved_code_of_ways(self):
        for code in (5, 6, 7, 11, 255):
            table = self.table_with(code)
            said, report, _ = self.told(holding(machines.TABLE, table))
            found = [(item["what"], item["window"], item["node"]) for item in said["outside"]]
            self.assertEqual(found, [("window-ways", 1, None)])
            self.assertIn(f"Window 1 of the table, at its byte {len(CEDT):#x}, has the reserved code {code} of ways. cxlplan "
                          "refuses such a table, and Linux passes the window over. --leave-windows makes a table without it.",
                          report)
            status, _, folder = self.capture(["--leave-windows", "--from", self.save(machines.pack(self.tree(
                holding(machines.TABLE, table))))])
            with open(os.path.join(folder, "table.cedt"), "rb") as file:
                left = file.read()
            self.assertEqual((status, [window.base for window in CAPTURE.windows_of(left)]), (3, [0x110000000, 0x900000000]))
            self.assertEqual((left, sum(left) % 256), (CAPTURE.table_of("", left), 0))
            self.assertEqual([(item["what"], item["matters"]) for item in self.sources(folder)["left_out"]], [("window", False)])

    @asks_the_program
    def test_what_the_program_says_of_such_a_table(self):
        table = self.save(self.table_with(5))
        self.assertEqual(cxlplan("list", table)[0], 3)
        left = self.save(CAPTURE.table_without(self.table_with(5), CAPTURE.windows_of(self.table_with(5))[1:2]))
        self.assertEqual(cxlplan("list", left)[0], 0)


CEDT = machines.data_of("x2-hb", "cedt")

if __name__ == "__main__":
    unittest.main()
