"""The objects of the package: hosts, what is asked of them, and errors."""

import ast
import os
import subprocess
import sys
import unittest

from here import FOUR, LOST, PYTHON, Case, asks_the_engine, machines, said, worked_hosts
from cxlplan._by_program import NO_LIBRARY
from cxlplan.explain import verdict_words
from cxlplan import (BadFile, BadImage, BadTable, BadTopology, Breach, Host, NoEngine, Refusal, Table, _engine, texts)
import told


class Texts(unittest.TestCase):
    """What the library's read-only calls tell."""

    TREE = """\
frames 65536
node 0 hb16 bridge uid 16 cap 0x382 decoders 4 targets 8 low 1 high 1 ways3 0 ways16 0 passthrough 0
node 1 p1 switch parent hb16 port 3 cap 0x10 decoders 1 targets 1 low 0 high 0 ways3 0 ways16 0 passthrough 1
node 2 e0 endpoint ram 0x0 pmem 0x10000000 parent p1 port 0 cap 0x1b02 decoders 4 targets 0 low 1 high 1 ways3 1 ways16 1 passthrough 0
"""
    DECODERS = """\
block 0 hb16 cap 0x382 control 0x0
decoder hb16 0 base 0x110000000 size 0x40000000 ways 2 gran 512 codes 1 1 lock 0 commit 1 committed 1 error 0 host-only 1 \
targets 0,1 words 10000000 00000001 40000000 00000000 00001611 00000100 00000000 00000000
block 2 e0 cap 0x1b02 control 0x2
decoder e0 0 base 0x0 size 0x0 ways 1 gran 131072 codes 15 9 lock 0 commit 0 committed 0 error 0 host-only 0 skip 0x10000000 \
words 00000000 00000000 00000000 00000000 000000f9 10000000 00000000 00000000
"""

    def test_tree(self):
        bridge, switch, end = texts.tree(self.TREE)
        self.assertEqual((bridge.kind, bridge.name, bridge.uid, bridge.parent, bridge.targets, bridge.ways3), ("bridge", "hb16", 16, None, 8, None))
        self.assertEqual((switch.passthrough, switch.parent, switch.port, switch.decoders, switch.low), (True, "hb16", 3, 1, False))
        self.assertEqual((end.ram, end.pmem, end.targets, end.ways16), (0, 0x10000000, None, True))

    def test_decoders(self):
        port, end = texts.decoders(self.DECODERS)
        self.assertEqual((port.node, port.base, port.ways, port.gran, port.targets, port.skip, port.committed), ("hb16", 0x110000000, 2, 512, (0, 1), None, True))
        self.assertEqual((end.ways, end.gran, end.targets, end.skip, end.words[4]), (None, None, None, 0x10000000, 0xf9))
        self.assertEqual(port.as_dict()["words"][4], 0x1611)

    WINDOWS = """\
window 0 base 0x100000000 size 0x20000000 ways 2 gran 256 xor 1 restrict 0x6 qtg 3 targets 1,2 verdict usable
window 1 base 0x0 size 0x0 ways 1 gran 512 xor 0 restrict 0x0 qtg 0 targets 7 verdict target 7 no-cxl2
window 2 base 0x0 size 0x0 ways 4 gran 512 xor 1 restrict 0x0 qtg 0 targets 1,2,3,4 verdict maps few 1 2
window 3 base 0x0 size 0x0 ways 1 gran 512 xor 0 restrict 0x0 qtg 0 targets 1 verdict overlap 0
"""

    def test_windows(self):
        first, *others = texts.windows(self.WINDOWS)
        self.assertEqual((first.number, first.base, first.size, first.ways, first.gran, first.arithmetic, first.restrict, first.qtg,
                          first.targets, first.verdict, first.cause), (0, 1 << 32, 1 << 29, 2, 256, "xor", 6, 3, (1, 2), "usable", ""))
        self.assertEqual([(it.verdict, it.cause, verdict_words(it)) for it in others], [
            ("target 7", "no-cxl2", "the target 7 is no bridge of CXL 2.0"),
            ("maps", "few 1 2", "the CXIMS of 512 bytes has 1 maps, and 4 ways need 2"),
            ("overlap 0", "", "it shares an address with window 0")])

    def test_refusals(self):
        refused = texts.refusal("refused no-window\nwindow 0 bridges\nwindow 1 no-base 0x1 0x2\n")
        self.assertEqual((refused.cause, refused.status, [it.as_dict() for it in refused.reasons]), ("no-window", 8, [
            {"window": 0, "cause": "bridges", "place": ""}, {"window": 1, "cause": "no-base", "place": "0x1 0x2"}]))
        for text, cause, place in (("refused span e0 no-room 0x1 0x2", "span", "e0 no-room 0x1 0x2"), ("not last hb0 0", "not last", "hb0 0"),
                                   ("no such endpoint e9", "no such endpoint", "e9"), ("bad line 7 name", "bad line name", "7"),
                                   ("poison count 2 1", "poison count", "2 1"), ("unmapped", "unmapped", "")):
            self.assertEqual((texts.refusal(text + "\n").cause, texts.refusal(text + "\n").place), (cause, place))
        for text in ("poison e0 records 1", "created r0 window 0 base 0x0 size 0x0 gran 256 ways 1", "bytes 00", "stepped 1 of 2"):
            self.assertFalse(texts.is_refusal(text))


@asks_the_engine
class Hosts(Case):
    def test_check(self):
        host = Host.from_files(*FOUR)
        self.assertEqual([(it.name, it.base, it.size, it.ways, it.kind) for it in host.check()], [("auto0", 0x110000000, 0x40000000, 4, "pmem")])
        self.assertEqual([slot.endpoint for slot in host.regions[0].slots], ["d1", "d2", "d3", "d4"])
        with self.assertRaises(Breach) as raised:
            Host.from_files(*LOST).check()
        self.assertEqual((raised.exception.rule, raised.exception.node, raised.exception.decoder, raised.exception.status), ("K12", "d4", 0, 8))

    def test_addresses(self):
        host = Host.from_files(*FOUR)
        way = host.where(0x110000100)
        self.assertEqual((way.endpoint, way.dpa, way.slot, way.via[0].node), ("d2", 0, 1, "hb32"))
        self.assertEqual(host.host_of("d2", 0).hpa, 0x110000100)
        self.assertRaises(Refusal, host.where, 0)
        self.assertRaises(Refusal, host.host_of, "hb16", 0)

    def test_table(self):
        table = Table(Host.from_files(*FOUR).table.data)
        self.assertEqual((table.route(0x110000100).bridge, table.windows[0].targets, table.normal()), (32, (16, 32), table.data))
        self.assertRaises(Refusal, table.route, 0)

    def test_session(self):
        """A session answers line by line, also where a line's own answer is that of the line by which its end is found."""
        with Host.from_files(*FOUR[:2]).session() as session:
            self.assertEqual(session.create("r0", "pmem", 0x20000000, "d1", "d2").ways, 2)
            session.store(0x1100000fe, b"\1\2\3\4")
            self.assertEqual(session.load(0x1100000fe, 4), b"\1\2\3\4")
            self.assertEqual([session.act(line) for line in ("", " # step", "step", "show", "step 1")],
                             ["", "", "bad line 4 missing\n", "bad line 4 missing\n", "nothing pending\n"])
            self.assertEqual([it.length for it in session.extents(0x1100000fe, 4)], [2, 2])
            self.assertEqual([it.bytes for it in session.spread(0x110000000, 0x300)], [512, 256])
            self.assertEqual(session.would("create r0 pmem 0x20000000 d3 d4").cause, "name taken")
            self.assertIsNone(session.would("create r1 pmem 0x20000000 d3 d4"))
            session.destroy("r0")
            self.assertEqual(session.act("a" * 4097).split()[-1], "long")
        self.assertRaises(Breach, Host.from_files(*LOST).session)

    def test_reset(self):
        """A host without an image is as after reset."""
        host = Host.from_files(*FOUR[:2])
        self.assertEqual((host.check(), host.decoders, host.breaches, host.breach), ([], [], [], None))
        self.assertEqual([it.endpoint for it in host.pick("pmem", 0x40000000, 4).region.slots], ["d1", "d2", "d3", "d4"])

    def test_faults(self):
        """Each fault has its class, status, cause and place."""
        host = Host.from_files(*FOUR)
        table, topology, image = host.table.data, host.topology.data, host.image.data
        for kind, status, cause, place, files in (
                (BadTable, 3, "length", "", (table[:-1], topology, image)), (BadTable, 3, "signature", "", (topology, topology, image)),
                (BadTopology, 4, "toml", "", (table, b"[[", image)),
                (BadTopology, 4, "key", "bridge 0 unknown", (table, b'[[bridge]]\nname = "a"\nuid = 1\nx = 1', image)),
                (BadImage, 10, "cut", "3", (table, topology, image[:3])), (BadImage, 10, "trailing", str(len(image)), (table, topology, image + b"x"))):
            with self.subTest(cause), self.assertRaises(kind) as raised:
                Host(*files).check()
            fault = raised.exception
            self.assertEqual((fault.status, fault.cause, fault.place), (status, cause, place))
        self.assertRaises(BadFile, Host.from_folder, self.path("none"))
        self.assertRaises(BadFile, Host.from_folder, self.place)
        self.assertRaises(BadFile, Host.from_files, "-", "-")

    def test_worked(self):
        """Each worked host: what is told of its image agrees with the words that it was made of, and its regions' decoders with `show`."""
        count = 0
        for host in worked_hosts():
            self.assertEqual([it.words for it in host.decoders],
                             [tuple(block[at:at + 7]) for block in told.words_of(host.nodes, host.registers) for at in range(4, len(block), 8)])
            if host.breach is None and host.regions:
                count += 1
                with host.session() as session:
                    for region in host.regions:
                        shown, rows = session.show(region.name)
                        self.assertEqual(shown, region)
                        decoders = {(it.node, it.number): it for it in host.decoders}
                        self.assertEqual([decoders[row.node, row.decoder].words for row in rows], [row.words for row in rows])
        self.assertGreater(count, 10)


class Engines(Case):
    def test_read_only_calls(self):
        """A library that has read-only calls is asked by them; a fault of one is raised."""
        from cxlplan._by_library import LibraryEngine

        class Library:
            """As the module over such a library."""
            tree = staticmethod(lambda topo: (0, Texts.TREE.encode()))
            decoders = staticmethod(lambda topo, image: (0, Texts.DECODERS.encode()) if image else (10, b"error: image cut 0\n"))
            windows = staticmethod(lambda cedt, topo: (0, Texts.WINDOWS.encode()))
            breaches = staticmethod(lambda cedt, topo, image: (8, b"breach K12 d4 0\nbreach K12 d5 0\n"))
        found = LibraryEngine(Library)
        self.assertEqual([it.name for it in found.tree(b"", b"")], ["hb16", "p1", "e0"])
        self.assertEqual([it.node for it in found.decoders(b"", b"", b"x")], ["hb16", "e0"])
        self.assertEqual([it.number for it in found.windows(b"", b"")], [0, 1, 2, 3])
        self.assertEqual([it.node for it in found.breaches(b"", b"", b"")], ["d4", "d5"])
        self.assertRaises(BadImage, found.decoders, b"", b"", b"")
        self.assertRaises(NoEngine, found.session, b"", b"", None)

    def test_none(self):
        """Where neither is found, one line says how to get it."""
        environment = {**os.environ, "CXLPLAN": "/none", "CXLPLAN_LIBRARY": "/none", "PATH": "/none"}
        ran = subprocess.run([sys.executable, os.path.join(PYTHON, "cxldesk"), "check", *FOUR], env=environment, capture_output=True,
                             text=True, check=False)
        self.assertEqual((ran.returncode, ran.stdout, ran.stderr), (1, "", f"cxldesk: {_engine.HOW}\n"))

    @asks_the_engine
    def test_without_the_library(self):
        """What the program answers alone is answered by it; of what the library tells one line says how to get it."""
        def told_by_program(*words):
            environment = {**os.environ, "CXLPLAN_LIBRARY": "/none"}
            ran = subprocess.run([sys.executable, os.path.join(PYTHON, "cxldesk"), *words], env=environment, capture_output=True, text=True,
                                 check=False)
            return ran.returncode, ran.stdout.splitlines(), ran.stderr
        self.assertEqual(told_by_program("check", *FOUR)[:2], (0, said("check", *FOUR)[1].splitlines()))
        status, lines, _ = told_by_program("check", *LOST)
        self.assertEqual((status, lines[0], lines[4]), (8, "breach K12 d4 0", f"At decoder 0 of d4: {NO_LIBRARY}."))
        self.assertEqual(told_by_program("where", *FOUR, "0x110000100")[1], said("where", *FOUR, "0x110000100")[1].splitlines())
        status, lines, _ = told_by_program("plan", "--reset", *FOUR[:2], "r0 pmem 0x40000000 ways=4")
        self.assertEqual((status, lines[0][:9], lines[-1][:12]), (0, "region r0", "Its decoders"))
        status, lines, _ = told_by_program("plan", "--reset", *FOUR[:2], "r0 pmem 0x20000000 d1 d3")
        self.assertEqual((status, lines[0], lines[-1]), (8, "refused no-window", "window 0: its targets are not exactly the bridges of the "
                                                         "endpoints. To do: name endpoints below exactly its targets."))
        for words in (("show", *FOUR), ("room", *FOUR), ("report", *FOUR, self.path("page")), ("diff", *FOUR, *LOST),
                      ("plan", "--reset", *FOUR[:2], "r0 pmem 0x40000000 ways=4", "--linux")):
            with self.subTest(words[0]):
                self.assertEqual(told_by_program(*words), (1, [], f"cxldesk: {NO_LIBRARY}\n"))

    def test_python_3_9_alone(self):
        """The package is of Python 3.9, and imports nothing but the standard library."""
        files = [os.path.join(place, name) for place, _, names in os.walk(os.path.join(PYTHON, "cxlplan")) for name in names]
        files += [os.path.join(PYTHON, "cxldesk"), *(os.path.join(machines.TOOLS, it) for it in ("cxl-regions", "cxl-picture"))]
        for name in [it for it in files if not it.endswith((".json", ".pyc"))]:
            with open(name, encoding="utf-8") as file:
                tree = ast.parse(file.read(), feature_version=(3, 9))
            imported = [it.name for node in ast.walk(tree) if isinstance(node, ast.Import) for it in node.names]
            imported += [node.module for node in ast.walk(tree) if isinstance(node, ast.ImportFrom) and not node.level]
            known = getattr(sys, "stdlib_module_names", [it.split(".")[0] for it in imported])
            self.assertEqual([it for it in imported if it.split(".")[0] not in (*known, "cxlplan")], [], name)

    def test_named(self):
        self.assertTrue(issubclass(NoEngine, Exception))
        self.assertEqual(_engine.places("a", "NO_SUCH_VARIABLE", ["x", "y"]), ["x/a", "y/a"])


@asks_the_engine
class Machines(Case):
    def test_captured(self):
        """Each captured machine: its regions are those of `cxl list`, and each slot's first byte goes there and back."""
        for machine in machines.MACHINES:
            host = Host.from_folder(self.captured(machine))
            with self.subTest(machine), host.session() as session:
                self.assertEqual([(it.base, it.size, it.ways, it.kind) for it in host.check()],
                                 [(it["base"], it["size"], it["ways"], it["kind"]) for it in machines.listed_regions(machine)])
                for region in host.regions:
                    for slot in region.slots:
                        back = session.up(slot.endpoint, slot.start)
                        way = session.down(back.hpa)
                        self.assertEqual((way.endpoint, way.dpa, way.slot, way.region), (slot.endpoint, slot.start, slot.number, region.name))


if __name__ == "__main__":
    unittest.main()
