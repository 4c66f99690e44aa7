"""Plans on registers as they are: their register writes word for word, their line for Linux, their images; and what is free."""

import contextlib
import io
import json
import re
import struct
import unittest

from here import BENCH, FOUR, Case, asks_the_engine, machines, peer, said, worked, worked_hosts
from cxlplan import Host, Refusal, regions, texts
from cxlplan._engine import engine
from cxlplan.editing import reset_image
from cxlplan.incoming import in_bytes
from cxlplan.planning import image_with
from cxlplan.room import table_with
from pipe_session import PipeSession

WAYS = (1, 2, 3, 4, 6, 8, 12, 16)


def lines_of(ways):
    return [f"create r0 {kind} {count << 28:#x} ways={count}" for count in ways for kind in ("ram", "pmem")]


def takes(host):
    """Each line of a picked region that a host takes."""
    with host.session() as session:
        return [line for line in lines_of(WAYS) if session.would(line) is None]


def written(text, name):
    """The node, the offset and the value of each write in a text of `--words`: of each part that begins with the region's name."""
    parts, node = [], ""
    for row in text.splitlines():
        if row.startswith(f"# {name}: "):
            parts.append([])
        elif row.startswith("  0x"):
            parts[-1].append((node, *(int(word, 16) for word in row.split()[:2])))
        elif row and not row.startswith("#"):
            node = row.split(",")[0].split()[-1]
    return parts


class Beside(Case):
    """Beside what a peer works out of the same replies, which is written by other hands over the same rules."""

    def beside(self, ask, host, line):
        """What the peer says of the session's own `show`."""
        with host.session() as session:
            session.ask(line)
            reply = self.file("reply", session.act("show r0"))
        return ask(self.file("cedt", host.table.data), self.file("toml", host.topology.data), reply)

    def hosts(self):
        """Captured machines and worked hosts, of those that are sound."""
        found = [Host.from_folder(self.captured(machine)) for machine in machines.MACHINES + machines.NEWER]
        return [host for host in found + list(worked_hosts()) if host.breach is None]


@asks_the_engine
class Writes(Beside):
    def test_words(self):
        """The writes of each plan on each worked host: those of the peer, node by node and word by word; what takes it down leaves the
        registers as they were."""
        count = 0
        for host in self.hosts():
            for line in takes(host):
                with self.subTest(host.name, line=line):
                    found = host.plan(line, with_writes=True)
                    text = self.beside(peer.words, host, line)
                    wanted = {}
                    for part in text.split("\n\n")[1:]:
                        name = part.split(",")[0].split()[-1]
                        wanted[name] = [tuple(int(word, 16) for word in row.split()[:2]) for row in part.splitlines()[1:]]
                    writes = {}
                    for write in found.writes:
                        writes.setdefault(write.node, []).append((write.offset, write.value))
                    self.assertEqual({name: sorted(pairs) for name, pairs in writes.items()},
                                     {name: sorted(pairs) for name, pairs in wanted.items()})
                    self.assertEqual([pairs[-1] for pairs in writes.values()], [wanted[name][-1] for name in writes])
                    self.assertEqual({it.node for it in found.undo}, set(writes))
                    self.assertEqual(self.told(host, line), [(it.node, it.offset, it.value) for it in found.writes])
                    count += 1
        self.assertGreater(count, 30)

    def told(self, host, line):
        """What `cxl-regions --words` tells of the session's `show`."""
        def asked(*names):
            out = io.StringIO()
            with contextlib.redirect_stdout(out):
                self.assertEqual(regions.main(["--words", *names]), 0)
            return out.getvalue()

        return written(self.beside(asked, host, line), "r0")[0]

    def sent(self, host, *lines):
        """What cxlbench sends for each of these lines."""
        with contextlib.closing(PipeSession(BENCH, host.table.data, host.topology.data, host.registers, host.nodes)) as session:
            return [[(it.node, it.offset, it.value) for it in session.writes] for line in lines if session.act(line) is not None]

    @unittest.skipUnless(BENCH, "cxlbench is not built")
    def test_by_pipe(self):
        """On each host `--words` tells what a session sends over the pipe of cxlbench, word for word."""
        for number, host in enumerate(self.hosts()):
            folder = self.folder(f"host{number}", host)
            for line in takes(host):
                with self.subTest(host.name, line=line):
                    status, text, _ = said("plan", folder, line, "--words")
                    self.assertEqual((status, written(text, "r0")), (0, self.sent(host, line, "destroy r0")))
            for name in [f"auto{at}" for at in range(len(host.regions))]:
                with self.subTest(host.name, name=name):
                    status, text, _ = said("plan", folder, f"destroy {name}", "--words")
                    if status == 0:
                        self.assertEqual(written(text, name)[0], self.sent(host, f"destroy {name}")[0])

    def test_texts(self):
        """The three forms of the writes."""
        words = ["plan", "--reset", *FOUR[:2], "r0 pmem 0x20000000 d1 d2"]
        _, text, _ = said(*words, "--words")
        self.assertIn("r0: 34 writes of 32 bits make it.", text)
        self.assertIn("endpoint d2, below port 0 of hb32, decoder 0\n  0x0010  0x10000000  base low\n", text)
        _, rows, _ = said(*words, "--csv")
        self.assertEqual(rows.count("\n"), 35)
        _, code, _ = said(*words, "--c")
        self.assertEqual([row.split(",")[0] for row in rows.splitlines()[1:]], re.findall('"(.*)"', code)[:34])
        self.assertIn("static const struct cxl_write r0_create[34] = {", code)
        self.assertIn("static const struct cxl_write r0_destroy[4] = {", code)

    def test_release(self):
        """A release that is tried: its writes, and those that take all but the last back."""
        folder = self.captured("x4-pass-switch")
        _, text, _ = said("plan", folder, "destroy auto0", "--csv")
        self.assertEqual(len(text.splitlines()), 7)
        self.assertTrue(all(int(row.split(",")[2], 16) & 0x200 == 0 for row in text.splitlines()[1:]))
        _, text, _ = said("plan", folder, "destroy auto0", "--words")
        self.assertIn("auto0: 6 writes take it down.", text)


class Registers:
    """A machine's registers as after reset, which keep what is written, and commit what is asked of them."""

    def __init__(self, host):
        image = bytearray(reset_image(host))
        self.nodes, self.at, at = {node.name: node for node in host.nodes}, {}, 12
        for node in host.nodes:
            self.at[node.name] = at
            struct.pack_into("<I", image, at + 4, 0)  # nothing decodes yet
            at += 16 + 32 * node.decoders
        self.host, self.image = host, image

    def write(self, node, offset, value, reads):
        if offset >= 0x10 and offset % 0x20 == 0:
            value = value | 1 << 10 if value >> 9 & 1 else value
            assert reads in (value, None) if value >> 9 & 1 else not reads, (node, hex(offset), hex(value), reads)
        struct.pack_into("<I", self.image, self.at[node] + offset, value)

    def judged(self):
        return Host(self.host.table.data, self.host.topology.data, bytes(self.image))


def in_words(text, name):
    """The lists of a text of `--words`: node, offset, value and what is read."""
    reads = {(row.split()[0], row.split()[1]): int(row.split("reads ")[1].split()[0], 16) for row in text.splitlines() if "reads 0x" in row}
    return [[(node, offset, value, reads.get((f"{offset:#06x}", f"{value:#010x}"))) for node, offset, value in part] for part in written(text, name)]


def in_csv(text):
    return [(node, int(offset, 16), int(value, 16), int(reads, 16) if reads else None)
            for node, offset, value, reads in (row.split(",") for row in text.splitlines()[1:])]


def in_c(text):
    """The lists of a text of `--c`, by their names."""
    found = {}
    for row in text.splitlines():
        if row.startswith("static const struct cxl_write "):
            rows = found[row.split()[4].split("[")[0]] = []
        elif row.startswith("\t{"):
            node, *numbers = row.strip("\t{ },").split(", ")
            rows.append((node.strip('"'), *(int(number, 16) for number in numbers)))
    return found


@asks_the_engine
class Applied(Beside):
    """Each form's writes, put into registers as they are after reset, make the region that was planned, and take it down."""

    def test_each_form(self):
        count = 0
        for host in self.hosts():
            folder, idle = self.folder(host.name.replace("/", "_"), host), Host(host.table.data, host.topology.data)
            for line in takes(idle):
                with self.subTest(host.name, line=line):
                    words, rows, code = (said("plan", "--reset", folder, line, form)[1] for form in ("--words", "--csv", "--c"))
                    make, end = in_words(words, "r0")
                    lists = in_c(code)
                    self.assertEqual(list(lists), ["r0_create", "r0_destroy"])
                    for form in (make, in_csv(rows), lists["r0_create"]):
                        self.applied(idle, line, form, end)
                    for node, offset, value, reads in lists["r0_destroy"]:
                        self.assertIn((node, offset, value, reads or None), end)
                    count += 1
        self.assertGreater(count, 60)

    def applied(self, idle, line, make, end):
        registers = Registers(idle)
        for row in make:
            registers.write(*row)
        found, wanted = registers.judged().check(), idle.plan(line).region
        self.assertEqual([(it.base, it.size, it.slots, it.kind) for it in found], [(wanted.base, wanted.size, wanted.slots, wanted.kind)])
        for row in end:
            registers.write(*row)
        self.assertEqual(registers.judged().check(), [])

    def test_endpoints_decode(self):
        """Without the writes that let endpoints decode nothing is sound; endpoints that decode already are not written."""
        host = Host.from_files(*FOUR[:2])
        registers = Registers(host)
        for row in in_csv(said("plan", "--reset", *FOUR[:2], "r0 pmem 1G ways=4", "--csv")[1]):
            if row[1] != 4:
                registers.write(*row)
        self.assertEqual(registers.judged().breach.rule, "K2")
        self.assertEqual([it[1] for it in in_csv(said("plan", "--reset", *FOUR[:2], "r0 pmem 1G ways=4", "--csv")[1])[:5]], [4] * 4 + [0x10])
        folder = self.captured("x2-hb")
        taken = [line for line in takes(Host.from_folder(folder))]
        for line in taken:
            self.assertNotIn("global control", said("plan", folder, line, "--words")[1])

    def test_release(self):
        """A release's lists: its writes, and those that take all but the last back."""
        folder = self.captured("x4-pass-switch")
        host, code = Host.from_folder(folder), in_c(said("plan", folder, "destroy auto0", "--c")[1])
        self.assertEqual(list(code), ["auto0_destroy", "auto0_undo"])
        registers = Registers(host)
        registers.image[:] = host.registers
        for row in code["auto0_destroy"][:-1] + code["auto0_undo"]:
            registers.write(*row)
        self.assertEqual(bytes(registers.image), host.registers)
        for row in code["auto0_destroy"]:
            registers.write(*row)
        self.assertEqual(registers.judged().check(), [])

    def test_json(self):
        """Lists of writes stand there where they were asked for."""
        words = ["plan", "--reset", *FOUR[:2], "r0 pmem 1G ways=4", "--json"]
        self.assertEqual(sorted(json.loads(said(*words)[1])["plan"]), ["decoders", "region"])
        found = json.loads(said(*words, "--words")[1])["plan"]
        self.assertEqual((len(found["enables"]), len(found["undo"]), sum(it["reads"] is not None for it in found["writes"])), (4, 6, 6))

    def test_names(self):
        """Constants of C have names of C."""
        for name, constant in (("0x", "region_0x_create"), ("_a", "region__a_create"), ("int", "int_create")):
            self.assertEqual(list(in_c(said("plan", "--reset", *FOUR[:2], f"{name} pmem 1G ways=4", "--c")[1]))[0], constant)


@asks_the_engine
class Plans(Beside):
    def test_linux(self):
        """The line for Linux is the peer's, on each host and for each number of ways."""
        taken = set()
        for host in self.hosts():
            folder = self.folder(f"host-{len(taken)}-{host.name}".replace("/", "_"), host)
            for line in takes(host):
                taken.add(line.split("=")[1])
                with self.subTest(host.name, line=line):
                    self.assertEqual(said("plan", folder, line, "--linux"), (0, self.beside(peer.commands, host, line), ""))
        self.assertGreater(len(taken), 3)

    def test_images(self):
        """The image with a planned region is sound, and has it beside those that were there."""
        for host in self.hosts():
            for line in takes(host)[:3]:
                with self.subTest(host.name, line=line):
                    made = Host(host.table.data, host.topology.data, image_with(host, line))
                    region = host.plan(line).region
                    self.assertEqual(sorted([it.base for it in host.regions] + [region.base]), [it.base for it in made.regions])
                    self.assertIn((region.base, region.size, region.slots), [(it.base, it.size, it.slots) for it in made.regions])

    def test_plan_form(self):
        """On registers after reset the plan is that of the program's form `plan`."""
        host = Host.from_files(*FOUR[:2])
        status, text = engine().plan(host.table.data, host.topology.data, "create r0 pmem 0x40000000 d1 d2 d3 d4")
        self.assertEqual(status, 0)
        rows = [line.split() for line in text.decode().splitlines()[1:]]
        self.assertEqual([(row[1], int(row[2]), int(row[4]), int(row[6])) for row in rows],
                         [(it.node, it.number, it.ways, it.gran) for it in host.plan("r0 pmem 0x40000000 d1 d2 d3 d4").decoders])

    def test_image_file(self):
        host, made = self.captured("x2-hb"), self.path("made")
        self.assertEqual(said("plan", "--reset", host, "r0 pmem 0x20000000 ways=2", "--image", made), (0, "", ""))
        self.assertIn("region auto0 pmem", said("check", f"{host}/table.cedt", f"{host}/topo.toml", made)[1])
        self.assertEqual(said("plan", "--reset", host, "r0 pmem 0x20000000 ways=2", "--image", made), (1, "", f"cxldesk: {made}: there already\n"))
        self.assertEqual(said("plan", "--reset", host, "r0 pmem 0x20000000 ways=2", "--image", self.place), (
            1, "", f"cxldesk: {self.place}: is a folder\n"))
        none = self.path("none/made")
        self.assertEqual(said("plan", "--reset", host, "r0 pmem 0x20000000 ways=2", "--image", none), (
            1, "", f"cxldesk: {none}: there is no folder {self.path('none')}\n"))


@asks_the_engine
class Room(Beside):
    def test_largest(self):
        """Each region that is told has a plan in its window, and the next larger one has none there."""
        for host in self.hosts()[:16]:
            room = host.room()
            for region in room.largest:
                with self.subTest(host.name, region=region):
                    alone = Host(table_with(host.table.data, region.window), host.topology.data, host.registers)
                    line = f"create r {region.kind} {{:#x}} ways={region.ways}"
                    with alone.session() as session:
                        self.assertIsNone(session.would(line.format(region.size)))
                        self.assertIsInstance(session.would(line.format(region.size + (region.ways << 28))), Refusal)
            self.assertEqual(sum(it.size for it in room.ranges), sum(it.size for it in host.windows if it.is_usable)
                             - sum(it.size for it in host.regions))

    def test_memory(self):
        """What is free of a kind is what a share can have: 1 GiB of ram and of pmem, in a window of one way. Behind a region of pmem, whose
        decoder skips what is left of the ram, no region has ram there any more, and without a decoder none has anything."""
        nodes, windows = [[0x385], [0x1b05, 0, 0, 1 << 30, 1 << 30]], [[1 << 32, 1 << 32, 0, 0, 0xe, 0]]
        host = Host(worked.table_of(nodes, windows), worked.topology_of(nodes))
        for line, ram, pmem in (("", 4, 4), ("a ram 256M ways=1", 3, 4), ("b pmem 512M ways=1", 0, 2), ("c pmem 256M ways=1", 0, 1)):
            if line:
                host = Host(host.table.data, host.topology.data, image_with(host, in_bytes(f"create {line}")))
            with self.subTest(line):
                self.assertEqual([(it.kind, it.size, it.free >> 28) for it in host.room().memory], [("ram", 1 << 30, ram), ("pmem", 1 << 30, pmem)])
                with host.session() as session:
                    for kind, free in (("ram", ram), ("pmem", pmem)):
                        self.assertEqual([session.would(f"create r {kind} {shares << 28:#x} n1") is None for shares in (free, free + 1)],
                                         [free > 0, False])

    def test_windows(self):
        """A table in which all windows but one are of fixed configuration is the same but for that."""
        for host in self.hosts():
            for window in host.windows:
                marked = texts.records(engine().listing(table_with(host.table.data, window.number))[1].decode())
                for was, now in zip(host.table.records, marked):
                    is_other = hasattr(was, "number") and was.number != window.number
                    self.assertEqual({**was.as_dict(), **({"restrict": was.restrict | 16} if is_other else {})}, now.as_dict())

    def test_one_region(self):
        """A table in which a window is as large as a region: only the window's base and size are others."""
        table = Host.from_files(*FOUR).table.data
        for base, size in ((0x120000000, 1 << 29), (0x110000000, 1 << 32)):
            was, now = (texts.records(engine().listing(it)[1].decode()) for it in (table, table_with(table, 0, (base, size))))
            self.assertEqual([it.as_dict() for it in now], [{**it.as_dict(), **({"base": base, "size": size} if hasattr(it, "qtg") else {})}
                                                            for it in was])

    def test_text(self):
        text = said("room", "--reset", *FOUR[:2])[1]
        self.assertEqual(text.splitlines()[-1], "largest window 0 pmem ways 4 size 0x40000000 base 0x110000000 gran 256 over d1,d2,d3,d4")


if __name__ == "__main__":
    unittest.main()
