"""Bad input: one line that says what and where, status 1, and nothing written. And what is only reported."""

import contextlib
import gzip
import io
import os
import shlex
import shutil
import struct
import subprocess
import sys
import tarfile
import tempfile
import unittest
from unittest import mock

import machines

CAPTURE = machines.load("cxl-capture")
ROOT = "sys/devices/platform/ACPI0017:00/root0"
HB16, HB32 = f"{ROOT}/port2", f"{ROOT}/port1"
ENDPOINT, DECODER = f"{HB16}/endpoint3", f"{HB16}/endpoint3/decoder3.0"
BELOW = f"/{ENDPOINT}/decoder3"
MEM0 = "sys/devices/pci0000:10/0000:10:00.0/0000:11:00.0/mem0"
DEVICES = "sys/bus/cxl/devices"
TABLE, CEDT = machines.TABLE, machines.data_of("x2-hb", "cedt")


# ---- Ways to spoil the tree of the machine x2-hb.

def removed(path):
    def spoil(items):
        for item in list(items):
            if item == path or item.startswith(path + "/"):
                del items[item]
    return spoil


def holding(path, content):
    return lambda items: items.update({path: content if isinstance(content, bytes) else content.encode() + b"\n"})


def leading(path, target):
    return lambda items: items.update({path: target})


def both(*spoils):
    return lambda items: [spoil(items) for spoil in spoils]


SPOILED = {
    "a kernel without CXL": [
        (removed(DEVICES), "/sys/bus/cxl/devices: not there; no CXL root: are cxl_acpi and cxl_pci loaded?"),
        (removed(f"{DEVICES}/root0"), "/sys/bus/cxl/devices: no CXL root: are cxl_acpi and cxl_pci loaded?"),
        (leading(f"{DEVICES}/root1", f"../../../../{ROOT}"), "/sys/bus/cxl/devices: 2 roots, not 1, or more than 1024"),
    ],
    "the table": [
        (removed(TABLE), "/sys/firmware/acpi/tables/CEDT: No such file or directory"),
        (holding(TABLE, CEDT[:-1]), "/sys/firmware/acpi/tables/CEDT: no whole CEDT"),
        (holding(TABLE, b"DSDT" + CEDT[4:]), "CEDT: no whole CEDT"),
        (holding(TABLE, b""), "CEDT: no whole CEDT"),
        (holding(TABLE, CEDT[:-1] + b"\1"), "CEDT: its checksum is wrong"),
        (both(removed(TABLE), holding(TABLE + "/in", b"")), "CEDT: no file"),
    ],
    "a tree that is cut off": [
        (removed(f"{DECODER}/size"), f"{BELOW}.0/size: No such file or directory"),
        (removed(HB16), f"/sys/bus/cxl/devices/decoder2.0: /{HB16}/decoder2.0 is not there"),
        (removed(DECODER), f"/sys/bus/cxl/devices/decoder3.0: {BELOW}.0 is not there"),
        (removed(f"{DEVICES}/port2"), f"/sys/bus/cxl/devices/endpoint3: /{ENDPOINT} lies in no port's folder"),
        (removed(f"{DEVICES}/endpoint3"), f"/sys/bus/cxl/devices/decoder3.0: {BELOW}.0 lies in no port's folder"),
        (removed(f"{DEVICES}/mem0"), f"/{ENDPOINT}/uport: /{MEM0} is no memory device"),
        (removed(f"{DEVICES}/decoder3.1"), f"/{ENDPOINT}: decoders are missing or elsewhere; there are decoder3.0, "),
        (removed(f"{DEVICES}/decoder3.3"), f"/{ENDPOINT}: 1 of 3 decoders committed; known are [1, 2, 4, 6, 8, 10, 12, 14, "),
        (removed(f"{ENDPOINT}/decoder3.3/size"), f"{BELOW}.3/size: No such file or directory"),
        (removed(f"{HB16}/decoder2.0/target_list"), f"/{HB16}/decoder2.0/target_list: No such file or directory"),
        (removed(f"{MEM0}/ram"), f"/{MEM0}/ram/size: No such file or directory"),
        (removed(f"{ENDPOINT}/uport"), f"/{ENDPOINT}/uport: /{ENDPOINT}/uport is not there"),
        (removed(f"{HB16}/dport0"), f"/{ENDPOINT}/parent_dport: no dport link of /{HB16} leads"),
        (both(*[removed(f"{DEVICES}/decoder2.{i}") for i in range(4)], removed(f"{HB16}/dport1"),
              holding(f"{HB16}/decoders_committed", "0")),
         f"/{HB16}: no decoder, though decoders below it are committed"),
    ],
    "links that lead nowhere, elsewhere, round and round, or out": [
        (removed(MEM0), f"/sys/bus/cxl/devices/mem0: /{MEM0} is not there"),
        (leading(f"{DEVICES}/mem0", "../" * 20 + "etc"), "/sys/bus/cxl/devices/mem0: leads out of the tree"),
        (leading(f"{ENDPOINT}/uport", "../nowhere"), f"/{ENDPOINT}/uport: /{HB16}/nowhere is not there"),
        (leading(f"{HB16}/dport1", "../../nowhere"), f"/{HB16}/dport1: /{ROOT[:-6]}/nowhere is not there"),
        (leading(f"{ENDPOINT}/parent_dport", "../../dport32"), f"/{ENDPOINT}/parent_dport: no dport link of /{HB16} "),
        (leading(f"{ENDPOINT}/uport", "../uport"), f"/{ENDPOINT}/uport: /sys/devices/pci0000:10 is no memory device"),
        (leading(f"{ENDPOINT}/uport", "uport"), f"/{ENDPOINT}/uport: links lead round and round"),
        (leading(f"{DEVICES}/mem0", "/etc"), "/sys/bus/cxl/devices/mem0: leads out of the tree"),
        (leading(f"{DECODER}/size", "../" * 20 + "etc/passwd"), f"{BELOW}.0/size: leads out of the tree"),
        (leading(f"{DEVICES}/decoder3.0", f"../../../../{ENDPOINT}/decoder3.1"),
         f"/{ENDPOINT}: decoders are missing or elsewhere; there are decoder3.0, "),
    ],
    "sizes of a bridge's decoders that are no multiple of 256 MiB, without which no device below it is placed": [
        (holding(f"{HB16}/decoder2.0/start", "0x110001000"), "decoder2.0/start: 0x110001000 is no multiple of 256 MiB"),
        (holding(f"{HB16}/decoder2.0/size", "0x20000100"), "decoder2.0/size: 0x20000100 is no multiple of 256 MiB"),
        (holding(f"{HB16}/decoder2.0/target_type", ""), "/target_type: '' is none of accelerator, expander"),
    ],
    "what the registers cannot hold, or what says nothing": [
        (holding(f"{DECODER}/interleave_ways", "5"), f"{BELOW}.0/interleave_ways: '5' is none of 1, 2, 3, 4, 6, "),
        (holding(f"{DECODER}/interleave_granularity", "300"), "/interleave_granularity: '300' is none of 256, 512, "),
        (holding(f"{DECODER}/locked", "yes"), f"{BELOW}.0/locked: 'yes' is none of 0, 1"),
        (holding(f"{DECODER}/size", "much"), f"{BELOW}.0/size: 'much' is not 1 numbers"),
        (holding(f"{DECODER}/size", "0x10000000000000000"), f"{BELOW}.0/size: '0x10000000000000000' is not 1 numbers"),
        (holding(f"{DECODER}/size", b"\xff\n\x1b[2J"), f"{BELOW}.0/size: '"),
        (holding(f"{DECODER}/region", "region0/.."), f"{BELOW}.0/region: 'region0/..' is no region"),
        (holding(f"{ROOT}/decoder0.0/region0/commit", "2"), "devices/region0/commit: '2' is none of 0, 1"),
        (holding(f"{HB16}/decoder2.0/target_list", "0,1"), "decoder2.0/target_list: '0,1' is not 1 numbers"),
        (holding(f"{HB16}/decoder2.0/target_list", ""), "decoder2.0/target_list: '' is not 1 numbers"),
        (holding(f"{HB16}/decoder2.0/target_list", "256"), "decoder2.0/target_list: [256] is more than the register"),
        (both(holding(f"{HB16}/decoder2.0/target_list", ",".join(map(str, range(12)))),
              holding(f"{HB16}/decoder2.0/interleave_ways", "12")),
         "decoder2.0/target_list: [0, 1, 2, 3, 4, 5, 6, 7, 8, 9, 10, 11] is more than the register holds: 8 numbers"),
        (holding(f"{ENDPOINT}/decoders_committed", "5"), f"/{ENDPOINT}: 5 of 4 decoders committed; known are ["),
    ],
}


def run(words):
    """The status of the program, and what it said on standard error."""
    said = io.StringIO()
    with contextlib.redirect_stderr(said), contextlib.redirect_stdout(io.StringIO()):
        status = CAPTURE.main(words)
    return status, said.getvalue()


class BadInput(unittest.TestCase):
    @classmethod
    def setUpClass(cls):
        with tempfile.TemporaryDirectory() as folder:
            whole = machines.save(machines.pack(machines.tree_of("x2-hb")), os.path.join(folder, "tree"))
            cls.copy = CAPTURE.copy_of(CAPTURE.Archive(whole))

    def setUp(self):
        place = tempfile.TemporaryDirectory()
        self.addCleanup(place.cleanup)
        self.place = place.name
        self.made = os.path.join(self.place, "made")

    def spoiled(self, *spoils):
        items = machines.attributes_of(self.copy)
        for spoil in spoils:
            spoil(items)
        return items

    def packed(self, items):
        return machines.save(machines.pack(items), os.path.join(self.place, "copy.tar.gz"))

    def host(self):
        return machines.lay(self.spoiled(), os.path.join(self.place, "host"))

    def assert_refused(self, words, *wanted):
        before = sorted(os.listdir(self.place))
        status, said = run(words)
        self.assertEqual((status, said.count("\n")), (1, 1), said)
        self.assertTrue(said.isascii() and said[:-1].isprintable(), repr(said))
        for part in wanted:
            self.assertIn(part, said)
        self.assertEqual(sorted(os.listdir(self.place)), before, "something was written")

    def test_spoiled_trees(self):
        """All as archives, and the first two of each kind as folders."""
        for kind, cases in SPOILED.items():
            for number, (spoil, wanted) in enumerate(cases):
                with self.subTest(kind, wanted=wanted):
                    items = self.spoiled(spoil)
                    file = self.packed(items)
                    self.assert_refused(["--from", file, self.made], f"cxl-capture: {file}: ", wanted)
                    if number < 2:
                        folder = tempfile.mkdtemp(dir=self.place)
                        machines.lay(items, folder)
                        self.assert_refused(["--from", folder, self.made], f"cxl-capture: {folder}: ", wanted)

    def test_a_table_that_is_no_file_or_large(self):
        host = self.host()
        os.remove(os.path.join(host, TABLE))
        os.mkfifo(os.path.join(host, TABLE))
        self.assert_refused(["--from", host, self.made], "/sys/firmware/acpi/tables/CEDT: no file")
        os.remove(os.path.join(host, TABLE))
        machines.save(bytes(1048577), os.path.join(host, TABLE))
        self.assert_refused(["--from", host, self.made], "/sys/firmware/acpi/tables/CEDT: more than 1048576 bytes")

    def test_no_right_to_read_the_table(self):
        def refuse(path, *more):
            if str(path).endswith(refused):
                raise PermissionError(13, "Permission denied", path)
            return os_open(path, *more)

        host, os_open = self.host(), os.open
        for refused in (TABLE, f"{DECODER}/start"):
            with mock.patch.object(CAPTURE.os, "open", refuse):
                self.assert_refused(["--from", host, self.made], f": /{refused}: Permission denied")
                with self.assertRaises(CAPTURE.BadInput):
                    CAPTURE.copy_of(CAPTURE.Folder(host))

    def test_a_place_that_is_taken(self):
        host, taken = self.host(), os.path.join(self.place, "taken")
        os.mkdir(taken)
        self.assertEqual(run(["--from", host, taken]), (3, ""), "an empty folder may be there")
        self.assert_refused(["--from", host, taken], f"{taken}: there already")
        self.assert_refused(["--from", host, os.path.join(taken, "topo.toml")], "topo.toml: there already")
        none = os.path.join(self.place, "none")
        self.assert_refused(["--from", host, os.path.join(none, "made")], f"/made: there is no folder {none}")
        self.assertEqual(sorted(os.listdir(taken)), [
            "image.bin", "report.txt", "sources.json", "table.cedt", "topo.toml"])
        with self.assertRaises(CAPTURE.BadInput):
            CAPTURE.write(os.path.join(taken, "topo.toml"), {"": b""})

    def test_a_disk_that_is_full(self):
        def refuse(path, mode):
            if path.endswith("image.bin") and mode == "wb":
                raise OSError(28, "No space left on device", path)
            return open(path, mode)

        host = self.host()
        with mock.patch.object(CAPTURE, "open", refuse, create=True):
            self.assert_refused(["--from", host, self.made], f"cxl-capture: {self.made}: No space left on device\n")

    def test_a_place_that_may_only_be_read(self):
        host = CAPTURE.Folder(self.host())
        fault = OSError(30, "Read-only file system", os.path.join(self.place, ".cxl-capture-1"))
        with mock.patch.object(CAPTURE.tempfile, "TemporaryDirectory", side_effect=fault):
            with mock.patch.object(CAPTURE, "Folder", lambda root: host):
                for words in ([self.made], ["--copy", self.made]):
                    self.assert_refused(words, f"cxl-capture: {self.made}: Read-only file system\n")

    def test_words(self):
        """Words that are no form: one line that names what is wrong, and nothing is read or made."""
        no_folder, no_table = "no folder is named in which to make", "--list wants --table FILE"
        for words, wanted in {
            "": no_folder, "--from a": no_folder, "--copy": "argument --copy: expected one argument",
            "--copy a b": "--copy and b do not go together", "a b": "b: one name too many", "-x": "unknown option -x",
            "--tabel a b": "unknown option --tabel", "--fro a b": "unknown option --fro", "--table a": no_folder,
            "--list a b": no_table, "--registers": no_folder, "--list a --table b": no_folder,
            "--copy a --registers": "--copy and --registers do not go together",
            "--from a --list b c": "--list and --from do not go together", "--from a --from b c": "--from stands there",
            "--list a --table b --registers c": "--list and --registers do not go together",
            "--copy a --leave-empty": "--copy and --leave-empty do not go together",
            "--copy a --leave-windows": "--copy and --leave-windows do not go together",
            "--registers --attributes a": "--attributes and --registers do not go together",
            "--list a --table b --attributes c": "--list and --attributes do not go together",
            "--from a --list b --table c d": "--list and --from do not go together", "--from '' made": "an empty name",
            "--copy ''": "an empty name", "''": "an empty name", "--copy a --from b": "--copy and --from do not go",
        }.items():
            with self.subTest(words):
                self.assert_refused(shlex.split(words), f"cxl-capture: {wanted}", "; see cxl-capture --help\n")
        self.assertEqual(run(["--help"]), (0, ""))
        self.assertEqual(run(["made", "-h"]), (0, ""))

    def test_help_into_a_pipe_that_nobody_reads(self):
        for tool in ("cxl-capture", "cxl-regions", "cxl-picture"):
            end, other = os.pipe()
            os.close(end)
            ran = subprocess.run([sys.executable, os.path.join(machines.TOOLS, tool), "--help"], stdout=other,
                                 stderr=subprocess.PIPE, check=False)
            os.close(other)
            self.assertEqual((ran.returncode, ran.stderr), (0, b""))

    # ---- Archives that anybody may have made.

    def archive(self, *members):
        """A .tar.gz of members: a name, a type, and the content or the target."""
        file = os.path.join(self.place, "made-by-anybody.tar.gz")
        with tarfile.open(file, "w:gz") as archive:
            for name, kind, content in members:
                member = tarfile.TarInfo(name)
                member.type = kind
                if kind == tarfile.REGTYPE:
                    member.size = len(content)
                    archive.addfile(member, io.BytesIO(content))
                else:
                    member.linkname = content
                    archive.addfile(member)
        return file

    def test_hostile_archives(self):
        outside = os.path.join(self.place, "outside")
        for members, wanted in [
            ([("/etc/passwd", tarfile.REGTYPE, b"x")], "/etc/passwd: leads out of the archive"),
            ([("sys/../../outside", tarfile.REGTYPE, b"x")], "sys/../../outside: leads out of the archive"),
            ([("sys", tarfile.SYMTYPE, self.place), ("sys/outside", tarfile.REGTYPE, b"x")], "leads out of the tree"),
            ([("sys/bus/cxl/devices", tarfile.SYMTYPE, "../" * 9)], "/sys/bus/cxl/devices: leads out of the tree"),
            ([("sys/bus", tarfile.SYMTYPE, "../sys/bus")], "/sys/bus/cxl/devices: links lead round and round"),
            ([("sys/null", tarfile.CHRTYPE, "")], "sys/null: no file, folder or symbolic link"),
            ([("sys/disk", tarfile.BLKTYPE, "")], "sys/disk: no file, folder or symbolic link"),
            ([("sys/pipe", tarfile.FIFOTYPE, "")], "sys/pipe: no file, folder or symbolic link"),
            ([("sys/twin", tarfile.LNKTYPE, "/etc/passwd")], "sys/twin: no file, folder or symbolic link"),
            ([("sys/large", tarfile.REGTYPE, bytes(1048577))], "sys/large: more than 1048576 bytes, or 1000 in its na"),
            ([("sys/" + "d/" * 500, tarfile.DIRTYPE, "")], "more than 1048576 bytes, or 1000 in its name"),
            ([("sys/\x1b[2J\n\u00fc", tarfile.FIFOTYPE, "")], "sys/?[2J??: no file, folder or symbolic link"),
            ([], "/sys/bus/cxl/devices: not there"),
        ]:
            with self.subTest(wanted):
                self.assert_refused(["--from", self.archive(*members), self.made], wanted)
                self.assertFalse(os.path.lexists(outside))

    def test_items_are_bounded(self):
        members = [("sys/" + "/".join(str(i) for i in range(300)) + f"/{n}", tarfile.DIRTYPE, "") for n in range(20)]
        file = self.archive(*[(f"sys/{i}", tarfile.REGTYPE, bytes(1 << 20)) for i in range(9)])
        with mock.patch.object(CAPTURE, "MOST_UNPACKED", 8 << 20):
            self.assert_refused(["--from", file, self.made], "unpacks to more than 8388608 bytes")
        with mock.patch.object(CAPTURE, "MOST_ITEMS", 200), mock.patch.object(CAPTURE, "MOST_NAME", 2000):
            self.assert_refused(["--from", self.archive(*members), self.made], "more than 200 files and folders")

    def test_headers_that_no_tar_writes_today(self):
        """A file of holes, which a few bytes and a large size stand for; and a negative size, which can send a reader
        back to the same header for ever."""
        for at, field, wanted in [
            (156, b"S", "sys/file: no file, folder or symbolic link"),
            (124, b"\xff" * 11 + b"\0", "sys/file: more than 1048576 bytes, or 1000 in its name"),
        ]:
            head = bytearray(tarfile.TarInfo("sys/file").tobuf(tarfile.GNU_FORMAT))
            head[483:495] = b"%011o\0" % (1 << 32)  # the size with its holes
            head[at:at + len(field)] = field
            head[148:156] = b" " * 8
            head[148:156] = b"%06o\0 " % sum(head)
            self.assert_packed(bytes(head) + bytes(1024), wanted)

    def test_headers_that_take_long_elsewhere(self):
        """A size of 2^62, and extended headers of so many digits or records that tarfile takes minutes: each is refused
        before it is read."""
        def head(kind, size, name="sys/file"):
            header = bytearray(tarfile.TarInfo(name).tobuf(tarfile.GNU_FORMAT))
            header[124:136], header[156:157] = b"\x80" + size.to_bytes(11, "big"), kind
            header[148:156] = b" " * 8
            header[148:156] = b"%06o\0 " % sum(header)
            return bytes(header)

        def long(content, count=1):
            return (head(b"x", len(content)) + content + bytes(-len(content) % 512)) * count + head(b"5", 0)

        cut = "no whole .tar.gz: an extended header is none"
        for data, wanted in [
            (head(b"0", 1 << 62), "sys/file: more than 1048576 bytes"), (head(b"x", 1 << 62), "more than 8192 bytes"),
            (head(b"L", 1 << 62), "more than 8192 bytes"), (long(b"9" * 9000), "more than 8192 bytes"),
            (long(b"9" * 8000), cut), (long(b"9" * 4000 + b" a=b\n"), cut), (long(bytes(8000)), cut), (long(b" " * 8000), cut),
            (long(b"6 a=b\n" * 50), cut), (long(b"0 a=b\n"), cut), (long(b"7 a=b\n"), cut), (long(b"-6 a=b\n"), cut),
            (long(b"6 a=b\n" * 20 + b"x"), cut), (long(b"12 size=1e9\n"), cut),
            (long(b"6 a=b\n", 50), "no whole .tar.gz: more than 40 extended headers of a member"),
            (long(b"26 size=9999999999999999\n\n"), cut), (long(b"25 size=9999999999999999\n"), "more than 1048576 bytes"),
            (head(b"5", 0)[:400], "no whole .tar.gz"), (head(b"5", 0) + b"x" * 512, "byte 512 begins no header"),
        ]:
            with self.subTest(wanted, size=len(data)):
                self.assert_packed(data, wanted)

    def test_memory_that_is_a_pipe(self):
        """It is looked at and not waited for; and so is a PCI device's BAR or configuration space."""
        host = self.host()
        os.mkdir(os.path.join(host, "dev"))
        os.mkfifo(os.path.join(host, "dev", "mem"))
        os.mkfifo(os.path.join(host, os.path.dirname(MEM0), "config"))
        self.assert_refused(["--registers", "--from", host, self.made],
                            "/dev/mem: no registers can be mapped at 0x100011000: no file")
        status, said = run(["--from", host, self.made])
        self.assertEqual(status, 3)
        self.assertIn("the registers of hb16, hb32, mem0 could not be read: ", said)
        self.assertIn("/config: no file\n", said)
        os.remove(os.path.join(host, "dev", "mem"))
        os.symlink("/dev/mem", os.path.join(host, "dev", "mem"))
        self.assert_refused(["--registers", "--from", host, self.made], "/dev/mem: leads out of the tree")

    def assert_packed(self, data, wanted):
        file = os.path.join(self.place, "packed.tar.gz")
        with gzip.open(file, "wb") as packed:
            packed.write(data)
        self.assert_refused(["--from", file, self.made], wanted)

    def test_broken_archives(self):
        self.assert_packed(b"", "no whole .tar.gz")
        self.assert_packed(b"text" * 500, "no whole .tar.gz")
        file = os.path.join(self.place, "broken.tar.gz")
        for data in (b"", b"text", self.copy[:-20], self.copy[:200], self.copy[:500] + b"\xff" * 9 + self.copy[509:]):
            machines.save(data, file)
            with self.subTest(len(data)):
                self.assert_refused(["--from", file, self.made], "no whole .tar.gz")
        self.assert_refused(["--from", os.path.join(self.place, "none.tar.gz"), self.made], "No such file or directory")

    # ---- What is no fault, and stands in the report.

    def report_of(self, *spoils, said=""):
        """The report, the blocks and the nodes of a tree, of which all is told where nothing is said of it."""
        status, line = run(["--from", self.packed(self.spoiled(*spoils)), self.made])
        self.assertEqual((status, said in line, bool(line)), (2 if said else 3, True, bool(said)), line)
        texts = {}
        for name in ("report.txt", "topo.toml"):
            with open(os.path.join(self.made, name), encoding="ascii") as file:
                texts[name] = file.read()
        with open(os.path.join(self.made, "image.bin"), "rb") as file:
            nodes = machines.read_topology(texts["topo.toml"])
            blocks = machines.read_image(file.read(), nodes)
        shutil.rmtree(self.made)
        return texts["report.txt"], {node["name"]: block for node, block in zip(nodes, blocks)}, {
            node["name"]: node for node in nodes}

    def test_committed_is_by_count_and_not_by_size(self):
        """A destroyed decoder shows its range still, and one that is not committed may hold device memory."""
        report, blocks, _ = self.report_of(holding(f"{ENDPOINT}/decoders_committed", "0"))
        self.assertEqual(blocks["mem0"][1], [(0, 0, 0, 0, 0x1000, 0, 0, 0)] * 4)
        for size, value in (("size", "0x20000000"), ("dpa_size", "0x10000000")):
            self.assertIn("decoder3.0 of mem0 is not committed, and so was taken as empty, though the kernel shows "
                          f"{size} {value}.", report)

    def test_a_locked_decoder_and_one_of_an_accelerator(self):
        spoils = holding(f"{DECODER}/locked", "1"), holding(f"{DECODER}/target_type", "accelerator")
        report, blocks, _ = self.report_of(*spoils, said="outside the profile of cxlplan is decoder3.0, as report")
        self.assertEqual(blocks["mem0"][1][0][4], 0x712)
        self.assertTrue(report.startswith("This host is outside the profile of cxlplan, whose verdict on these files is "
                                          "none on the host:\n- decoder3.0 of mem0 is one of an accelerator (type 2), or of"))

    def test_passthrough(self):
        """One decoder, not committed, that lists the only port. Without a committed one below it may be unused."""
        one = [removed(f"{DEVICES}/decoder2.{i}") for i in (1, 2, 3)] + [removed(f"{HB16}/dport1")]
        idle = [holding(f"{HB16}/decoders_committed", "0"), holding(f"{ENDPOINT}/decoders_committed", "0")]
        report, blocks, nodes = self.report_of(*one, *idle)
        self.assertEqual((blocks["hb16"], nodes["hb16"]["passthrough"]), (((16, 0, 0, 0), [(0,) * 8]), True))
        taken = "hb16 was taken as passthrough, without decoder registers: "
        self.assertIn(taken + "its decoder is not committed, and none below it is. A decoder that is not used looks "
                      "the same.", report)
        report, _, nodes = self.report_of(*one, *idle, holding(f"{HB16}/decoder2.0/target_list", ""))
        self.assertEqual(nodes["hb16"]["decoders"], 1, "its list is empty, so it has a register")
        report, _, nodes = self.report_of(*one, *idle, removed(f"{DEVICES}/decoder2.0"), said="the registers of hb16 are ")
        self.assertIn("- The kernel shows no decoder of hb16. It may be passthrough, or Linux gave it up. hb16 was taken as",
                      report)
        self.assertIn(taken + "the kernel shows no decoder of it.", report)
        _, _, nodes = self.report_of(*one)
        self.assertEqual(nodes["hb16"]["decoders"], 1, "it is committed")
        other = [removed(f"{HB16}/dport0"), leading(f"{HB16}/dport7", "../../../../pci0000:10/0000:10:00.0")]
        _, _, nodes = self.report_of(*one, *idle, *other, holding(f"{HB16}/decoder2.0/target_list", "7"))
        self.assertEqual((nodes["hb16"].get("passthrough"), nodes["mem0"]["port"]), (True, 7))

    def test_what_could_not_be_placed(self):
        decoders = [removed(f"{DEVICES}/decoder3.{i}") for i in range(4)]
        report, _, nodes = self.report_of(*decoders, holding(f"{ENDPOINT}/decoders_committed", "0"),
                                          said=": endpoint3 was left out, as report.txt says\n")
        self.assertIn("endpoint3 was left out: it has no decoder, or is right below the root, as in CXL 1.1.", report)
        self.assertNotIn("mem0", nodes)
        report, _, nodes = self.report_of(*decoders, removed(f"{DEVICES}/endpoint3"), said=": mem0 was left out, as rep")
        self.assertIn("mem0 is the endpoint of no port. It was left out.", report)

    def test_bridges_of_the_table_and_of_the_kernel(self):
        table = bytearray(CEDT)
        struct.pack_into("<I", table, 40, 33)
        table[9] = (table[9] - 1) % 256
        report, _, nodes = self.report_of(holding(TABLE, bytes(table)))
        self.assertIn("Linux shows hb32, but the table has no host bridge 32.", report)
        self.assertIn("Linux shows no port for the table's host bridge 33. It was left out.", report)
        self.assertEqual([name for name in nodes if name.startswith("hb")], ["hb16", "hb32"])


if __name__ == "__main__":
    unittest.main()
