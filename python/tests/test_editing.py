"""Registers and tables as text, both ways."""

import os
import unittest
from unittest import mock

from here import EXAMPLES, FOUR, Case, asks_the_engine, machines, said, worked_hosts
from cxlplan import BadTable, BadWords, Broken, Host, Table, editing
from cxlplan.editing import image_of, image_text, table_of, table_text


@asks_the_engine
class Images(Case):
    def test_both_ways(self):
        """Each image goes into text and back, byte for byte."""
        hosts = [Host.from_folder(self.captured(machine)) for machine in machines.MACHINES + machines.HOLES] + list(worked_hosts())
        for host in hosts:
            with self.subTest(host.name):
                empty = Host(host.table.data, host.topology.data, image_of(Host(host.table.data, host.topology.data), ""))
                self.assertEqual([it.words for it in Host(host.table.data, host.topology.data, image_of(empty, image_text(host))).decoders],
                                 [it.words for it in host.decoders])
                self.assertEqual(image_of(host, image_text(host)), host.registers)

    def test_command(self):
        text = said("image", *FOUR)[1]
        self.assertIn("decoder hb16 0 base 0x110000000 size 0x40000000 ways 2 gran 512 lock 1 commit 1 committed 1 host-only 1 targets 0,1\n"
                      "decoder hb16 1\n", text)
        made = self.path("made")
        file = self.file("text", text.replace("decoder d4 0", "decoder d4 0 gran-code 1 #"))
        self.assertEqual(said("image", *FOUR, "--from", file, "--to", made)[0], 0)
        self.assertEqual(said("check", *FOUR[:2], made)[1].splitlines()[0], "breach K10 hb32 0")
        self.assertEqual(said("image", *FOUR, "--from", file), (1, "", "cxldesk: --from wants --to FILE, the file to make\n"))

    def test_faults(self):
        host = Host.from_files(*FOUR)
        for text, line in (("decode d1 0", "line 1: a line begins with decoder NODE NUMBER"), ("\ndecoder d9 0", "line 2: there is no decoder 0 of d9"),
                           ("decoder d1 4", "line 1: there is no decoder 4 of d1"), ("decoder d1 0 base", "line 1: 'base' has no value, or a name is missing"),
                           ("decoder d1 0\ndecoder d1 0", "line 2: decoder 0 of d1 stands there twice"),
                           ("decoder d1 0 bse 1", "line 1: 'bse' is none of base"), ("decoder d1 0 base 1G", "line 1: '1G' is no number up to 0xf"),
                           ("decoder d1 0 ways 5", "line 1: ways are 1, 2, 3, 4"), ("decoder hb16 0 targets 1,2,3,4,5,6,7,8,9", "line 1: a target list has 8")):
            with self.subTest(text), self.assertRaises(BadWords) as raised:
                image_of(host, text)
            self.assertIn(line, raised.exception.text)

    def test_told(self):
        """What is made is what the proved calls tell of it, or nothing is made."""
        host = Host.from_files(*FOUR)
        for name, codes in (("WAYS_CODES", {**editing.WAYS_CODES, 4: 3}), ("FLAGS", {**editing.FLAGS, "lock": 12, "host-only": 8})):
            with mock.patch.object(editing, name, codes), self.assertRaises(Broken):
                image_of(host, "decoder d1 0 base 0x110000000 size 0x40000000 ways 4 gran 256 lock 1 commit 1 committed 1")
        with mock.patch.object(editing, "places_of", lambda _: {("d1", 0): 12 + 16}), self.assertRaises(Broken):
            image_of(host, "decoder d1 0 base 0x110000000 size 0x40000000 ways 4")

    def test_dropped_bits(self):
        """Bits that registers do not keep are refused, and not dropped unsaid."""
        self.assertRaisesRegex(Exception, "the registers keep other words", image_of, Host.from_files(*FOUR), "decoder d1 0 base 0x1")


@asks_the_engine
class Tables(Case):
    def test_both_ways(self):
        """Each table at hand goes into text and back, to its normal form."""
        files = [os.path.join(EXAMPLES, name) for name in os.listdir(EXAMPLES) if name.endswith(".cedt")]
        tables = [Host.from_files(name, FOUR[1]).table for name in files] + [host.table for host in worked_hosts()]
        tables += [Table(machines.data_of(machine, "cedt")) for machine in machines.MACHINES]
        other = Table(table_of("chbs uid 1 version 0 base 1 length 2\nother type 9 reserved 7 body 00ff\nother type 200 reserved 0 body none"))
        for table in [*tables, other]:
            with self.subTest(table.name):
                self.assertEqual(table_of(table_text(table)), table.normal())

    def test_faults(self):
        window = "window base 0 size 0 gran 256 arithmetic modulo restrict 0 qtg 0 targets 1"
        for text, line in (("chb uid 1", "line 1: a line begins with cedt, chbs"), ("chbs uid 1", "line 1: version is missing"),
                           (window.replace("256", "300"), "line 1: a granularity is"), (window + ",2,3,4,5", "line 1: a window has"),
                           (window.replace("modulo", "other"), "line 1: a window has"), ("cxims gran 256 maps 1,x", "line 1: 'x' is no number"),
                           ("other type 5 reserved 0 body 0", "line 1: '0' are no hexadecimal digits"), ('cedt oem-id "1234567"', "line 1: oem-id has")):
            with self.subTest(text), self.assertRaises(BadWords) as raised:
                table_of(text)
            self.assertIn(line, raised.exception.text)
        self.assertRaisesRegex(BadTable, "record-length 36", table_of, "other type 1 reserved 0 body 00")

    def test_command(self):
        text, made = said("table", FOUR[0])[1], self.path("made")
        self.assertEqual(said("table", "--from", self.file("text", text), "--to", made), (0, "", ""))
        with open(made, "rb") as file, open(FOUR[0], "rb") as was:
            self.assertEqual(file.read(), was.read())


if __name__ == "__main__":
    unittest.main()
