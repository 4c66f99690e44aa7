"""What `check` says of each rule that is broken: images of one host with a decoder changed, as text."""

import re
import unittest

from here import FOUR, Case, asks_the_engine, said
from cxlplan import Host
from cxlplan.editing import image_of, image_text

# A decoder's line, what is put in the place of what, which verdict it has, and what was found there.
CHANGES = (
    ("hb16 0", "commit 1 committed 1", "", "K10 hb32 0", "entry 0 is port 0: d2 with the range; entry 1 is port 1: d4 with "
     "the range; hb16, also a target of window 0, has no decoder of the range"),
    ("d1 1", "$", " base 0x150000000 size 0x20000000 ways 2 gran 256 commit 1 committed 1 host-only 1", "K8 d1 1",
     "d1 has 0x0 bytes of ram and then 0x10000000 of pmem; decoder 0 skips 0x0 and takes a share of 0x40000000 bytes by 4 ways, decoder 1 "
     "skips 0x0 and takes a share of 0x20000000 bytes by 2 ways"),
    ("d1 2", "$", " base 0x150000000 size 0x20000000 ways 2 gran 256 commit 1 committed 1 host-only 1", "K2 d1 2",
     "it is committed, and decoder 1 before it is not"),
    ("d2 0", " committed 1", " committed 1 error 1", "K3 d2 0", "commit is 1, committed 1, error 1, host-only memory 1; its node is an endpoint"),
    ("d2 0", "ways 4", "ways-code 7", "K4 d2 0", "it has no legal ways of 256 bytes; the endpoint knows 1, 2, 4 and 8 ways, 3, 6 and 12 ways, "
     "16 ways, and selects by the address bits 8 to 11 and 12 to 14"),
    ("d2 0", "gran 256", "gran 16384", "K5 d2 0", "it has 4 ways of 16384 bytes; the endpoint knows 1, 2, 4 and 8 ways, 3, 6 and 12 ways, 16 "
     "ways, and selects by the address bits 8 to 11 and 12 to 14"),
    ("d2 0", "size 0x40000000", "size 0x30000000", "K6 d2 0", "its base is 0x110000000 and its size 0x30000000, with 4 ways in an endpoint"),
    ("hb16 1", "$", " base 0x120000000 size 0x20000000 ways 1 gran 256 commit 1 committed 1 host-only 1 targets 0", "K7 hb16 1",
     "it starts at 0x120000000, and decoder 0 before it ends at 0x150000000"),
    ("d3 0", "$", " skip 0x10000000", "K8 d3 0", "d3 has 0x0 bytes of ram and then 0x10000000 of pmem; decoder 0 skips 0x10000000 and takes "
     "a share of 0x40000000 bytes by 4 ways"),
    ("hb16 0", "base 0x110000000", "base 0x10000000", "K9 hb16 0", "its range is 0x10000000 to 0x50000000, which begins in no window"),
    ("hb32 0", "targets 0,1", "targets 0,0", "K10 hb32 0", "entry 0 is port 0: d2 with the range; entry 1 is port 0: d2 with the range"),
    ("d4 0", "base 0x110000000", "base 0x150000000", "K10 hb32 0", "entry 0 is port 0: d2 with the range; entry 1 is port 1: d4 without a "
     "decoder of the range"),
    ("hb16 1", "$", " base 0x150000000 size 0x20000000 ways 1 gran 256 commit 1 committed 1 host-only 1 targets 0", "K10 hb16 1",
     "entry 0 is port 0: d1 without a decoder of the range; hb32, also a target of window 0, has no decoder of the range"),
    ("d4 0", "gran 256", "gran 512", "K12 d4 0", "it has 4 ways of 512 bytes, and others of its kind in the range have 4 ways of 256 bytes"),
    ("hb32 0", "gran 512", "gran 1024", "K12 hb32 0", "it has 2 ways of 1024 bytes, and others of its kind in the range have 2 ways of 512 "
     "bytes"),
)


@asks_the_engine
class Found(Case):
    def changed(self, place, old, new):
        """The host with one decoder's line changed."""
        host = Host.from_files(*FOUR)
        lines = [re.sub(old, new, line, count=1) if line.startswith(f"decoder {place}") else line for line in image_text(host).split("\n")]
        image = image_of(host, "\n".join(lines))
        self.assertNotEqual(image, host.registers)
        return [*FOUR[:2], self.file("image", image)]

    def test_rules(self):
        seen = set()
        for place, old, new, verdict, found in CHANGES:
            with self.subTest(place=place, new=new):
                files = self.changed(place, old, new)
                status, text, line = said("check", *files)
                self.assertEqual((status, line, text.splitlines()[0]), (8, "", f"breach {verdict}"))
                rule, node, decoder = verdict.split()
                seen.add(rule)
                self.assertIn(f"At decoder {decoder} of {node}: {found}.\n", text)
                self.assertEqual(said("report", *files, self.path(f"{len(seen)}{place.replace(' ', '')}{rule}{len(new)}.html"))[0], 0)
        self.assertEqual(seen, {f"K{number}" for number in range(2, 13)} - {"K11"})

    def test_unreached(self):
        """A decoder to which no decoder above leads."""
        host = Host.from_files(*FOUR)
        image = image_of(host, "decoder d1 1 base 0x150000000 size 0x10000000 ways 1 gran 256 commit 1 committed 1 host-only 1\n"
                               "decoder d1 0\n")
        self.assertEqual(said("check", *FOUR[:2], self.file("image", image))[1].splitlines()[0], "breach K2 d1 1")
        topology = host.topology.data.replace(b"pmem = 0x10000000", b"pmem = 0x20000000", 1)
        wide = Host(host.table.data, topology, host.registers)
        image = image_of(wide, "decoder d1 1 base 0x150000000 size 0x10000000 ways 1 gran 256 commit 1 committed 1 host-only 1\n")
        files = [FOUR[0], self.file("topology", topology), self.file("wide", image)]
        status, text, _ = said("check", *files)
        self.assertEqual((status, text.splitlines()[0]), (8, "breach K11 d1 1"))
        self.assertIn("At decoder 1 of d1: hb16 above it has no committed decoder of the range 0x150000000 to 0x160000000.\n", text)


if __name__ == "__main__":
    unittest.main()
