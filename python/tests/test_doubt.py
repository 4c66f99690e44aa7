"""How a capture knows the registers of its host: in every verdict, also where the file that says it is hostile."""

import json
import os
import unittest

from here import FOUR, LOST, SCHEMA, Case, asks_the_engine, faults, said

from cxlplan import Host
from cxlplan.fleet import judge
from cxlplan.sources import Sources, Unknown, sources_of

WHY = "decoder3.0 is below a committed one. It was taken as not committed."
NAMES = ("hb16", "hb32", "d1", "d3", "d2", "d4")


def decoder(number, source):
    return {"decoder": number, "kernel": None, "source": source, "committed": True, "why": WHY if source == "unknown" else None,
            "readings": []}


def written(known="read", **more):
    """A sources.json of the host of the examples: one decoder of d4 has the worst source, and all others were read."""
    nodes = [{"node": name, "kernel": None, "pci": "", "driver": None, "source": "read", "why": None, "hardware_decoders": 1,
              "decoders": [decoder(0, known if name == "d4" else "read")]} for name in NAMES]
    return {"schema": "cxl-capture/1", "tool": "cxl-capture 1.0.0", "read_by": None, "from": "copy", "time": None, "kernel": None,
            "status": 0, "known": known, "nodes": nodes, "differences": [], "outside": [], "left_out": [], **more}


BEYOND = [{"what": "decoders", "node": "hb16", "decoder": 11, "window": None, "kernel": None, "text": "decoder 11 of hb16 is committed."}]
LEFT = [{"what": "odd", "matters": True, "kernel": "mem7", "text": "mem7 has no serial number."},
        {"what": "cxl-1.1", "matters": False, "kernel": "mem8", "text": "mem8 has no decoders."}]
# What sources.json holds; of sound registers the verdict and the status, and of broken ones.
ROWS = {
    "all is read": (written(), "sound", 0, "breach", 8),
    "some is told": (written("told"), "told", 0, "breach", 8),
    "some is unknown": (written("unknown"), "unknown", 13, "unknown", 13),
    "outside the profile": (written(outside=BEYOND), "outside", 13, "outside", 13),
    "a device is left out that matters": (written(left_out=LEFT), "unknown", 13, "unknown", 13),
    "one is left out that does not": (written(left_out=LEFT[1:]), "sound", 0, "breach", 8),
    "it says read of what is unknown": ({**written("unknown"), "known": "read"}, "unknown", 13, "unknown", 13),
    "it is no object": ([], "unknown", 13, "unknown", 13),
    "it is of another form": (written(schema="cxl-capture/9"), "unknown", 13, "unknown", 13),
    "nodes are none": (written(nodes=7), "unknown", 13, "unknown", 13),
    "a source is none": (written(nodes=[{"node": "d4", "source": "guess", "why": None, "decoders": [{"source": "guess"}]}]), "unknown", 13,
                         "unknown", 13),
}


class Reading(Case):
    """The file alone, with no proved call."""

    def sources(self, said_of):
        with open(self.path("sources.json"), "w", encoding="utf-8") as file:
            json.dump(said_of, file)
        return sources_of(self.place)

    def test_rows(self):
        for name, (said_of, sound, _, broken, _) in ROWS.items():
            with self.subTest(name):
                found = self.sources(said_of)
                self.assertEqual((found.verdict("sound"), found.verdict("breach")), (sound, broken))

    def test_what_is_said(self):
        self.assertEqual(self.sources(written()), Sources("read", 6))
        self.assertEqual(self.sources(written()).lines("sound"), [])
        self.assertEqual(self.sources(written("unknown")).unknown, (Unknown("d4", 0, WHY[:-1]),))
        self.assertEqual(self.sources(written("told")).lines("sound"), [
            "Sound as Linux tells it: 1 of 6 decoders were not read, and Linux cannot see a reset or a failed release."])
        self.assertEqual(self.sources(written("unknown", outside=BEYOND)).lines("breach"), [
            "Outside the profile: decoder 11 of hb16 is committed", f"Not known: decoder 0 of d4: {WHY[:-1]}",
            "So the breach may be one of what is not known."])

    def test_many_places(self):
        nodes = [{"node": "d4", "source": "read", "why": None, "decoders": [decoder(number, "unknown") for number in range(10)]}] * 1000
        found = self.sources(written("unknown", nodes=nodes))
        self.assertEqual((len(found.unknown), len(found.lines()), found.lines()[-1]), (10000, 13, "9988 more such places stand in sources.json."))

    def test_no_capture(self):
        self.assertIsNone(sources_of(self.place))
        self.assertIsNone(sources_of(self.path("none")))

    def test_hostile(self):
        """What cannot be read leaves nothing known, in one line, and nothing is waited for."""
        place = self.path("sources.json")
        for name, make in {
                "a pipe": lambda: os.mkfifo(place), "a folder": lambda: os.mkdir(place), "a device": lambda: os.symlink("/dev/zero", place),
                "a link out": lambda: os.symlink("/etc/hostname", place), "a loop": lambda: os.symlink("sources.json", place),
                "no text": lambda: self.file("sources.json", b"\xff\xfe\0"), "deep": lambda: self.file("sources.json", "[" * 100_000),
                "cut off": lambda: self.file("sources.json", json.dumps(written())[:-9]),
                "a number": lambda: self.file("sources.json", "9" * 5000), "too large": lambda: self.file("sources.json", b" " * 9_000_000),
        }.items():
            with self.subTest(name):
                make()
                found = sources_of(self.place)
                self.assertEqual((found.known, found.verdict("sound"), len(found.lines())), ("unknown", "unknown", 1))
                self.assertEqual(found.lines()[0].splitlines(), found.lines())
                (os.rmdir if os.path.isdir(place) else os.remove)(place)


@asks_the_engine
class Verdicts(Case):
    def setUp(self):
        super().setUp()
        self.hosts = [self.folder(name, Host.from_files(*files)) for name, files in (("sound", FOUR), ("broken", LOST))]

    def put(self, said_of):
        for folder in self.hosts:
            with open(os.path.join(folder, "sources.json"), "w", encoding="utf-8") as file:
                json.dump(said_of, file)

    def json_of(self, *words):
        status, text, line = said(*words, "--json")
        value = json.loads(text)
        self.assertEqual((line, list(faults(value, SCHEMA))), ("", []))
        return status, value

    def test_check_and_show(self):
        for name, (said_of, sound, status_of_sound, broken, status_of_broken) in ROWS.items():
            self.put(said_of)
            for folder, verdict, status in zip(self.hosts, (sound, broken), (status_of_sound, status_of_broken)):
                with self.subTest(f"{name}: {folder}"):
                    found, value = self.json_of("check", folder)
                    self.assertEqual((found, value["verdict"], value["sound"]), (status, verdict, verdict in ("sound", "told")))
                    found, value = self.json_of("show", folder)
                    self.assertEqual((found, value["verdict"]), (13 if status == 13 else 0, verdict))
                    for command in ("check", "show"):
                        text = said(command, folder)[1]
                        self.assertTrue(text.endswith("".join(f"{it}\n" for it in sources_of(folder).lines(
                            "breach" if folder == self.hosts[1] else "sound"))))

    def test_others(self):
        """The others say it on standard error, but for the page; they end with 13 where nothing is known for sure."""
        self.put(written("unknown"))
        wanted = f"cxldesk: Not known: decoder 0 of d4: {WHY[:-1]}\n"
        for words in (["where", self.hosts[0], "0x110000000"], ["room", self.hosts[0]], ["plan", self.hosts[0], "destroy", "auto0"],
                      ["plan", self.hosts[0], "r0", "ram", "1G", "d1"], ["report", self.hosts[0], self.path("page.html")]):
            with self.subTest(words):
                status, _, line = said(*words)
                self.assertEqual((status, line), (13, "" if words[0] == "report" else wanted))
                if words[0] != "report":
                    self.assertEqual(self.json_of(*words)[0], 13)
        status, text, line = said("where", self.hosts[1], "0x110000000")
        self.assertEqual((status, text, line), (13, "", wanted + "cxldesk: breach K12 d4 0\n"))
        status, text, _ = said("diff", *self.hosts)
        self.assertEqual(status, 13)
        self.assertIn("verdict not known, 1 regions -> not known, breach K12 d4 0\n", text)

    def test_after_reset(self):
        """Without its image nothing of a capture's registers is asked."""
        self.put(written("unknown"))
        status, _, line = said("room", "--reset", self.hosts[0])
        self.assertEqual((status, line), (0, ""))

    def test_page(self):
        """No page over unknown registers looks like that of a sound host."""
        for name, (said_of, sound, _, broken, _) in ROWS.items():
            self.put(said_of)
            for folder, verdict in zip(self.hosts, (sound, broken)):
                with self.subTest(f"{name}: {folder}"):
                    page = self.path(f"{len(os.listdir(self.place))}.html")
                    said("report", folder, page)
                    with open(page, encoding="utf-8") as file:
                        text = file.read()
                    look = {"sound": "<div class=verdict>", "breach": "<div class='verdict broken'>"}.get(verdict, "<div class='verdict doubt'>")
                    self.assertEqual(text.count("<div class=verdict>") + text.count("<div class='verdict "), 1)
                    self.assertIn(look, text)

    def test_fleet(self):
        counts = []
        for said_of, *_ in ROWS.values():
            self.put(said_of)
            status, _, line = said("fleet", self.place)
            counts.append((status, line))
            self.assertEqual(list(faults(judge(self.hosts[0]), SCHEMA)), [])
        self.assertEqual(counts[:4], [
            (8, "cxldesk: 2 hosts: 1 sound, 1 broken, 0 not read\n"),
            (8, "cxldesk: 2 hosts: 0 sound, 1 sound as Linux tells it, 1 broken, 0 not read\n"),
            (13, "cxldesk: 2 hosts: 0 sound, 2 not known, 0 broken, 0 not read\n"),
            (13, "cxldesk: 2 hosts: 0 sound, 2 outside the profile, 0 broken, 0 not read\n")])

    def test_fleet_sees_another_source(self):
        """A host is judged anew where what is known of its registers is another."""
        self.put(written("told"))
        out = self.path("out.jsonl")
        said("fleet", self.place, "--out", out)
        self.put(written("unknown"))
        self.assertEqual(said("fleet", self.place, "--out", out)[::2], (13, "cxldesk: 2 hosts: 0 sound, 2 not known, 0 broken, 0 not read\n"))


if __name__ == "__main__":
    unittest.main()
