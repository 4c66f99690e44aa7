"""The JSON of each subcommand against the written schema, and the schema itself."""

import json
import unittest

try:
    import jsonschema  # Debian: python3-jsonschema; what is validated by it, too, where it is there
except ImportError:
    jsonschema = None

from here import FOUR, LOST, SCHEMA, Case, asks_the_engine, faults, machines, said

TAKEN = {"anyOf", "const", "enum", "type", "required", "properties", "additionalProperties", "items", "$ref", "$defs", "$schema", "$id",
         "title", "description"}


def words_in(schema):
    """The words of a schema, without the names of properties."""
    for word, part in schema.items():
        yield word
        if word in ("properties", "$defs"):
            for item in part.values():
                yield from words_in(item)
        elif isinstance(part, dict):
            yield from words_in(part)
        elif word == "anyOf":
            for item in part:
                yield from words_in(item)


class Validator(unittest.TestCase):
    def test_its_words(self):
        """The schema uses no word that the validator passes over."""
        self.assertEqual(set(words_in(SCHEMA)) - TAKEN, set())

    def test_it_refuses(self):
        region = {"name": "r", "base": 1, "size": 1, "window": 0, "gran": 256, "ways": 1, "kind": "ram", "slots": []}
        schema = {"$ref": "#/$defs/region"}
        self.assertEqual(list(faults(region, schema)), [])
        for change in ({"base": "1"}, {"base": True}, {"kind": "flash"}, {"slots": [1]}, {"more": 1}):
            with self.subTest(change):
                self.assertTrue(list(faults({**region, **change}, schema)))
        self.assertTrue(list(faults({"name": "r"}, schema)))


@asks_the_engine
class Commands(Case):
    def holds(self, status, *words):
        """The JSON that a command prints, which has to be the schema's."""
        found, text, line = said(*words, "--json")
        self.assertEqual((found, line), (status, ""), words)
        value = json.loads(text)
        self.assertEqual(list(faults(value, SCHEMA)), [], words)
        if jsonschema:
            jsonschema.validate(value, SCHEMA)
        return value

    def test_each(self):
        host = self.captured("x4-pass-switch")
        made = self.path("made")
        for status, *words in (
                (0, "show", host), (0, "show", *LOST), (0, "show", "--reset", *FOUR[:2]), (0, "check", host), (8, "check", *LOST),
                (0, "where", host, "0x110000800"), (0, "where", host, "0x110000800", "--length", "4096"),
                (0, "where", host, "0x110000000", "--length", "0x100000"), (0, "where", host, "mem3", "0x200"),
                (0, "where", host, "mem3", "0x200", "--length", "128"), (8, "where", host, "0x0"), (0, "room", host),
                (8, "room", *LOST), (0, "plan", host, "destroy", "auto0"), (8, "plan", host, "destroy", "r9"),
                (0, "plan", "--reset", host, "r0", "pmem", "0x40000000", "ways=4"),
                (0, "plan", "--reset", host, "r0", "pmem", "0x40000000", "ways=4", "--linux"),
                (8, "plan", host, "r0", "pmem", "0x40000000", "ways=4"), (8, "plan", host, "r0", "pmem", "0x20000000", "mem0", "mem2"),
                (8, "plan", host, "r0", "pmem", "1G", "mem0"), (8, "diff", *FOUR, *LOST), (0, "diff", host, host),
                (0, "report", host, made + ".html"), (0, "image", host), (0, "table", FOUR[0]),
                (0, "plan", "--reset", host, "r0", "pmem", "0x40000000", "ways=4", "--image", made),
                (2, "show", self.path("none")), (1, "where", host, "0xzz"), (3, "show", FOUR[1], FOUR[0], FOUR[2])):
            with self.subTest(words):
                self.holds(status, *words)

    def test_machines(self):
        """Each captured machine, and each host with a hole, of which some registers are not known."""
        for machine in machines.MACHINES + machines.HOLES + machines.NEWER:
            folder, is_whole = self.captured(machine), machine not in machines.HOLES
            self.holds(0 if is_whole else 13, "show", folder)
            value = self.holds(0 if is_whole else 13, "check", folder)
            self.assertEqual(value["sound"], is_whole)


if __name__ == "__main__":
    unittest.main()
