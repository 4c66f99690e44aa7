"""What the tests of the package know: hosts at hand, and a validator for the written schema."""

import contextlib
import importlib.util
import io
import json
import os
import sys
import tempfile
import unittest

sys.dont_write_bytecode = True  # leaves no compiled file in the repository

HERE = os.path.dirname(os.path.abspath(__file__))
PYTHON = os.path.dirname(HERE)
TOP = os.path.dirname(PYTHON)
for folder in (PYTHON, os.path.join(TOP, "capture", "tests"), os.path.join(TOP, "library", "tests")):
    sys.path.insert(0, folder)

import machines  # noqa: E402 pylint: disable=wrong-import-position
import peer  # noqa: E402,F401 pylint: disable=wrong-import-position,unused-import
import worked  # noqa: E402 pylint: disable=wrong-import-position
from cxlplan import CxlError, Host, NoEngine, _engine  # noqa: E402 pylint: disable=wrong-import-position
from cxlplan.desk.main import main  # noqa: E402 pylint: disable=wrong-import-position

EXAMPLES = os.path.join(TOP, "examples")
FOUR = [os.path.join(EXAMPLES, "four-endpoints." + end) for end in ("cedt", "toml", "image")]
LOST = FOUR[:2] + [os.path.join(EXAMPLES, "lost-bytes.image")]


def program():
    """The engine over the program, which keeps the sessions; None where it is not built."""
    try:
        found = _engine.engine()
    except NoEngine:
        return None
    return found if found.kind == "program" else found.program


# For tests that ask the proved calls: they are skipped where program and library are not built.
HAS_BOTH = program() and _engine.engine().kind == "library"
BENCH = _engine.program_file("cxlbench", "CXLBENCH")
asks_the_engine = unittest.skipUnless(HAS_BOTH, "./prove and ./prove --library build what is asked")


class Case(unittest.TestCase):
    """A test with a folder of its own."""

    def setUp(self):
        place = tempfile.TemporaryDirectory()
        self.addCleanup(place.cleanup)
        self.place = place.name

    def path(self, name):
        return os.path.join(self.place, name)

    def file(self, name, data):
        return machines.save(data if isinstance(data, bytes) else data.encode(), self.path(name))

    def captured(self, machine):
        """The folder that cxl-capture makes of a machine."""
        folder = self.path(machine)
        if not os.path.isdir(folder):
            tool = machines.load("cxl-capture")
            tree = machines.live_tree(machine) if machine in machines.HOLES + machines.NEWER else machines.tree_of(machine)
            with contextlib.redirect_stderr(io.StringIO()):
                tool.main(["--from", self.file(f"{machine}.tar.gz", machines.pack(tree)), folder])
        return folder

    def folder(self, name, host):
        """A host's files in a folder as cxl-capture makes it."""
        os.makedirs(self.path(name), exist_ok=True)
        for file, part in zip(("table.cedt", "topo.toml", "image.bin"), (host.table, host.topology, host.image)):
            machines.save(part.data, os.path.join(self.path(name), file))
        return self.path(name)


def said(*words):
    """The status of a command line, and what it says on standard output and standard error."""
    out, err = io.StringIO(), io.StringIO()
    with contextlib.redirect_stdout(out), contextlib.redirect_stderr(err):
        status = main(list(words))
    return status, out.getvalue(), err.getvalue()


def written_hosts():
    """The hosts of the worked cases with an image that the program reads."""
    for number, (table, topology, image) in enumerate(worked.hosts()):
        host = Host(table, topology, image, f"written{number}")
        try:
            host.breach  # pylint: disable=pointless-statement
        except CxlError:
            continue
        yield host


# The most regions of a session.
MOST_REGIONS = 256


def worked_hosts():
    """Those of them whose decoders are all as after reset or committed, with no more regions than a session has."""
    for host in written_hosts():
        if worked.is_plain(host.image.data, len(host.nodes)) and (host.breach or len(host.check()) <= MOST_REGIONS):
            yield host


def every_image():
    """The folders of captures at hand, by the machines' names."""
    return machines.MACHINES + machines.HOLES + machines.NEWER


# ---- The schema.

with open(os.path.join(PYTHON, "cxlplan", "schema.json"), encoding="utf-8") as opened:
    SCHEMA = json.load(opened)

TYPES = {"object": dict, "array": list, "string": str, "integer": int, "boolean": bool, "null": type(None)}


def is_type(value, name):
    return isinstance(value, TYPES[name]) and not (name == "integer" and isinstance(value, bool))


def faults(value, schema, place="$"):
    """Where a value is none of a schema, of as much of JSON Schema as the written one uses."""
    if "$ref" in schema:
        yield from faults(value, SCHEMA["$defs"][schema["$ref"].rsplit("/", 1)[1]], place)
    if "anyOf" in schema:
        tried = [list(faults(value, part, place)) for part in schema["anyOf"]]
        if all(tried):
            yield min(tried, key=len)[0]
    if "const" in schema and (value != schema["const"] or type(value) is not type(schema["const"])):
        yield f"{place} is not {schema['const']!r}"
    if "enum" in schema and value not in schema["enum"]:
        yield f"{place} is none of {schema['enum']}"
    if "type" in schema:
        names = schema["type"] if isinstance(schema["type"], list) else [schema["type"]]
        if not any(is_type(value, name) for name in names):
            yield f"{place} is no {' or '.join(names)}"
            return
    if isinstance(value, dict):
        yield from object_faults(value, schema, place)
    if isinstance(value, list) and "items" in schema:
        for number, item in enumerate(value):
            yield from faults(item, schema["items"], f"{place}[{number}]")


def object_faults(value, schema, place):
    for name in schema.get("required", []):
        if name not in value:
            yield f"{place} lacks {name}"
    for name, item in value.items():
        if name in schema.get("properties", {}):
            yield from faults(item, schema["properties"][name], f"{place}.{name}")
        elif schema.get("additionalProperties") is False:
            yield f"{place}.{name} is not written down"
