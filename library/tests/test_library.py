"""The library beside the program: each row is answered by both, byte for byte, through C, Python and Rust. What no command tells
is held against the same lines worked out in Python (told.py). The program is the one that the variable CXLPLAN names, or else
crates/cxlplan/out/cxlplan; the libraries are in the folder that CXLPLAN_LIBRARIES names, or else in crates/cxl_c/out. What the
machine lacks, a compiler or valgrind, is skipped."""

import contextlib
import itertools
import os
import re
import shutil
import subprocess
import sys
import tempfile
import unittest

sys.dont_write_bytecode = True
HERE = os.path.dirname(os.path.abspath(__file__))
TOP = os.path.dirname(os.path.dirname(HERE))
PROGRAM = os.path.realpath(os.environ.get("CXLPLAN", f"{TOP}/crates/cxlplan/out/cxlplan"))
BUILT = os.path.realpath(os.environ.get("CXLPLAN_LIBRARIES", f"{TOP}/crates/cxl_c/out"))
STATIC, SHARED = f"{BUILT}/libcxlplan.a", f"{BUILT}/libcxlplan.so.1"
HOST = [f"{TOP}/examples/four-endpoints.{it}" for it in ("cedt", "toml", "image")]
LOST = f"{TOP}/examples/lost-bytes.image"
DATA = f"{HERE}/data"
STRICT = ["-std=c99", "-Wall", "-Wextra", "-Werror", "-pedantic", "-O1", "-g", f"-I{TOP}/library"]
BENCH = os.path.realpath(os.environ.get("CXLBENCH", f"{TOP}/crates/cxlbench/out/cxlbench"))
HELD = ("words", "image")
FILES = {"route": 1, "list": 1, "normal": 1, "tree": 1, "plan": 2, "decoders": 2, "windows": 2, "check": 3, "breaches": 3}
SECONDS = 300

os.environ.setdefault("CXLPLAN_LIBRARY", SHARED)
sys.path[:0] = [HERE, f"{TOP}/python", f"{TOP}/python/tests", f"{TOP}/examples/pipe"]
import registers  # noqa: E402 pylint: disable=wrong-import-position
import told  # noqa: E402 pylint: disable=wrong-import-position
import window_tables  # noqa: E402 pylint: disable=wrong-import-position
from pipe_session import PipeSession, image_of, words_at_start  # noqa: E402 pylint: disable=wrong-import-position
from cxlplan import _by_library, _library  # noqa: E402 pylint: disable=wrong-import-position


def read(path):
    with open(path, "rb") as file:
        return file.read()


def write(path, data):
    with open(path, "wb") as file:
        file.write(data)
    return path


def images():
    """The real images: each with its table and its topology, and the lines `down` of the stores that were seen of it."""
    for name in sorted(os.listdir(DATA)):
        if os.path.isdir(f"{DATA}/{name}"):
            yield name, [f"{DATA}/{name}/{it}" for it in ("table.cedt", "topo.toml", "image.bin")]


def rows(folder):
    """The rows: words of a command line, a script as a file behind its two files, then the image, where it has one."""
    for name in sorted(it for it in os.listdir(DATA) if it.endswith(".cedt")):
        table = f"{DATA}/{name}"
        yield from (["list", table], ["normal", table])
        yield from (["route", table, hex(at)] for at in (0, 0x110004500, 0x280004500, 0x310004500, 0x350004500, 2**64 - 1))
    for name, files in images():
        yield from (["check", *files], ["tree", files[1]], ["decoders", *files[1:]], ["breaches", *files], ["windows", *files[:2]])
        script = "".join(f"show r{n}\nload r{n} 0 16\n" for n in range(3)) + "poison 00\n"
        if os.path.exists(f"{DATA}/{name}/stores.txt"):
            script += "".join(f"down {line.split()[0]}\n" for line in read(f"{DATA}/{name}/stores.txt").decode().splitlines())
        yield ["run", *files[:2], write(f"{folder}/{name}.script", script.encode()), files[2]]
    yield from windows_rows(folder)
    for name in ("first", "session", "steps", "firmware"):
        yield ["run", *HOST[:2], f"{TOP}/examples/{name}.script"]
        yield ["run", *HOST[:2], f"{TOP}/examples/{name}.script", HOST[2]]
    for line in ("create r0 pmem 0x20000000 d1 d2", "create r0 pmem 0x20000000 d2", "create r0 pmem 0x1 d1", "show r0", "", "nonsense"):
        yield ["plan", *HOST[:2], line]
    yield from (["gen", str(n)] for n in (0, 1, 3, 32, 33))
    yield ["version"]
    # what is no table, no topology, no image, or too large
    cut = [write(f"{folder}/cut.{n}", read(path)[:-3]) for n, path in enumerate(HOST)]
    large = write(f"{folder}/large", bytes(1048577))
    for bad in (*cut, large, write(f"{folder}/empty", b"")):
        yield ["list", bad]
        yield from ([form, *HOST[:at], bad, *HOST[at + 1:]] for at in range(3) for form in ("check", "breaches"))
        yield from (["tree", bad], ["decoders", bad, HOST[2]], ["decoders", HOST[1], bad], ["windows", bad, HOST[1]], ["windows", HOST[0], bad])
    yield ["run", *HOST[:2], write(f"{folder}/long", b"down 0\n" * 2396746)]
    yield ["run", *HOST[:2], write(f"{folder}/odd", b"\0\xff\n" + b"x" * 5000 + b"\r\n\n load")]


def windows_rows(folder):
    """Windows of each verdict, and the tables at hand with a topology that lacks most of their bridges."""
    topology = write(f"{folder}/bridges", window_tables.topology().encode())
    tables = [f"{DATA}/{name}" for name in sorted(os.listdir(DATA)) if name.endswith(".cedt")]
    yield from (["windows", table, topology] for table in [write(f"{folder}/verdicts", window_tables.each_verdict()), *tables])


def held_rows(folder):
    """Scripts whose last line's words are told, and the image behind them."""
    made = b"create r0 pmem 0x20000000 d1 d2\n"
    for number, script in enumerate((b"", made, made[:-1], made + b"destroy r0\n", made + b"create r1 pmem 0x1 d1\n", made + b"# none\n",
                                     made + b"\n", made + b"store 0x110000000 00\nload 0x110000000 1\n", b"nonsense\r\n" + made[:-1] + b"\r\n",
                                     b"begin create r0 pmem 0x20000000 d2 d1\nstep 5\n", made + b"begin destroy r0\nstep 3\nabort\n")):
        name = write(f"{folder}/held.{number}", script)
        yield from ([form, *HOST[:2], name, *image] for form in HELD for image in ([], HOST[2:]))
    name = write(f"{folder}/held.destroy", b"destroy auto0\n")
    for _, files in images():
        yield from ([form, *files[:2], it, files[2]] for form in HELD for it in (name, f"{folder}/held.0"))
    # more words than a session keeps of one call, of which the last line's are told, and all are in the image
    many = write(f"{folder}/held.many", (made + b"destroy r0\n") * 1900 + made)
    long = write(f"{folder}/held.long", b"down 0\n" * 2396746)
    for form in HELD:
        yield from ([form, *HOST[:at], f"{folder}/held.0", *HOST[at + 1:2], f"{folder}/held.1", HOST[2]] for at in range(2))
        yield from ([form, *HOST[:2], f"{folder}/held.1", f"{folder}/held.0"], [form, *HOST[:2], many], [form, *HOST[:2], long])


def by_bench(row):
    """What cxlbench sends for the last line of a script, or the image of a plain model of registers (examples/pipe) that is sent the words
    of all lines; where no session opens, what the program tells."""
    status, text = by_program(["run", *row[1:]])
    if status:
        return status, text if status != 11 else text.splitlines(True)[-1]
    files, nodes = [read(it) for it in row[1:]], told.nodes_of(read(row[2]))
    image, numbers = files[3] if len(files) > 3 else None, {node.name: node.number for node in nodes}
    sent = [[(node.number, 4, 2) for node in nodes if node.kind == "endpoint"]]
    with contextlib.closing(PipeSession(BENCH, *files[:2], image, nodes)) as session:
        for line in files[2].splitlines():
            session.act(line.decode())
            sent.append([(numbers[it.node], it.offset, it.value) for it in session.writes])
    if row[0] == "words":
        return 0, b"".join(b"w %d %#x %#x\n" % it for it in sent[-1])
    blocks = [registers.Block(list(words)) for words in words_at_start(nodes, image)]
    for number, offset, value in itertools.chain(*sent):
        blocks[number].write(offset, value)
    return 0, image_of([[block.read(4 * at) for at in range(4 + 8 * len(block.decoders))] for block in blocks])


def by_program(row):
    """What the program answers to a row, over files with the names that the library tells of them; where it has no command, what it says
    of files that it does not take, and else what is told anew; of the broken places it tells the first."""
    if row[0] == "breaches":
        status, text = by_program(["check", *row[1:]])
        return status, text if status else b""
    if row[0] in HELD:
        # behind many creates and releases all is as behind one create
        return by_bench([it.replace("held.many", "held.1") for it in row])
    if row[0] in ("tree", "decoders", "windows"):
        files = {"tree": [HOST[0], row[1], os.devnull], "decoders": [HOST[0], *row[1:]], "windows": [*row[1:], os.devnull]}[row[0]]
        status, text = by_program(["check", *files])
        is_taken = status in (0, 8) or status == 10 and row[0] != "decoders"
        return (0, told.TELLS[row[0]](*map(read, row[1:]))) if is_taken else (status, text)
    names = ["cedt", "topology", "image"]
    with tempfile.TemporaryDirectory() as folder:
        words, script = list(row), b""
        if row[0] == "run":
            script = read(words.pop(3))
        for at, name in enumerate(names[:FILES.get(row[0], len(words) - 1 if row[0] == "run" else 0)], 1):
            shutil.copyfile(words[at], f"{folder}/{name}")
            words[at] = name
        ran = subprocess.run([PROGRAM, *(["--version"] if row == ["version"] else words)], input=script, stdout=subprocess.PIPE,
                             stderr=subprocess.DEVNULL, timeout=SECONDS, check=False, cwd=folder)
    return ran.returncode, ran.stdout


def by_python(row):
    files = [read(it) for it in row[1:1 + FILES.get(row[0], 3 if row[0] in ("run", *HELD) else 0)]]
    if row[0] in ("run", *HELD):
        return getattr(_library, row[0])(*files, read(row[4]) if len(row) > 4 else None)
    if row[0] == "route":
        return _library.route(*files, int(row[2], 0))
    if row[0] == "plan":
        return _library.plan(*files, row[3])
    if row[0] == "gen":
        return _library.gen(int(row[1]))
    return getattr(_library, {"list": "list_"}.get(row[0], row[0]))(*files)


def by_driver(words, all_rows, **how):
    """What a driver answers to all rows."""
    given = "".join("\t".join(row) + "\n" for row in all_rows).encode()
    ran = subprocess.run(words, input=given, stdout=subprocess.PIPE, stderr=subprocess.PIPE, timeout=SECONDS, check=False, **how)
    if ran.returncode:
        raise AssertionError(f"{words[0]} ended with {ran.returncode}: {ran.stderr.decode(errors='replace')[-2000:]}")
    found, rest = [], ran.stdout
    while rest:
        head, _, rest = rest.partition(b"\n")
        status, size = map(int, head.split())
        found.append((status, rest[:size]))
        rest = rest[size:]
    return found


def places_of(row, text):
    """The lines of a text of broken places, of those of one rule at decoders that there are, each once and in order."""
    rules = sorted({line.split()[1] for line in text.splitlines()})
    every = [b"breach %s %s %d" % (rule, node.name.encode(), i)
             for rule in rules[:1] for node in told.nodes_of(read(row[2])) for i in range(node.decoders)]
    return [line for line in every if line in text.splitlines()]


@unittest.skipUnless(os.path.exists(SHARED) and os.access(PROGRAM, os.X_OK), "there is no built library, or no program")
class Library(unittest.TestCase):
    """Each caller, over the same rows."""

    @classmethod
    def setUpClass(cls):
        cls.folder = tempfile.mkdtemp()
        cls.rows = [row for row in rows(cls.folder) if told.TELLS or row[0] not in ("tree", "decoders", "windows", "breaches")]
        if told.TELLS and os.access(BENCH, os.X_OK):
            cls.rows += held_rows(cls.folder)
        # the C driver cuts rows at tabs, and takes an empty word for none
        cls.worded = [row for row in cls.rows if "" not in row]
        cls.wanted = {tuple(row): by_program(row) for row in cls.rows}

    @classmethod
    def tearDownClass(cls):
        shutil.rmtree(cls.folder)

    def compare(self, row, found):
        wanted = self.wanted[tuple(row)]
        if row[0] == "breaches" and wanted[0] == 8:
            self.assertEqual(places_of(row, found[1]), found[1].splitlines())
            found = found[0], found[1][:len(wanted[1])]
        if found != wanted:
            self.fail(f"{' '.join(row)}: {found[0]} {found[1][:200]} .. and not {wanted[0]} {wanted[1][:200]} ..")

    def compare_all(self, found):
        self.assertEqual(len(found), len(self.worded))
        for row, one in zip(self.worded, found):
            self.compare(row, one)

    def compiled(self, source, *flags):
        if not shutil.which("cc"):
            self.skipTest("there is no C compiler here")
        made = f"{self.folder}/{os.path.basename(source)}.made"
        subprocess.run(["cc", *STRICT, "-o", made, source, *flags], check=True)
        return made

    def under_valgrind(self, made):
        if not shutil.which("valgrind"):
            self.skipTest("there is no valgrind here")
        return ["valgrind", "-q", "--error-exitcode=99", "--leak-check=full", made]

    def test_rows(self):
        """All statuses but 2, 5, 7 and 9 come, so that the rows say something."""
        self.assertEqual({status for status, _ in self.wanted.values()}, {0, 1, 3, 4, 8, 10, 11, 12})

    @unittest.skipUnless(told.TELLS, "there is no reader of TOML here")
    def test_verdicts(self):
        """Each window of the table that has one of each verdict has the one that is written beside it."""
        text = told.windows(window_tables.each_verdict(), window_tables.topology().encode()).decode()
        self.assertEqual([line.partition(" verdict ")[2] for line in text.splitlines()], [row[-1] for row in window_tables.WINDOWS])

    def test_python(self):
        for row in self.rows:
            self.compare(row, by_python(row))

    @unittest.skipUnless(told.TELLS, "there is no reader of TOML here")
    def test_facts(self):
        """The package reads the library's lines whole."""
        found = _by_library.LibraryEngine(_library)
        for name, files in [*images(), ("host", HOST)]:
            cedt, topo, image = map(read, files)
            with self.subTest(name):
                nodes = told.nodes_of(topo)
                self.assertEqual(found.tree(cedt, topo), nodes)
                words = {node.name: block[4:] for node, block in zip(nodes, told.words_of(nodes, image))}
                self.assertEqual([it.words for it in found.decoders(cedt, topo, image)],
                                 [tuple(words[node.name][8 * i:8 * i + 7]) for node in nodes for i in range(node.decoders)])
                self.assertEqual([" ".join([it.verdict, it.cause]).strip() for it in found.windows(cedt, topo)],
                                 [line.partition(" verdict ")[2] for line in told.windows(cedt, topo).decode().splitlines()])

    def test_c_with_sanitizers(self):
        self.compare_all(by_driver([self.compiled(f"{HERE}/answers.c", "-fsanitize=address,undefined", STATIC)], self.worded))

    def test_c_under_valgrind(self):
        made = self.compiled(f"{HERE}/answers.c", SHARED, f"-Wl,-rpath,{BUILT}")
        few = [row for row in self.worded if row[0] != "gen" and not row[-1].endswith("long")]
        found = by_driver(self.under_valgrind(made), few)
        for row, one in zip(few, found):
            self.compare(row, one)

    def test_hostile(self):
        made = self.compiled(f"{HERE}/hostile.c", "-pthread", "-fsanitize=address,undefined", STATIC)
        ran = subprocess.run([made, *HOST, LOST], stdout=subprocess.PIPE, stderr=subprocess.STDOUT, timeout=SECONDS, check=False)
        self.assertEqual((ran.returncode, ran.stdout), (0, b""))
        made = self.compiled(f"{HERE}/hostile.c", "-pthread", SHARED, f"-Wl,-rpath,{BUILT}")
        ran = subprocess.run([*self.under_valgrind(made), *HOST, LOST], stdout=subprocess.PIPE, stderr=subprocess.STDOUT, timeout=SECONDS,
                             check=False)
        self.assertEqual((ran.returncode, ran.stdout), (0, b""))

    def sessions(self, *libraries, source="sessions.c"):
        """The program that keeps sessions by handle; it refuses itself memory."""
        return self.compiled(f"{HERE}/{source}", "-pthread", "-Wl,--wrap=malloc,--wrap=realloc,--wrap=free", *libraries)

    def scripts(self):
        """The scripts of the rows, but for the one that a session takes line after line, however long it is."""
        found = [row for row in self.rows if row[0] == "run" and not row[3].endswith("long")]
        self.assertGreater(len(found), 10)
        return found

    def line_by_line(self, words, all_rows):
        """What a session answers to the lines of each script, given one by one, is what the program answers to the whole."""
        for row in all_rows:
            ran = subprocess.run([*words, "lines", *row[1:]], stdout=subprocess.PIPE, stderr=subprocess.PIPE, timeout=SECONDS, check=False)
            self.assertEqual(ran.stderr, b"")
            self.compare(row, (ran.returncode, ran.stdout))

    def says_nothing(self, words, *parts):
        """A program of sessions finds nothing wrong."""
        for what in parts:
            ran = subprocess.run([*words, what, *HOST[:2]], stdout=subprocess.PIPE, stderr=subprocess.STDOUT, timeout=SECONDS, check=False)
            self.assertEqual((ran.returncode, ran.stdout), (0, b""), what)

    def test_sessions_with_sanitizers(self):
        made = self.sessions("-fsanitize=address,undefined", STATIC)
        self.line_by_line([made], self.scripts())
        self.says_nothing([made], "careless", "memory", "threads")

    def test_sessions_under_valgrind(self):
        words = self.under_valgrind(self.sessions(SHARED, f"-Wl,-rpath,{BUILT}"))
        self.line_by_line(words, [row for row in self.rows if row[0] == "run" and row[3].startswith(f"{TOP}/examples/")])
        self.says_nothing(words, "careless", "threads")

    def asked_rows(self):
        """The scripts, and one that asks each command that has a call, with each of its refusals."""
        asks = [b"create r0 pmem 0x20000000 d1 d2", b"down 0x110000000", b"down 0x110000100", b"down 0x12fffffff", b"down 0x130000000", b"down 0",
                b"down 18446744073709551615", b"up d1 0", b"up d2 0x0fffffff", b"up d1 0x10000000", b"up d9 0", b"up hb32 0", b"up d1 0xffffffffffffffff",
                b"load 0x1100000fe 4", b"store 0x1100000fe aabbccdd", b"load 0x1100000fe 4", b"load 0x110000000 256", b"load 0x12fffff00 256",
                b"load 0x12fffff01 256", b"load 0x10fffffff 2", b"store 0x12fffffff 0102", b"store 0x130000000 01", b"store 0x110000080 " + b"5a" * 256,
                b"load 0x110000080 256", b"begin destroy r0", b"down 0x110000000", b"load 0x110000080 2", b"step 3", b"down 0x110000000", b"abort",
                b"down 0x110000000", b"destroy r0", b"down 0x110000000", b"up d1 0", b"load 0x110000080 1", b"store 0x110000080 01"]
        few = write(f"{self.folder}/few.toml", b"frames = 2\n" + read(HOST[1]))
        stores = [asks[0], *(b"store %#x 0102" % (0x110000000 + at) for at in (0, 256, 511, 512, 0x1000)), b"load 0x110000000 256"]
        for name, topology, lines in (("asks", HOST[1], asks), ("stores", few, stores)):
            row = ["run", HOST[0], topology, write(f"{self.folder}/{name}.script", b"\n".join(lines) + b"\n")]
            self.wanted[tuple(row)] = by_program(row)
            yield row
        self.assertIn(b"\nfull need 1 free 0\n", self.wanted[tuple(row)][1])
        yield from self.scripts()

    def test_asked_with_sanitizers(self):
        made = self.sessions("-fsanitize=address,undefined", STATIC, source="asked.c")
        self.line_by_line([made], self.asked_rows())
        self.says_nothing([made], "careless", "memory", "threads")

    def test_asked_under_valgrind(self):
        words = self.under_valgrind(self.sessions(SHARED, f"-Wl,-rpath,{BUILT}", source="asked.c"))
        self.line_by_line(words, [next(self.asked_rows())])
        self.says_nothing(words, "careless", "threads")

    def test_python_sessions(self):
        """Line by line as the program, with the words of the last line and the image behind it; and what no session opens on."""
        for row in self.scripts():
            files = [read(it) for it in row[1:]]
            image = files[3] if len(files) > 3 else None
            try:
                with _library.Session(*files[:2], image) as session:
                    found = [session.act(line) for line in files[2].splitlines(keepends=True)]
                    ended = next((status for status, _ in found if status), 0)
                    told_words = b"".join(b"w %d %#x %#x\n" % word for word in session.words())
                    if files[2] and not ended:
                        self.assertEqual(_library.words(*files[:2], files[2], image), (0, told_words))
                    self.assertEqual(session.image(), _library.image(*files[:2], files[2], image))
                self.assertEqual(session.act("show r0\n"), (1, b""))
            except _library.Unopened as fault:
                ended, found = fault.status, [(fault.status, fault.text)]
            self.compare(row, (ended, b"".join(text for _, text in found)))

    def test_python_asks(self):
        """Commands by numbers tell what their lines tell, and a refusal says which it is."""
        with _library.Session(*map(read, HOST[:2])) as session:
            session.act("create r0 pmem 0x20000000 d1 d2\n")
            session.store(0x1100000fe, b"\xaa\xbb\xcc\xdd")
            self.assertEqual(session.load(0x1100000fe, 4), b"\xaa\xbb\xcc\xdd")
            place, names = session.down(0x110000100), [node.name for node in told.nodes_of(read(HOST[1]))]
            ways = " ".join(f"{names[it.node]}:{it.decoder}:{it.entry}" for it in place.via[:place.via_count])
            self.assertEqual(session.act("down 0x110000100\n")[1].decode(),
                             f"down 0x110000100 region {place.region} slot {place.slot} position {place.position} via {ways} "
                             f"endpoint {names[place.endpoint]} dpa {place.dpa:#x}\n")
            byte = session.up(names[place.endpoint], place.dpa)
            self.assertEqual((byte.hpa, str(byte.region)), (0x110000100, "r0"))
            for kind, ask in ((_library.UNMAPPED, lambda: session.down(0)), (_library.UNMAPPED, lambda: session.up("d1", 1 << 40)),
                              (_library.NO_ENDPOINT, lambda: session.up("d9", 0)), (_library.CROSSES_END, lambda: session.load(0x12fffffff, 2))):
                with self.assertRaises(_library.Refused) as caught:
                    ask()
                self.assertEqual((caught.exception.status, caught.exception.refusal.kind), (_library.REFUSED, kind))
            for ask in (lambda: session.load(0x110000000, 0), lambda: session.store(0x110000000, bytes(257)), lambda: session.up("", 0)):
                with self.assertRaises(_library.Refused) as caught:
                    ask()
                self.assertEqual(caught.exception.status, _library.USAGE)

    def test_rust(self):
        if not shutil.which("rustc"):
            self.skipTest("there is no Rust compiler here")
        strict = ["rustc", "--edition", "2021", "-O", "-D", "warnings"]
        crate = f"{self.folder}/libcxlplan.rlib"
        subprocess.run([*strict, "--crate-type", "rlib", "--crate-name", "cxlplan", "-o", crate, f"-Lnative={BUILT}", "-lstatic=cxlplan",
                        f"{TOP}/examples/rust/src/lib.rs"], check=True)
        for source in (f"{HERE}/answers.rs", f"{TOP}/examples/rust/src/bin/check.rs"):
            made = f"{self.folder}/{os.path.basename(source)}.made"
            subprocess.run([*strict, "--extern", f"cxlplan={crate}", f"-Lnative={BUILT}", "-o", made, source], check=True)
        self.compare_all(by_driver([f"{self.folder}/answers.rs.made"], self.worded))
        self.line_by_line([f"{self.folder}/answers.rs.made"], self.scripts())
        self.check_is_the_same(f"{self.folder}/check.rs.made")

    def test_example(self):
        self.check_is_the_same(self.compiled(f"{TOP}/examples/c/check.c", SHARED, f"-Wl,-rpath,{BUILT}"))

    def check_is_the_same(self, made):
        """A program that checks an image answers as the program does."""
        for _, files in images():
            ran = subprocess.run([made, *files], stdout=subprocess.PIPE, timeout=SECONDS, check=False)
            self.compare(["check", *files], (ran.returncode, ran.stdout))

    def test_cpp(self):
        if not shutil.which("c++"):
            self.skipTest("there is no C++ compiler here")
        source = write(f"{self.folder}/version.cc", b"#include <cxlplan.h>\nint main() { return cxlplan_version(nullptr, 0, nullptr); }\n")
        made = f"{self.folder}/version.made"
        subprocess.run(["c++", "-Wall", "-Wextra", "-Werror", f"-I{TOP}/library", "-o", made, source, STATIC], check=True)
        self.assertEqual(subprocess.run([made], check=False).returncode, 6)

    def test_names(self):
        """Header, shared library and Python module have the same calls, and the library shows no other name."""
        declared = set(re.findall(r"^int (cxlplan_\w+)\(", read(f"{TOP}/library/cxlplan.h").decode(), re.M))
        self.assertEqual(declared, {f"cxlplan_{it}" for it in (*_library._TAKES, *_library._ON_SESSION)})
        if shutil.which("nm"):
            said = subprocess.run(["nm", "-D", "--defined-only", SHARED], stdout=subprocess.PIPE, check=True).stdout.decode()
            self.assertEqual({line.split()[-1] for line in said.splitlines()}, declared)
        version = re.search(r'CXLPLAN_VERSION "(.*)"', read(f"{TOP}/library/cxlplan.h").decode()).group(1)
        self.assertEqual(_library.version(), (0, f"cxlplan {version}\n".encode()))


if __name__ == "__main__":
    unittest.main()
