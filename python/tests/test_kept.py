"""What `fleet` keeps, and what it meets: outputs that are gone on with, hosts that cannot be judged, and stops at any moment. The engine
is one that stands in, so nothing has to be built."""

import json
import os
import resource
import signal
import socket
import sqlite3
import subprocess
import sys
import time
import unittest
from contextlib import closing

import stand_in
from here import HERE, SCHEMA, Case, faults, said
from cxlplan import _engine
from cxlplan.fleet import File, apart, folders_in, hosts_in, judge, stamp_of
from stand_in import BROKEN, DEAD, SLOW, SOUND

FILES = ("table.cedt", "topo.toml", "image.bin")
DESK = [sys.executable, os.path.join(HERE, "stand_in.py"), "fleet"]


class Kept(Case):
    """A case over the engine that stands in."""

    def setUp(self):
        super().setUp()
        stand_in.use()
        self.addCleanup(_engine.use, None)
        self.top, self.out, self.base = (self.path(name) for name in ("hosts", "out.jsonl", "out.db"))
        os.mkdir(self.top)

    def host(self, name, image=SOUND, files=FILES):
        folder = os.path.join(self.top, name)
        os.makedirs(folder, exist_ok=True)
        for file in files:
            with open(os.path.join(folder, file), "wb") as opened:
                opened.write(image)
        return folder

    def outputs(self):
        return ("--out", self.out), ("--db", self.base)

    def kept(self, option):
        """What an output holds: the verdict of each host."""
        if option == "--db":
            with closing(sqlite3.connect(self.base)) as base:
                return sorted((os.path.relpath(os.fsdecode(host), self.top), verdict) for host, verdict in
                              base.execute("select host, verdict from hosts"))
        with open(self.out, encoding="utf-8") as file:
            rows = [json.loads(row) for row in file]
        for row in rows:
            self.assertEqual(list(faults(row, SCHEMA)), [])
        return sorted((os.path.relpath(row["host"], self.top), row["verdict"]) for row in rows)

    def fleet(self, *words):
        """The status of a run, and its last line."""
        status, _, line = said("fleet", self.top, *words)
        return status, line.splitlines()[-1].replace("cxldesk: ", "")


class GoneOn(Kept):
    """A run over an output that is there."""

    def test_status(self):
        """Hosts that were judged before count as much as others."""
        self.host("a")
        self.host("b", BROKEN)
        for words in self.outputs():
            self.assertEqual(self.fleet(*words), (8, "2 hosts: 1 sound, 1 broken, 0 not read"))
            self.assertEqual(self.fleet(*words), (8, "2 hosts: 1 sound, 1 broken, 0 not read; 2 of them judged before"))

    def test_replaced(self):
        """A file that another one takes the place of is seen, however old that is."""
        older, new = self.host("older", BROKEN), self.host("a")
        other = self.path("other")
        os.rename(older, other)
        at = os.path.join(new, "image.bin")
        for words in self.outputs():
            with open(at, "wb") as file:
                file.write(SOUND)
            self.assertEqual(self.fleet(*words)[0], 0)
            was = os.stat(at)
            with open(at, "wb") as file:
                file.write(BROKEN[:len(SOUND)] if len(BROKEN) == len(SOUND) else BROKEN)
            os.utime(at, ns=(was.st_atime_ns, was.st_mtime_ns - 10 ** 12))
            self.assertEqual(self.fleet(*words)[0], 8)
            self.assertEqual(self.kept(words[0]), [("a", "breach")])
        before = stamp_of(new)
        os.utime(os.path.join(other, "image.bin"), ns=(was.st_atime_ns, was.st_mtime_ns))
        os.rename(os.path.join(other, "image.bin"), at)
        self.assertNotEqual(stamp_of(new), before)

    def test_gone(self):
        """A host whose folder is gone is taken out, also where other folders are named."""
        for words in self.outputs():
            folder = self.host("rack/a", BROKEN)
            self.host("b")
            self.assertEqual(self.fleet(*words)[0], 8)
            for name in FILES:
                os.remove(os.path.join(folder, name))
            os.rmdir(folder)
            status, _, line = said("fleet", os.path.join(self.top, "b"), *words)
            self.assertEqual((status, line), (0, "cxldesk: 1 hosts: 1 sound, 0 broken, 0 not read; 1 of them judged before; 1 gone since\n"))
            self.assertEqual(self.kept(words[0]), [("b", "sound")])

    def test_elsewhere(self):
        """Hosts of an output that are not named now are looked at, too."""
        for words in self.outputs():
            self.host("a")
            self.host("b")
            self.assertEqual(self.fleet(*words)[0], 0)
            self.host("a", BROKEN)
            self.assertEqual(said("fleet", os.path.join(self.top, "b"), *words)[::2],
                             (8, "cxldesk: 2 hosts: 1 sound, 1 broken, 0 not read; 1 of them judged before\n"))
            self.assertEqual(self.kept(words[0]), [("a", "breach"), ("b", "sound")])

    def test_once(self):
        """A host has one verdict, by whichever name its folder is named, and from whichever folder."""
        self.host("rack/a")
        self.host("rack/b")
        os.symlink(self.top, self.path("link"))
        places = [self.path("link/rack"), self.top, f"{self.top}/rack", f"{self.top}/./rack/a"]
        self.assertEqual(apart(places), [self.top])
        self.assertEqual(len(list(folders_in(places))), 2)
        self.assertEqual(apart([f"{self.top}/rack", f"{self.top}/rack/"]), [f"{self.top}/rack"])
        self.assertEqual(apart(["/a/bc", "/a/b"]), ["/a/bc", "/a/b"])
        for words in self.outputs():
            said("fleet", self.top, *words)
            ran = subprocess.run([*DESK, "hosts/rack", *words], cwd=self.place, capture_output=True, text=True, check=False)
            self.assertEqual((ran.returncode, ran.stderr), (0, "cxldesk: 2 hosts: 2 sound, 0 broken, 0 not read; 2 of them judged before\n"))
            self.assertEqual(self.kept(words[0]), [("rack/a", "sound"), ("rack/b", "sound")])


class NotJudged(Kept):
    """Hosts that cannot be judged are lines and counts, and are passed over when the run is gone on with."""

    def put(self, name, make):
        """A host with something in the place of its image."""
        at = os.path.join(self.host(name, files=FILES[:2]), "image.bin")
        make(at)

    def odd_hosts(self):
        self.host("whole")
        self.host("no-image", files=FILES[:2])
        self.host("no-topology", files=FILES[::2])
        self.put("pipe", os.mkfifo)
        self.put("folder", os.mkdir)
        self.put("device-link", lambda at: os.symlink("/dev/zero", at))
        self.put("outside-link", lambda at: os.symlink("/etc/hostname", at))
        self.put("lost-link", lambda at: os.symlink("none", at))
        self.put("own-link", lambda at: os.symlink("image.bin", at))
        self.put("pipe-link", lambda at: (os.mkfifo(at + ".pipe"), os.symlink("image.bin.pipe", at)))
        self.put("empty", lambda at: open(at, "wb").close())
        self.put("large", lambda at: os.truncate(os.open(at, os.O_CREAT | os.O_WRONLY), 1 << 32))
        with closing(socket.socket(socket.AF_UNIX)) as end:
            self.put("socket", lambda at: (os.chdir(os.path.dirname(at)), end.bind("image.bin"), os.chdir(HERE)))
        self.host(os.fsdecode(b"no\xffutf8"))
        self.host("line\nfeed\x1b[2J")
        os.symlink("image.bin", os.path.join(self.host("good-link", files=FILES[:2]), "image.real"))
        folder = self.host("linked-within", files=FILES[:2])
        with open(os.path.join(folder, "kept"), "wb") as file:
            file.write(SOUND)
        os.symlink("kept", os.path.join(folder, "image.bin"))

    def test_each(self):
        self.odd_hosts()
        wanted = {"whole": "sound", "linked-within": "sound", os.fsdecode(b"no\xffutf8"): "sound", "line\nfeed\x1b[2J": "sound"}
        for words in self.outputs():
            started = time.monotonic()
            self.assertEqual(self.fleet(*words), (8, "17 hosts: 4 sound, 0 broken, 13 not read"))
            found = self.kept(words[0])
            self.assertEqual(len(found), 17)
            for name, verdict in found:
                self.assertEqual(verdict, wanted.get(name, "fault"), name)
            self.assertEqual(self.fleet(*words), (8, "17 hosts: 4 sound, 0 broken, 13 not read; 17 of them judged before"))
            self.assertLess(time.monotonic() - started, 30)
        with open(self.out, encoding="utf-8") as file:
            texts = {os.path.basename(it["host"]): it["text"].rsplit(": ", 1)[-1] for it in map(json.loads, file)}
        self.assertEqual({name: texts[name] for name in ("pipe", "folder", "device-link", "outside-link", "pipe-link", "large", "no-image", "socket")}, {
            "pipe": "is a pipe", "folder": "is a folder", "device-link": "is a link out of its folder", "outside-link": "is a link out of its folder",
            "pipe-link": "is a pipe", "large": "more than 1048576 bytes", "no-image": "No such file or directory", "socket": "is a socket"})

    def test_nothing_there(self):
        """A folder without a host is a line, until there is one."""
        for words in self.outputs():
            self.assertEqual(self.fleet(*words), (8, "1 hosts: 0 sound, 0 broken, 1 not read"))
            self.assertEqual(self.fleet(*words), (8, "1 hosts: 0 sound, 0 broken, 1 not read; 1 of them judged before"))
            folder = self.host("a")
            self.assertEqual(self.fleet(*words), (0, "1 hosts: 1 sound, 0 broken, 0 not read; 1 gone since"))
            for name in FILES:
                os.remove(os.path.join(folder, name))
            os.rmdir(folder)

    @unittest.skipIf(os.geteuid() == 0 and not os.path.exists("/usr/bin/setpriv"), "root reads each folder")
    def test_no_permission(self):
        self.host("a")
        closed = os.path.join(self.top, "closed")
        os.mkdir(closed, 0)
        image = os.path.join(self.host("secret"), "image.bin")
        os.chmod(image, 0)
        words = [*DESK, self.top, "--out", self.out]
        if os.geteuid() == 0:
            os.chmod(self.place, 0o777)
            words = ["setpriv", "--reuid=65534", "--regid=65534", "--clear-groups", "--", *words]
        try:
            ran = subprocess.run(words, capture_output=True, text=True, check=False)
            again = subprocess.run(words, capture_output=True, text=True, check=False)
        finally:
            os.chmod(closed, 0o700)
        self.assertEqual((ran.returncode, ran.stderr), (8, "cxldesk: 3 hosts: 1 sound, 0 broken, 2 not read\n"))
        self.assertEqual((again.returncode, again.stderr), (8, "cxldesk: 3 hosts: 1 sound, 0 broken, 2 not read; 3 of them judged before\n"))

    def test_long_paths(self):
        """A path that the system takes no more is a line."""
        here = os.getcwd()
        try:
            os.chdir(self.host("a"))
            for _ in range(30):
                os.mkdir("d" * 200)
                os.chdir("d" * 200)
            with open("image.bin", "wb") as file:
                file.write(SOUND)
        finally:
            os.chdir(here)
        for words in self.outputs():
            self.assertEqual(self.fleet(*words), (8, "2 hosts: 1 sound, 0 broken, 1 not read"))
            self.assertEqual(self.fleet(*words)[1], "2 hosts: 1 sound, 0 broken, 1 not read; 2 of them judged before")

    def test_large_numbers(self):
        """What a dead device reads like: each number is kept as it is."""
        self.host("dead", DEAD)
        self.assertEqual(self.fleet("--db", self.base), (8, "1 hosts: 0 sound, 1 broken, 0 not read"))
        with closing(sqlite3.connect(self.base)) as base:
            self.assertEqual(base.execute("select base, size, skip, ways from decoders").fetchall(),
                             [("0xfffffffff0000000", "0xfffffffff0000000", "0xffffffffffffffff", 1)])
        self.assertEqual(self.fleet("--db", self.base), (8, "1 hosts: 0 sound, 1 broken, 0 not read; 1 of them judged before"))

    def test_any_fault(self):
        """A fault of the judging itself is one host's verdict."""
        folder = self.host("a")
        _engine.use(None)
        engine = stand_in.StandIn()
        engine.check = lambda *_: 1 / 0
        _engine.use(engine)
        self.assertEqual(judge(folder)["text"], "not understood: ZeroDivisionError")


class Outputs(Kept):
    """No file is touched that is not of fleet, and no output has two runs."""

    def test_other_files(self):
        folder = self.host("a")
        foreign = self.path("foreign.db")
        with closing(sqlite3.connect(foreign)) as base:
            base.executescript("create table own (it text); insert into own values ('kept')")
        self.file("words", "words\n")
        self.file("half", '{"schema": "cxldesk/1", "host": 3}\n')
        self.file("cut", b"no line's end")
        os.mkfifo(self.path("pipe"))
        for option in ("--out", "--db"):
            for file in (os.path.join(folder, "image.bin"), foreign, *map(self.path, ("words", "half", "cut", "pipe"))):
                with self.subTest(option=option, file=file):
                    before = self.bytes_of(file)
                    status, text, line = said("fleet", self.top, option, file)
                    self.assertEqual((status, text), (1, ""))
                    self.assertRegex(line, r"\Acxldesk: .*: is (there already, and no (output|database) of fleet|no plain file)\n\Z")
                    self.assertEqual(before, self.bytes_of(file))
        self.assertEqual(sorted(os.listdir(folder)), sorted(FILES))

    @staticmethod
    def bytes_of(file):
        if not os.path.isfile(file):
            return None
        with open(file, "rb") as opened:
            return opened.read()

    def test_cut_off(self):
        """A line that was cut off is written anew; one in the middle that is none of fleet's is refused."""
        for number in range(3):
            self.host(f"h{number}")
        self.fleet("--out", self.out)
        with open(self.out, "rb") as file:
            whole = file.read()
        last = whole.rindex(b"\n", 0, -1) + 1
        for size in range(last, len(whole)):
            with open(self.out, "wb") as file:
                file.write(whole[:size])
            with closing(File(self.out)) as kept:
                self.assertEqual((len(kept.done), os.path.getsize(self.out)), (2, last))
        with open(self.out, "wb") as file:
            file.write(whole[:last - 9] + b"\n" + whole[last:])
        self.assertEqual(said("fleet", self.top, "--out", self.out), (1, "", f"cxldesk: {self.out}: line 2 is none that fleet wrote\n"))

    def test_damage(self):
        """A database in which a byte is another one is refused, or says what it said."""
        for number in range(8):
            self.host(f"h{number}", (SOUND, BROKEN, DEAD)[number % 3])
        self.fleet("--db", self.base)
        with open(self.base, "rb") as file:
            whole = file.read()
        wanted, refused = self.content(), 0
        for place in range(18, len(whole), 97):
            with open(self.base, "wb") as file:
                file.write(whole[:place] + bytes([whole[place] ^ 0x15]) + whole[place + 1:])
            status, text, line = said("fleet", self.top, "--db", self.base)
            self.assertEqual((text, len(line.splitlines())), ("", 1), place)
            refused += status == 1
            if status != 1:
                self.assertEqual(self.content(), wanted, place)
        self.assertGreater(refused, 20)

    def content(self):
        with closing(sqlite3.connect(self.base)) as base:
            return [base.execute(f"select * from {name} order by host, rowid").fetchall() for name in ("hosts", "regions", "breaches", "decoders")]

    def test_two_runs(self):
        """A second run on an output that a first one writes is refused, and the first goes on."""
        for number in range(8):
            self.host(f"h{number}", SLOW)
        for words in self.outputs():
            with closing(self.keeper(words)):
                self.assertEqual(self.fleet(*words), (1, f"{words[1]}: another run writes it"))
            self.assertEqual(self.fleet(*words)[0], 0)
            with closing(self.keeper(words)) as first:
                first.drop({os.path.join(self.top, "h0")})  # by which a file is made anew
                self.assertEqual(self.fleet(*words), (1, f"{words[1]}: another run writes it"))
            self.assertEqual(self.fleet(*words)[0], 0)
            self.assertEqual(len(self.kept(words[0])), 8)

    @staticmethod
    def keeper(words):
        from cxlplan.database import Database
        return (File if words[0] == "--out" else Database)(words[1])

    def test_full(self):
        """Where an output takes no more there is one line, and what it has is whole."""
        for number in range(400):
            self.host(f"h{number}")
        for words in self.outputs():
            def limited():
                resource.setrlimit(resource.RLIMIT_FSIZE, (60_000, 60_000))  # pylint: disable=cell-var-from-loop
            ran = subprocess.run([*DESK, self.top, *words, "--jobs", "1"], capture_output=True, text=True, check=False, preexec_fn=limited)
            self.assertEqual((ran.returncode, ran.stdout, ran.stderr.count("\n")), (1, "", 1), ran.stderr)
            self.assertEqual(self.fleet(*words)[0], 0)
            self.assertEqual(self.kept(words[0]), sorted((f"h{number}", "sound") for number in range(400)))
        with open("/dev/full", "wb") as full:
            ran = subprocess.run([*DESK, self.top], stdout=full, stderr=subprocess.PIPE, text=True, check=False)
        self.assertEqual((ran.returncode, ran.stderr), (6, "cxldesk: standard output: No space left on device\n"))

    def test_words(self):
        self.host("a")
        for words, line in ((("--jobs", "0"), "--jobs takes 1 to 1024; see cxldesk fleet --help"),
                            (("--jobs", "9" * 5000), f"'{'9' * 60}..' is above 0xffffffffffffffff"),
                            (("--db", self.base, "--out", self.out), "--db and --out do not go together; see cxldesk fleet --help"),
                            (("--out", self.top), f"{self.top}: is a folder"), (("--db", self.top), f"{self.top}: is a folder"),
                            (("--out", "/none/out"), "/none/out: No such file or directory")):
            self.assertEqual(said("fleet", self.top, *words), (1, "", f"cxldesk: {line}\n"))


class Stopped(Kept):
    """INT, TERM and KILL at any moment: nothing is lost or doubled, and nothing stays behind."""

    def test_each(self):
        for number in range(600):
            self.host(f"h{number}", SLOW if number % 100 == 0 else SOUND)
        for sign, status, line in ((signal.SIGINT, 130, "cxldesk: interrupted\n"), (signal.SIGTERM, 143, "cxldesk: terminated\n"),
                                   (signal.SIGKILL, -9, "")):
            for words in self.outputs():
                for delay in (0.0, 0.05):
                    self.stop(words, sign, delay, status, line)

    def stop(self, words, sign, delay, status, line):
        for name in os.listdir(self.place):
            if name.startswith("out."):
                os.remove(self.path(name))
        ran = subprocess.Popen([*DESK, self.top, *words, "--jobs", "2"], stderr=subprocess.PIPE, stdout=subprocess.DEVNULL, start_new_session=True)
        started = time.monotonic()
        while ran.poll() is None and not (os.path.exists(words[1]) and os.path.getsize(words[1])) and time.monotonic() - started < 20:
            time.sleep(0.005)
        time.sleep(delay)
        ran.send_signal(sign)
        text = ran.communicate(timeout=60)[1].decode()
        with self.subTest(words=words, sign=sign, delay=delay):
            if ran.returncode != 0:
                self.assertEqual((ran.returncode, text), (status, line))
            self.assertEqual(self.left(ran.pid), [])
            self.assertEqual(self.fleet(*words)[0], 0)
            self.assertEqual(self.kept(words[0]), sorted((f"h{number}", "sound") for number in range(600)))
            self.assertEqual({name for name in os.listdir(self.place) if not name.startswith(os.path.basename(words[1]))}, {"hosts"})

    @staticmethod
    def left(group):
        """The processes of a group, once they had a moment to end."""
        for _ in range(200):
            found = []
            for name in filter(str.isdigit, os.listdir("/proc")):
                try:
                    with open(f"/proc/{name}/stat", encoding="utf-8") as file:
                        fields = file.read().rsplit(")", 1)[1].split()
                except OSError:
                    continue
                if int(fields[2]) == group and fields[0] != "Z":
                    found.append(name)
            if not found:
                return found
            time.sleep(0.02)
        return found


class Places(Kept):
    def test_reasons(self):
        """A place without a host, and a folder that is none, come with why."""
        self.host("a")
        os.mkdir(self.path("none"))
        self.assertEqual(list(hosts_in([self.top, self.path("none")])), [
            (os.path.join(self.top, "a"), ""), (self.path("none"), f"{self.path('none')}: no host is in it")])


if __name__ == "__main__":
    unittest.main()
