"""`fleet`: many captures, as JSON lines and in SQLite, in process and over processors, and gone on with after a stop."""

import json
import os
import signal
import sqlite3
import subprocess
import sys
import time
import unittest
from contextlib import closing

from here import FOUR, LOST, PYTHON, SCHEMA, Case, asks_the_engine, faults, machines, said, written_hosts
from cxlplan import Host
from cxlplan.fleet import File, folders_in, judge


@asks_the_engine
class Fleet(Case):
    def setUp(self):
        super().setUp()
        self.hosts = self.path("hosts")
        good, lost = Host.from_files(*FOUR), Host.from_files(*LOST)
        for number in range(6):
            self.folder(f"hosts/rack{number % 2}/host{number}", lost if number == 4 else good)
        self.file("hosts/rack0/host0/image.bin", b"CXLHDM01")
        os.makedirs(self.path("hosts/empty"))

    def lines(self, text):
        return [json.loads(line) for line in text.splitlines()]

    @staticmethod
    def kept(out):
        """Of how many hosts a file has a verdict."""
        with closing(File(out)) as file:
            return len(file.done)

    def test_folders(self):
        self.assertEqual([os.path.relpath(it, self.hosts) for it in folders_in([self.hosts])],
                         [f"rack{i % 2}/host{i}" for i in (0, 2, 4, 1, 3, 5)])

    def test_lines(self):
        """A line for each host, by the schema; the status says whether all are sound."""
        status, text, line = said("fleet", self.hosts, "--jobs", "1")
        self.assertEqual((status, line), (8, "cxldesk: 6 hosts: 4 sound, 1 broken, 1 not read\n"))
        found = self.lines(text)
        for verdict in found:
            self.assertEqual(list(faults(verdict, SCHEMA)), [])
        self.assertEqual([(it["verdict"], it["text"]) for it in found if it["verdict"] != "sound"],
                         [("fault", "error: image cut 8"), ("breach", "breach K12 d4 0")])
        self.assertEqual(found[2]["breaches"][0], {"rule": "K12", "node": "d4", "decoder": 0})
        self.assertEqual(said("fleet", self.path("hosts/rack1"))[0], 0)

    def test_goes_on(self):
        """What a file holds is passed over, a line that was cut off is written anew, and a host that changed since is judged again."""
        out = self.path("out.jsonl")
        self.assertEqual(said("fleet", self.hosts, "--out", out)[2], "cxldesk: 6 hosts: 4 sound, 1 broken, 1 not read\n")
        with open(out, "rb+") as file:
            whole = file.read()
            file.truncate(len(whole) - 9)
        status, text, line = said("fleet", self.hosts, "--out", out)
        self.assertEqual((status, text, line), (8, "", "cxldesk: 6 hosts: 4 sound, 1 broken, 1 not read; 5 of them judged before\n"))
        self.assertEqual(self.kept(out), 6)
        self.file("hosts/rack0/host0/image.bin", Host.from_files(*FOUR).registers)
        self.assertEqual(said("fleet", self.hosts, "--out", out),
                         (8, "", "cxldesk: 6 hosts: 5 sound, 1 broken, 0 not read; 5 of them judged before\n"))
        self.assertEqual(self.kept(out), 6)

    def test_database(self):
        """The same in SQLite, asked there; with as many processors as there are."""
        base = self.path("fleet.db")
        status, text, _ = said("fleet", self.hosts, "--db", base)
        self.assertEqual((status, text), (8, ""))
        with sqlite3.connect(base) as opened:
            self.assertEqual(opened.execute("select verdict, count(*) from hosts group by verdict order by 1").fetchall(),
                             [("breach", 1), ("fault", 1), ("sound", 4)])
            self.assertEqual(opened.execute("select rule, node, decoder from breaches").fetchall(), [("K12", "d4", 0)])
            self.assertEqual(opened.execute("select endpoints, sum(size) from regions group by endpoints").fetchall(), [("d1 d2 d3 d4", 4 << 30)])
            self.assertEqual(opened.execute("select count(*) from decoders where committed").fetchone(), (30,))
        opened.close()
        self.assertEqual(said("fleet", self.hosts, "--db", base)[2], "cxldesk: 6 hosts: 4 sound, 1 broken, 1 not read; 6 of them judged before\n")
        self.assertEqual(said("fleet", self.hosts, "--db", self.file("none", b"no database at all, but words"))[0], 1)

    def test_processors(self):
        """Over several processors comes what comes over one."""
        machine = self.captured("x4-pass-switch")
        for number in range(250):
            os.makedirs(self.path(f"many/{number}"))
            for name in ("table.cedt", "topo.toml", "image.bin"):
                os.link(os.path.join(machine, name), self.path(f"many/{number}/{name}"))
        one, two = (sorted(said("fleet", self.path("many"), "--jobs", jobs)[1].splitlines()) for jobs in ("1", "3"))
        self.assertEqual((one, len(one)), (two, 250))

    def test_stopped(self):
        """Stopped by the keyboard it ends in one line, and goes on with what is left: each host has one verdict in the end."""
        machine = self.captured("x4-pass-switch")
        for number in range(1500):
            os.makedirs(self.path(f"many/{number}"))
            for name in ("table.cedt", "topo.toml", "image.bin"):
                os.link(os.path.join(machine, name), self.path(f"many/{number}/{name}"))
        out = self.path("out.jsonl")
        words = [sys.executable, os.path.join(PYTHON, "cxldesk"), "fleet", self.path("many"), "--out", out, "--jobs", "2"]
        ran = subprocess.Popen(words, stderr=subprocess.PIPE, stdout=subprocess.DEVNULL, start_new_session=True)
        while ran.poll() is None and not (os.path.exists(out) and os.path.getsize(out)):
            time.sleep(0.01)
        if ran.poll() is None:
            os.killpg(ran.pid, signal.SIGINT)
        line = ran.communicate(timeout=120)[1]
        self.assertIn((ran.returncode, line.decode().splitlines()[-1]), (
            (130, "cxldesk: interrupted"), (0, "cxldesk: 1500 hosts: 1500 sound, 0 broken, 0 not read")))
        done = self.kept(out)
        status, _, line = said("fleet", self.path("many"), "--out", out)
        self.assertEqual(status, 0)
        before = f"; {done} of them judged before" if done else ""
        self.assertEqual(line, f"cxldesk: 1500 hosts: 1500 sound, 0 broken, 0 not read{before}\n")
        with open(out, encoding="utf-8") as file:
            hosts = [json.loads(row)["host"] for row in file]
        self.assertEqual((len(hosts), len(set(hosts))), (1500, 1500))

    def test_judge(self):
        """One host, as another engine would ask."""
        for machine in machines.MACHINES + machines.HOLES + machines.NEWER:
            said_of = judge(self.captured(machine), decoders=True)
            self.assertEqual(list(faults(said_of, SCHEMA)), [])
            self.assertEqual(said_of["verdict"], "unknown" if machine in machines.HOLES else "told")
        self.assertEqual(judge(self.path("none"))["verdict"], "fault")
        for host in written_hosts():
            said_of = judge(self.folder(host.name, host), decoders=True)
            self.assertEqual((said_of["verdict"], list(faults(said_of, SCHEMA))), ("breach" if host.breach else "sound", []))


if __name__ == "__main__":
    unittest.main()
