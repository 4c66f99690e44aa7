"""Verdicts of a fleet in a SQLite file, with the tables hosts, breaches, regions and decoders."""

import os
import sqlite3
from contextlib import contextmanager
from itertools import groupby
from operator import itemgetter
from typing import Any

from .errors import BadFile
from .fleet import Keeper, digest_of, fault_in, taken_file

APPLICATION, FORM = 0x6378_6C64, 2  # what stands in the head of a database that is ours, and of which form it is
HEAD = b"SQLite format 3\0"
TABLES = {
    "hosts": "host text primary key, verdict text, status integer, text text, regions integer, stamp integer, digest integer",
    "breaches": "host text, rule text, node text, decoder integer",
    "regions": "host text, name text, base integer, size integer, window integer, gran integer, ways integer, kind text, endpoints text",
    "decoders": "host text, node text, number integer, committed integer, locked integer, base integer, size integer, ways integer, "
                "gran integer, targets text, skip integer",
}
BELOW = ("breaches", "regions", "decoders")  # the tables whose rows belong to a row of hosts
MADE = [f"CREATE TABLE {name} ({columns})" for name, columns in TABLES.items()]
MADE += [f"CREATE INDEX {name}_host on {name} (host)" for name in BELOW]


# ---- Rows of a verdict.

def stored(word: str):
    """A text as SQLite has it: as bytes one that is no text."""
    try:
        word.encode()
    except UnicodeEncodeError:
        return os.fsencode(word)
    return word


def numbered(value):
    """A number as SQLite has it: as hexadecimal text one of 2^63 or above."""
    return value if value is None or value < 1 << 63 else f"{value:#x}"


def database_rows(said: dict) -> tuple:
    """The row of a verdict in hosts, and those in the other tables, in their order."""
    host = stored(said["host"])
    breaches = [(host, *place.values()) for place in said["breaches"]]
    regions = [(host, it["name"], numbered(it["base"]), numbered(it["size"]), it["window"], it["gran"], it["ways"], it["kind"],
                " ".join(slot["endpoint"] for slot in it["slots"])) for it in said["regions"]]
    decoders = [(host, it.node, it.number, int(it.committed), int(it.lock), numbered(it.base), numbered(it.size), it.ways, it.gran,
                 None if it.targets is None else " ".join(map(str, it.targets)), numbered(it.skip)) for it in said.get("decoders", [])]
    head = (host, said["verdict"], said["status"], stored(said["text"]), len(said["regions"]), said["stamp"])
    return (*head, digest_of_rows(head, breaches, regions, decoders)), breaches, regions, decoders


def digest_of_rows(head: tuple, *below: list) -> int:
    """A number by which it is seen that a row of a host is another than it was."""
    return digest_of(ascii((head, below)).encode())


# ---- The file.

class Database(Keeper):
    """Verdicts in a SQLite file. One that is there is gone on with; it has to be one of these, and whole."""

    decoders = True
    row = staticmethod(database_rows)

    def __init__(self, file: str) -> None:
        super().__init__()
        self.file = os.path.realpath(file)
        self.end = taken_file(self.file)  # closed last, since that ends SQLite's own locks
        self.base: Any = None
        try:
            is_new = self.is_new()
            with self.told():
                self.base = sqlite3.connect(self.file)
                if is_new:
                    self.begin()
                else:
                    self.take_up()
                self.base.executescript("pragma journal_mode = wal; pragma synchronous = normal;")
        except BaseException:
            self.close()
            raise

    def is_new(self) -> bool:
        """Whether nothing is in the file; what is there has to be a database of ours, and else SQLite does not see it."""
        head = os.pread(self.end, 100, 0)
        if head and (head[:16] != HEAD or int.from_bytes(head[68:72], "big") != APPLICATION):
            raise fault_in(self.file, "is there already, and no database of fleet")
        if head and int.from_bytes(head[60:64], "big") != FORM:
            raise fault_in(self.file, "is a database of another cxldesk; begin a new one")
        return not head

    @contextmanager
    def told(self):
        """What SQLite finds wrong, as a line."""
        try:
            yield
        except sqlite3.Error as fault:
            raise self.fault(str(fault)) from None

    def fault(self, why: str) -> BadFile:
        return fault_in(self.file, why)

    def begin(self) -> None:
        self.base.executescript(f"begin; pragma application_id = {APPLICATION}; pragma user_version = {FORM}; " + "; ".join(MADE) + "; commit;")

    def take_up(self) -> None:
        """Reads which hosts are there, and whether all is as it was written."""
        found = self.base.execute("pragma integrity_check(1)").fetchone()[0]
        if found != "ok":
            raise self.fault(f"is damaged: {found.splitlines()[-1]}")
        made = {sql for sql, in self.base.execute("select sql from sqlite_master where sql is not null")}
        if not made:
            self.begin()  # it was stopped while it was made
        elif not made.issuperset(MADE):
            raise self.fault("is damaged: its tables are others")
        with self.base:
            for name in BELOW:
                self.base.execute(f"delete from {name} where host not in (select host from hosts)")
        streams = [Groups(self.base.execute(f"select * from {name} order by host, rowid")) for name in BELOW]
        for *head, digest in self.base.execute("select * from hosts order by host"):
            if digest_of_rows(tuple(head), *(it.of(head[0]) for it in streams)) != digest:
                raise self.fault("is damaged: a host has other rows than were written")
            self.done[os.fsdecode(head[0])] = head[5], head[1]

    def drop(self, hosts: set) -> None:
        with self.told(), self.base:
            self.take_out(hosts)

    def take_out(self, hosts) -> None:
        for table in TABLES:
            self.base.executemany(f"delete from {table} where host = ?", [(stored(it),) for it in hosts])

    def add(self, rows: list) -> None:
        with self.told(), self.base:
            for place, (table, columns) in enumerate(TABLES.items()):
                marks = ", ".join("?" * (columns.count(",") + 1))
                found = [it[0] for it in rows] if place == 0 else [row for it in rows for row in it[place]]
                self.base.executemany(f"insert into {table} values ({marks})", found)

    def close(self) -> None:
        if self.base is not None:
            self.base.close()
        os.close(self.end)


class Groups:
    """The rows of a table by rising host, taken host by host."""

    def __init__(self, rows) -> None:
        self.groups = groupby(rows, key=itemgetter(0))
        self.next = next(self.groups, None)

    def of(self, host) -> list:
        """The rows of a host, where they are the next."""
        if self.next is None or self.next[0] != host:
            return []
        found = list(self.next[1])
        self.next = next(self.groups, None)
        return found
