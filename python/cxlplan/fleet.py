"""Thousands of captures judged in process, on as many processors as there are: folders that cxl-capture made.

`judge` is one host, for other engines to spread over machines. `File` keeps verdicts as JSON lines; `database` has them in SQLite, and
`workers` the processors."""

import errno
import fcntl
import json
import os
import stat
from hashlib import blake2b
from typing import Callable, Iterable, Iterator

from . import texts
from ._engine import engine
from .errors import BadFile, CxlError, NoEngine, fault_of
from .files import Nameless, write_all
from .incoming import FILES, read_within, why_not
from .sources import FILE as SOURCES
from .sources import VERDICT_WORDS, sources_of

SCHEMA = "cxldesk/1"
VERDICTS = tuple(VERDICT_WORDS)
CHUNK = 100  # hosts that a worker is given at once


# ---- Where hosts are.

def folders_in(places: Iterable[str]) -> Iterator[str]:
    """Each folder with a host's files, in and below these places, in the order of their names."""
    return (folder for folder, why in hosts_in(places) if not why)


def hosts_in(places: Iterable[str]) -> Iterator[tuple]:
    """Each folder that has some of a host's files, in and below these places, in the order of their names; and with a reason each folder
    that cannot be looked into, and each place without a host. A place that stands in another, or was named before, is passed over."""
    for place in apart(list(places)):
        is_empty = True
        for folder, why in below(place):
            is_empty = False
            yield folder, why
        if is_empty:
            yield place, f"{place}: no host is in it"


def apart(places: list) -> list:
    """These places without those that lie in others, or are others by another name."""
    kept, last = [], None
    for top, at in sorted((os.path.join(os.path.realpath(it), ""), at) for at, it in enumerate(places)):
        if last is None or not top.startswith(last):
            kept.append(at)
            last = top
    return [places[at] for at in sorted(kept)]


def below(place: str) -> Iterator[tuple]:
    """The hosts in and below one place."""
    stack = [place]
    while stack:
        folder = stack.pop()
        try:
            with os.scandir(folder) as entries:
                found = sorted(entries, key=lambda it: it.name)
        except OSError as fault:
            yield folder, f"{folder}: {why_not(fault)}"
            continue
        if not {it.name for it in found}.isdisjoint(FILES):
            yield folder, ""
        stack += [it.path for it in reversed(found) if it.is_dir(follow_symlinks=False)]


def stamp_of(folder: str) -> int:
    """A number that is another one where a file of a host is another, or was written or changed since: of their sizes, places on the disk,
    and times, also that of their last change, which nobody sets. 0 where none of the files is there."""
    return looked_at(folder)[0]


def looked_at(folder: str) -> tuple:
    """The stamp of a host, and of each of its files what is in its place; 0 where that cannot be seen."""
    marks: list = []
    modes = [mode_of(f"{folder}/{name}", marks) for name in FILES]
    is_gone = not any(modes) and all(it in (errno.ENOENT, errno.ENOTDIR) for it in marks)
    mode_of(f"{folder}/{SOURCES}", marks)
    return 0 if is_gone else digest_of(repr(marks).encode()), modes


def mode_of(path: str, marks: list) -> int:
    """What is in a place, and behind `marks` what tells it from another: of a link also what it leads to."""
    try:
        it = os.lstat(path)
        marks += (it.st_size, it.st_mtime_ns, it.st_ctime_ns, it.st_ino, it.st_mode)
        if not stat.S_ISLNK(it.st_mode):
            return it.st_mode
        other = os.stat(path)
        marks += (other.st_size, other.st_mtime_ns, other.st_ctime_ns, other.st_ino, other.st_mode)
        return it.st_mode
    except (OSError, ValueError) as fault:
        marks.append(getattr(fault, "errno", None) or 0)
        return 0


def digest_of(data: bytes) -> int:
    """A positive number of 63 bits for these bytes, which SQLite takes."""
    return (int.from_bytes(blake2b(data, digest_size=8).digest(), "big") >> 1) | 1


# ---- Verdicts.

def judge(folder: str, decoders: bool = False) -> dict:
    """What is to be said of the host in a folder: `verdict` is sound, breach or fault by its registers, and told, unknown or outside where
    the capture says that these were not read, are not known, or are not all that the host uses. Of its decoders those are told that are
    committed, or were to be."""
    said = facts_of(folder, decoders)
    if "decoders" in said:
        said["decoders"] = [it.as_dict() for it in said["decoders"]]
    return said


def facts_of(folder: str, decoders: bool) -> dict:
    """The same, with decoders as facts."""
    stamp, modes = looked_at(folder)
    said = {"schema": SCHEMA, "host": folder, "verdict": "fault", "status": 2, "text": "", "regions": [], "breaches": [], "stamp": stamp}
    try:
        files = [read_within(folder, name, mode=mode) for name, mode in zip(FILES, modes)]
        status, data = engine().check(*files)
        text = data.decode("ascii", "replace")
        said["status"] = status
        if status == 0:
            said["verdict"], said["regions"] = "sound", [it.as_dict() for it in texts.regions(text)]
        elif status == 8:
            said["verdict"], said["text"] = "breach", text.rstrip("\n")
            said["breaches"] = [it.as_dict() for it in places_of(files) or texts.places(text)]
        else:
            raise fault_of(status, text)
        if decoders:
            said["decoders"] = engine().decoders(*files, only_used=True)
    except NoEngine:
        raise  # it is none of this host
    except CxlError as fault:
        said.update(status=fault.status, text=fault.text)
    except Exception as fault:  # pylint: disable=broad-except
        said.update(verdict="fault", status=5, text=f"not understood: {type(fault).__name__}")  # one host does not end the others' run
    sources = sources_of(folder)
    if sources:
        said.update(verdict=sources.verdict(said["verdict"]), sources=sources.as_dict())
    return said


def not_judged(folder: str, why: str) -> dict:
    """The verdict on a folder that cannot be looked into."""
    return {"schema": SCHEMA, "host": folder, "verdict": "fault", "status": 2, "text": why, "regions": [], "breaches": [],
            "stamp": stamp_of(folder)}


def places_of(files: list) -> list:
    """The broken places, where there is the library, which tells them all."""
    try:
        return engine().breaches(*files)
    except NoEngine:
        return []


# ---- Where verdicts are kept.

class Keeper:
    """Where verdicts go. `done` tells of each host that it has its stamp and its verdict."""

    decoders = False
    row: Callable  # makes of a verdict what `add` takes; in the worker

    def __init__(self) -> None:
        self.done: dict = {}

    def drop(self, hosts: set) -> None:
        """Takes hosts out: those that are gone, or are to be judged anew."""

    def add(self, rows: list) -> None:
        """Takes what `row` made of verdicts, all or none."""
        raise NotImplementedError

    def close(self) -> None:
        """Gives it back."""


def text_row(said: dict) -> str:
    return json.dumps(said) + "\n"


class Lines(Keeper):
    """Verdicts as JSON lines on an open output."""

    row = staticmethod(text_row)

    def __init__(self, output) -> None:
        super().__init__()
        self.output = output

    def add(self, rows: list) -> None:
        self.output.write("".join(rows))
        self.output.flush()


class File(Keeper):
    """Verdicts as JSON lines in a file, a line for each host. A file that is there is gone on with, and has to be one of these."""

    row = staticmethod(text_row)
    begin = b'{"schema": "cxldesk/1", "host": "'

    def __init__(self, file: str) -> None:
        super().__init__()
        self.file = os.path.realpath(file)
        self.end = taken_file(self.file)
        self.places: dict = {}  # of each host's line, the last where there are more
        self.whole = self.count = 0
        try:
            self.take_up()
        except BaseException:
            os.close(self.end)
            raise

    def take_up(self) -> None:
        """Reads the lines that are there; one at the end that was cut off is taken away."""
        with open(self.file, "rb") as lines:
            for line in lines:
                if not line.endswith(b"\n"):
                    if not line.startswith(self.begin) and not self.begin.startswith(line):
                        raise fault_in(self.file, "is there already, and no output of fleet")
                    break
                self.take(line)
        os.ftruncate(self.end, self.whole)
        os.lseek(self.end, self.whole, os.SEEK_SET)

    def take(self, line: bytes) -> None:
        self.count += 1
        try:
            said = json.loads(line)
            host = os.path.abspath(said["host"])
            if said["schema"] != SCHEMA or said["verdict"] not in VERDICTS:
                raise ValueError
            self.done[host] = said["stamp"], said["verdict"]
        except (ValueError, KeyError, TypeError, RecursionError):
            why = "is there already, and no output of fleet" if self.count == 1 else f"line {self.count} is none that fleet wrote"
            raise fault_in(self.file, why) from None
        self.places[host] = self.whole, len(line)
        self.whole += len(line)

    def drop(self, hosts: set) -> None:
        """Makes the file anew without these hosts' lines, and without lines that others of the same host followed."""
        if not hosts and self.count == len(self.places):
            return
        kept = {host: place for host, place in self.places.items() if host not in hosts}
        data = os.pread(self.end, self.whole, 0)
        try:
            with Nameless(os.path.dirname(self.file)) as made:
                whole = b"".join(data[at:at + size] for at, size in sorted(kept.values()))
                write_all(made.end, whole)
                end = lock(os.dup(made.end), self.file)
                made.put_over(self.file)
        except OSError as fault:
            raise fault_in(self.file, why_not(fault)) from None
        os.close(self.end)
        self.end, self.whole, self.places, self.count = end, len(whole), kept, len(kept)

    def add(self, rows: list) -> None:
        data = "".join(rows).encode()
        try:
            write_all(self.end, data)
        except OSError as fault:
            os.ftruncate(self.end, self.whole)
            raise fault_in(self.file, why_not(fault)) from None
        self.whole += len(data)

    def close(self) -> None:
        os.close(self.end)


def fault_in(file: str, why: str) -> BadFile:
    return BadFile(f"{file}: {why}", 1, "cannot write", file)


def taken_file(file: str) -> int:
    """An open file for verdicts, which no other run has. It is made where it is not there."""
    if os.path.lexists(file) and not os.path.isfile(file):
        raise fault_in(file, "is a folder" if os.path.isdir(file) else "is no plain file")
    try:
        end = lock(os.open(file, os.O_RDWR | os.O_CREAT | os.O_CLOEXEC | os.O_NOCTTY | os.O_NONBLOCK, 0o666), file)
        is_it = os.path.samestat(os.fstat(end), os.stat(file))  # and none that another run has put another one over
    except (OSError, ValueError) as fault:
        raise fault_in(file, why_not(fault)) from None
    if not is_it:
        os.close(end)
        raise fault_in(file, "another run writes it")
    return end


def lock(end: int, file: str) -> int:
    """The open file, which is this run's alone until it is closed."""
    try:
        fcntl.flock(end, fcntl.LOCK_EX | fcntl.LOCK_NB)
    except BlockingIOError:
        os.close(end)
        raise fault_in(file, "another run writes it") from None
    return end
