"""A guest captured in each form that cxl-capture has, and what the program says of the files."""

import io
import os
import subprocess
import sys
import tarfile
from dataclasses import dataclass
from typing import Optional

from guest import CAPTURE, Guest
from packages import reader

import cxlplan

DESK = os.path.join(os.path.dirname(os.path.dirname(CAPTURE)), "python", "cxldesk")
READ, TOLD, COPY, LIST, SHORT = "registers", "attributes", "copy", "list", "short list"
LISTS = {LIST: "-vvv", SHORT: "-BDEPMRT"}


@dataclass
class Captured:
    """What a form made: where nothing was, `host` is None, and `said` why."""
    status: int
    said: str
    host: Optional[cxlplan.Host]
    note: str = ""

    def verdict(self) -> str:
        """What the program says of the files, in a few words that hang on no name."""
        if self.host is None:
            return "none"
        return verdict_of(self.host)


def verdict_of(host: cxlplan.Host) -> str:
    try:
        return f"sound, {len(host.check())} regions"
    except cxlplan.CxlError as fault:
        return str(fault).partition("\n")[0]


def forms_in_guest() -> dict:
    """The words of each form that works in the guest. Where registers are read without being asked for, the other has words."""
    with open(CAPTURE, encoding="utf-8") as opened:
        reads = '"--attributes"' in opened.read()
    return {READ: [] if reads else ["--registers"], TOLD: ["--attributes"] if reads else []}


class Captures:
    """The captures of a guest, each in a folder below one on the desk."""

    def __init__(self, guest: Guest, folder: str):
        self.guest, self.folder, self.count = guest, folder, 0

    def take(self, *forms: str) -> dict:
        """The guest as it is now, in these forms or in each."""
        self.count += 1
        inside, outside = f"/tmp/{self.count}", os.path.join(self.folder, str(self.count))
        self.guest.wants(f"mkdir {inside}")
        os.mkdir(outside)
        found = {}
        for form in forms or (READ, TOLD, COPY, LIST, SHORT):
            place = os.path.join(outside, form.replace(" ", "-"))
            if form in forms_in_guest():
                found[form] = self.of_folder(forms_in_guest()[form], f"{inside}/{form}", place)
            elif form == COPY:
                found[form] = self.of_copy(f"{inside}/copy.tar.gz", place)
            else:
                found[form] = self.of_list(LISTS[form], place)
        return found

    def of_folder(self, words: list, made: str, place: str) -> Captured:
        """A form that makes the files in the guest."""
        status, said = self.guest.capture(*words, made)
        if status != 1:
            self.guest.wants(f"cd {made} && tar -cf ../made.tar .")
            archive, = self.guest.files(f"{made}/../made.tar").values()
            with tarfile.open(fileobj=io.BytesIO(archive)) as opened:
                os.mkdir(place)
                for member in opened:
                    if member.isfile():
                        save(place, os.path.basename(member.name), reader(opened, member)())
        return captured(status, said, place)

    def of_copy(self, made: str, place: str) -> Captured:
        """A copy that is made in the guest, and the files out of it."""
        status, said = self.guest.capture("--copy", made)
        if status == 1:
            return Captured(status, said.strip(), None)
        archive, = self.guest.files(made).values()
        return self.at_desk(place, "--from", save(os.path.dirname(place), "copy.tar.gz", archive))

    def of_list(self, words: str, place: str) -> Captured:
        status, said = self.guest.run(f"cxl list {words} 2>/tmp/said")
        table, = self.guest.files("/sys/firmware/acpi/tables/CEDT").values()
        above, name = os.path.split(place)
        made = self.at_desk(place, "--list", save(above, f"{name}.json", said.encode()), "--table", save(above, "cedt", table))
        if status:
            why = self.guest.run("tail -n 1 /tmp/said")[1].strip()
            made.note = f"cxl list {words} ends with status {status}: {why}"
        return made

    def at_desk(self, place: str, *words: str) -> Captured:
        status, said = ran([CAPTURE, *words, place])
        return captured(status, said, place)


def save(folder: str, name: str, data: bytes) -> str:
    path = os.path.join(folder, name)
    with open(path, "wb") as opened:
        opened.write(data)
    return path


def captured(status: int, said: str, place: str) -> Captured:
    host = cxlplan.Host.from_folder(place) if status != 1 and os.path.isdir(place) else None
    return Captured(status, said.strip(), host)


def desk(*words: str) -> tuple:
    """The status of a command of the desk, and what it prints."""
    return ran([DESK, *words])


def ran(words: list) -> tuple:
    done = subprocess.run([sys.executable, *words], stdout=subprocess.PIPE, stderr=subprocess.STDOUT, text=True, check=False)
    return done.returncode, done.stdout
