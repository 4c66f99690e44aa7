"""The command lines of cxl-regions and cxl-picture: their words, what they print, and how they end."""

import argparse
import os
import re
import sys
from typing import Callable, NoReturn

from .errors import BadFile, BadTable, BadTopology, BadWords, CxlError
from .host import Host
from .incoming import read_file


class Words(argparse.ArgumentParser):
    """The words of a command line; where they are no form, one line says what is wrong with them."""

    def __init__(self, tool: str, wanted: str) -> None:
        super().__init__(prog=tool, add_help=False, allow_abbrev=False)
        self.wanted = wanted.split()
        self.add_argument("names", nargs="*")

    def error(self, message: str) -> NoReturn:
        raise BadWords(f"{message}; see {self.prog} --help", 1, "usage")

    def read(self, words: list) -> argparse.Namespace:
        """What is said, with as many names as are wanted."""
        said, rest = self.parse_known_args(words)
        for word in rest:
            if word.startswith("-") and word != "-":
                self.error(f"unknown option {word}")
        said.names += rest
        if len(said.names) != len(self.wanted):
            self.error(f"{len(said.names)} names are given, and wanted are {', '.join(self.wanted)}")
        return said


def tell(text: str, end: str = "\n") -> bool:
    """Prints a text, and gives whether it could be; quietly, where the reader of a pipe is gone."""
    if sys.stdout is None:
        raise BadFile("standard output: is closed", 1, "cannot write")
    try:
        print(text, end=end, flush=True)
    except OSError as fault:
        os.dup2(os.open(os.devnull, os.O_WRONLY), sys.stdout.fileno())  # else the rest is tried once more at the end
        if not isinstance(fault, BrokenPipeError):
            raise BadFile(f"standard output: {fault.strerror}", 1, "cannot write") from None
        return False
    return True


def carried_out(tool: str, help_text: str, work: Callable[[list], int], words: list) -> int:
    """Carries out a tool's words, and gives the exit status: 1 with one line on standard error where nothing is made."""
    try:
        if {"-h", "--help"} & {*words}:
            tell(help_text)
            return 0
        return work(words)
    except (CxlError, OSError) as fault:
        said = str(fault).split("\n", maxsplit=1)[0]
        if sys.stderr is not None:
            print(re.sub("[^ -~]", "?", f"{tool}: {said}"), file=sys.stderr)
        return 1


def host_of(table: str, topology: str) -> Host:
    """The machine of two files, as after reset; a fault names the file, and says what the proved reader says."""
    if table == topology == "-":
        raise BadFile("-: standard input stands there twice", 1, "twice", "-")
    host = Host(read_file(table), read_file(topology), name=topology)
    try:
        host.windows, host.nodes  # pylint: disable=pointless-statement
    except BadTable as fault:
        raise BadFile(f"{table}: no whole CEDT: {fault.cause} {fault.place}".rstrip(), 1, fault.cause) from None
    except BadTopology as fault:
        raise BadFile(f"{topology}: no topology: {fault.cause} {fault.place}".rstrip(), 1, fault.cause) from None
    return host
