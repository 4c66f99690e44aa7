"""The words of the command line: which host is meant, and numbers."""

import argparse
import os
import re
from typing import NoReturn

from ..errors import BadFile, BadWords
from ..host import Host


class Parser(argparse.ArgumentParser):
    """A parser whose faults are one line, and exceptions."""

    def error(self, message: str) -> NoReturn:
        found = re.match(r"argument \S+: invalid choice: '(.*?)' \(choose", message)
        if found:
            message = f"{found[1]} is no command"
        raise BadWords(f"{message}; see {self.prog} --help", 1, "usage")

    def read(self, words: list) -> argparse.Namespace:
        """What is said. Options may stand anywhere, also between words."""
        said, rest = self.parse_known_args(words)
        options = [word for word in rest if word.startswith("-") and word != "-"]
        if options:
            self.error(f"unknown option {options[0]}")
        if rest and not hasattr(said, "words"):
            self.error(f"{rest[0]}: one word too many")
        if rest:
            said.words = said.words + rest
        said.hosts = []  # folders of captures, as they are taken
        return said


def take_host(words: list, options) -> tuple:
    """The host that the first words name, a folder or its files, and the words behind them."""
    is_reset = getattr(options, "reset", False)
    if not words:
        raise BadWords(f"no HOST is named: a folder that cxl-capture made, or CEDT TOPO IMAGE; see cxldesk {options.command} --help",
                       1, "missing")
    if os.path.isdir(words[0]):
        options.hosts.append(Host.from_folder(words[0], is_reset))
        return options.hosts[-1], words[1:]
    count = 2 if is_reset else 3
    if not os.path.lexists(words[0]) and words[0] != "-":
        raise BadFile(f"{words[0]}: No such file or directory", 2, "cannot read", words[0])
    if len(words) < count:
        raise BadWords(f"{words[0]} is no folder, and {' '.join(('CEDT', 'TOPO', 'IMAGE')[:count])} are {count} files; "
                       f"see cxldesk {options.command} --help", 1, "missing")
    from .slips import in_order
    return in_order(Host.from_files(*words[:count])), words[count:]


def only_host(words: list, options) -> Host:
    """The host, where no word stands behind it."""
    host, rest = take_host(words, options)
    if rest:
        raise BadWords(f"{rest[0]}: one word too many; see cxldesk {options.command} --help", 1, "extra", rest[0])
    return host
