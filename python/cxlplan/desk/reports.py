"""`report`: one self-contained page on a host."""

import os

from ..errors import BadWords
from ..files import write_beside
from ..incoming import text_within
from ..report import page_of
from .output import Answer
from .words import take_host


def arguments(parser) -> None:
    parser.add_argument("words", nargs="+", metavar="HOST OUT.html")
    parser.add_argument("--reset", action="store_true", help="as after reset, without an image")


def answer(options) -> Answer:
    host, rest = take_host(options.words, options)
    if len(rest) != 1:
        raise BadWords("wanted are HOST and OUT.html, the page to make; see cxldesk report --help", 1, "usage")
    page = page_of(host, inferred_of(host.name))
    write_beside(rest[0], page.encode())
    return Answer({"host": host.name, "page": rest[0], "bytes": len(page.encode())})


def inferred_of(folder: str) -> str:
    """What the capture of a folder says of itself."""
    return text_within(folder, "report.txt") or "" if os.path.isdir(folder) else ""
