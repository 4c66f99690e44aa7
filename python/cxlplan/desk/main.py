"""The command line of cxldesk."""

import signal
import sys
import threading
from contextlib import contextmanager
from importlib import import_module

from ..errors import CxlError
from ..sources import OPEN
from .output import Answer, as_json, complain, hold_ends, tell
from .words import Parser

# By the word of the command: the module where its words are said and where it is carried out, which is read where it is asked for.
COMMANDS = {
    "show": ("showing", "windows, tree, decoders and regions, even if check refuses the registers"),
    "check": ("checking", "whether the registers are sound; if not, which rule they break, where, what is there and what it wants"),
    "where": ("whereis", "host addresses to device bytes and back, also ranges, and poison lists to host ranges"),
    "room": ("rooms", "what is free, and the largest regions that have a plan"),
    "plan": ("planned", "what a new region needs, or what is in its way; what destroying one would write"),
    "diff": ("differ", "what differs between two captures"),
    "report": ("reports", "one self-contained page on a host, for a bug report"),
    "fleet": ("fleets", "checks thousands of captures, into JSON lines or a SQLite file"),
    "shell": ("shell", "a session at a terminal"),
    "image": ("edits", "registers as text that you can edit, and back"),
    "table": ("edits", "a table as text that you can edit, and back"),
}

HOST = """HOST is a folder that cxl-capture made, or three files: CEDT TOPO IMAGE; one of them may be - for standard input."""


def module_of(command: str):
    """Where a command's words are said, and where it is carried out."""
    found = import_module(f".{COMMANDS[command][0]}", __package__)
    return getattr(found, {"image": "ImageText", "table": "TableText"}.get(command, ""), found)


def parser_of(command: str) -> Parser:
    """The parser of the command line, in which one command has its words."""
    parser = Parser(prog="cxldesk", description="Every question about a machine's CXL memory, from one command.", epilog=HOST,
                    allow_abbrev=False)
    parser.add_argument("--version", action="store_true", help="the version of the package and of the proved calls")
    commands = parser.add_subparsers(dest="command", metavar="COMMAND")
    for name, (_, about) in COMMANDS.items():
        sub = commands.add_parser(name, help=about, description=f"{about[0].upper()}{about[1:]}.", epilog=HOST, allow_abbrev=False)
        if name == command:
            sub.add_argument("--json", action="store_true", help="JSON, as python/cxlplan/schema.json describes it")
            sub.add_argument("--aligned", action="store_true", help="aligned columns, even if standard output is no terminal")
            module_of(name).arguments(sub)
    return parser


class Terminated(KeyboardInterrupt):
    """Another process asked this one to end."""


@contextmanager
def ended_in_order():
    """Has a TERM end the work in order, as the keyboard does, where nobody else sees to that."""
    if threading.current_thread() is not threading.main_thread() or signal.getsignal(signal.SIGTERM) != signal.SIG_DFL:
        yield
        return

    def end(*_) -> None:
        signal.signal(signal.SIGTERM, signal.SIG_IGN)
        raise Terminated

    signal.signal(signal.SIGTERM, end)
    try:
        yield
    finally:
        signal.signal(signal.SIGTERM, signal.SIG_DFL)


def main(words=None) -> int:
    """Carries out a command line, and gives the exit status."""
    words = sys.argv[1:] if words is None else list(words)
    command = next((word for word in words if not word.startswith("-")), "")
    hold_ends()
    for output in (sys.stdout, sys.stderr):
        if hasattr(output, "reconfigure"):
            output.reconfigure(errors="backslashreplace")  # a name may have signs that a terminal's encoding has not
    try:
        with ended_in_order():
            return carried_out(words)
    except CxlError as fault:
        return told(fault, command, "--json" in words)
    except Terminated:
        complain("terminated")
        return 143
    except KeyboardInterrupt:
        complain("interrupted")
        return 130
    except OSError as fault:
        return told(CxlError(": ".join(filter(None, (fault.filename and str(fault.filename), fault.strerror or str(fault))))), command,
                    "--json" in words)
    except (MemoryError, RecursionError):
        complain("memory ran out")
        return 9


def told(fault: CxlError, command: str, wants_json: bool) -> int:
    """Says what stood in the way, and gives the exit status."""
    status = fault.status if 0 < fault.status < 126 else 1
    if wants_json:
        return status if tell(as_json(command, {"error": fault.as_dict(), **fault.sources})) else 1
    text = fault.text.split("\n")[0] if fault.status not in (8, OPEN) else fault.text.replace("\n", "; ")
    complain(f"{text}; {fault.hint}" if fault.hint else text)
    return status


def carried_out(words: list) -> int:
    command = next((word for word in words if word in COMMANDS), "")
    parser = parser_of(command)
    if {"-h", "--help"} & {*words}:
        return 0 if tell(help_of(parser, command)) else 1
    options = parser.read(words)
    if options.version:
        return 0 if tell(version()) else 1
    if not options.command:
        return 0 if tell(parser.format_help()) else 1
    module = module_of(options.command)
    if hasattr(module, "work"):
        return module.work(options)
    try:
        said: Answer = module.answer(options)
    except CxlError as fault:
        fault.sources = sources_of(options.hosts)
        fault.status = with_doubt(options, fault.status, options.json)
        raise
    status = with_doubt(options, said.status, options.json or options.command in SAY_IT_THEMSELVES)
    said.facts.update(sources_of(options.hosts))
    text = as_json(options.command, said.facts) if options.json else said.text(options.aligned or is_terminal())
    return status if tell(text) else 1


SAY_IT_THEMSELVES = ("check", "show", "diff", "report")  # how the registers are known; of the others standard error does


def with_doubt(options, status: int, is_said: bool) -> int:
    """The exit status of an answer on captures: another one where neither sound nor broken can be said of one. How their registers are
    known is said on standard error where the answer does not say it."""
    known = [it.sources for it in options.hosts if it.sources and status in (0, 8)]
    for it in [] if is_said else known:
        for line in it.lines():
            complain(line)
    return OPEN if any(it.is_open for it in known) else status


def sources_of(hosts: list) -> dict:
    """How the registers of captures are known, as a fact behind the others."""
    found = [it.sources and it.sources.as_dict() for it in hosts]
    return {"sources": found} if any(found) else {}


def is_terminal() -> bool:
    return sys.stdout is not None and sys.stdout.isatty()


def help_of(parser: Parser, command: str) -> str:
    """The help of a command, or of all."""
    if not command:
        return parser.format_help()
    actions = [it for it in parser._actions if hasattr(it, "choices") and it.choices]  # pylint: disable=protected-access
    return actions[0].choices[command].format_help()


def version() -> str:
    from .. import __version__
    from .._engine import engine
    found = engine()
    return f"cxldesk {__version__}, over the {found.kind} {found.version()}\n"


if __name__ == "__main__":
    sys.exit(main())
