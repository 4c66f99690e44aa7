"""`shell`: a session at a terminal, with a prompt, history, completion of names and what a refusal says."""

import os
import shutil
import signal
import sys
import textwrap
from contextlib import contextmanager
from typing import Optional

from .. import texts
from ..errors import BadFile, BadWords, CxlError, Refusal
from ..explain import EXPLAINED, explained, reason_words, refusal_words
from ..host import Host
from ..incoming import amount, in_bytes, number, printable
from ..room import WAYS
from ..sources import OPEN
from .output import complain, tell
from .rooms import room_answer
from .slips import like, of_plan
from .whereis import of_address, of_device
from .words import only_host

VERBS = ("create", "destroy", "show", "down", "up", "load", "store", "range", "spread", "copy", "move", "poison", "begin", "step", "abort")
OWN = {"help": (0, 0), "regions": (0, 0), "room": (0, 0), "where": (1, 3), "explain": (0, 3), "history": (0, 0), "quit": (0, 0)}  # words behind
OF_REGIONS, OF_ENDPOINTS = ("destroy", "show", "copy", "move"), ("up", "poison", "where")
SIZES = [f"{1 << bits}{unit}" for unit, first in (("M", 8), ("G", 0)) for bits in range(first, 10)] + ["1T"]
MOST_LINE = 1 << 20  # bytes of a line of standard input
HELP = """\
create NAME ram|pmem SIZE [gran=G] EP..   a region over these endpoints; ways=N in their place picks N
destroy NAME, show NAME                   ends a region; its decoders
down HPA, up EP DPA                       where an address goes, and back
range HPA LEN, spread HPA LEN             on which device bytes a range lies, and how many on each device
load HPA LEN, store HPA HEX               memory
copy FROM TO, move FROM TO                a region's bytes into another of its size
poison EP HEX                             which host bytes a poison list touches
begin create|destroy .., step N, abort    register write by register write
regions, room                             the live regions; what could be made beside them
where HPA [LEN], where EP DPA [LEN]       as `cxldesk where`, over the live regions
explain WORD                              what a rule, a refusal or a verdict says: explain K12
history, help, quit
Sizes and lengths may be as 4K, 512M or 1G.
"""


def arguments(parser) -> None:
    parser.add_argument("words", nargs="*", metavar="HOST")
    parser.add_argument("--reset", action="store_true", help="as after reset, without an image")
    parser.add_argument("--stop", action="store_true", help="ends at the first refusal, with status 8")


class Ended(Exception):
    """Nobody reads what is said."""


class Shell:
    """An open session with the names that live in it."""

    def __init__(self, host, stops: bool) -> None:
        if sys.stdin is None:
            raise BadFile("standard input: is closed", 2, "cannot read", "-")
        self.host, self.stops, self.line = host, stops, 0
        self.names = [region.name for region in host.regions]
        self.session = host.session()
        self.is_terminal = sys.stdin.isatty() and sys.stdout is not None

    # ---- At a terminal.

    def completed(self, text: str, state: int):
        """The state-th word that a word may become."""
        import readline
        before = readline.get_line_buffer()[:readline.get_begidx()].split()
        found = [word for word in self.offered(before) if word.startswith(text)]
        return found[state] + " " if state < len(found) else None

    def offered(self, before: list) -> list:
        """The words that may follow these."""
        if before[:1] == ["begin"]:
            return ["create", "destroy"] if len(before) == 1 else self.offered(before[1:])
        if not before:
            return [*VERBS, *OWN]
        if before[0] == "create":
            ends = [node.name for node in self.host.endpoints]
            more = [f"ways={it}" for it in WAYS] + [f"gran={256 << bits}" for bits in range(7)]
            by_place: list = [[], [], ["ram", "pmem"], SIZES, [*ends, *more]]
            return by_place[min(len(before), 4)]
        if before[0] == "explain":
            return list(EXPLAINED)
        if before[0] in OF_ENDPOINTS:
            return [node.name for node in self.host.endpoints]
        return self.names if before[0] in OF_REGIONS else []

    def prepare(self) -> None:
        """Completion and the history of earlier sessions."""
        try:
            import readline
        except ImportError:
            return
        readline.set_completer(self.completed)
        readline.set_completer_delims(" \t")
        readline.parse_and_bind("tab: complete")
        self.file = os.path.join(os.path.expanduser("~"), ".cxldesk_history")
        try:
            readline.read_history_file(self.file)
        except OSError:
            pass

    def keep(self) -> None:
        try:
            import readline
            readline.set_history_length(1000)
            readline.write_history_file(self.file)
        except (ImportError, OSError, AttributeError):
            pass

    @contextmanager
    def unbroken(self):
        """Has Control-C wait until a reply is read; else the next one would be taken for it."""
        was = signal.signal(signal.SIGINT, lambda *_: None) if self.is_terminal else None
        try:
            yield
        finally:
            if was is not None:
                signal.signal(signal.SIGINT, was)

    # ---- Lines.

    def run(self) -> int:
        if self.is_terminal:
            self.prepare()
            self.say(f"{printable(self.host.name)}: {len(self.names)} regions. `help` tells the commands, Control-D ends.\n")
        try:
            return self.lines()
        except Ended:
            return 1
        finally:
            self.session.close()
            if self.is_terminal:
                self.keep()

    def lines(self) -> int:
        while True:
            try:
                words = self.next_line()
                if words is None or words.strip() in ("quit", "exit"):
                    self.say("\n" if words is None and self.is_terminal else "")
                    return 0
                if not self.carry_out(words) and self.stops:
                    return 8
            except KeyboardInterrupt as stop:
                if not self.is_terminal or type(stop) is not KeyboardInterrupt:  # pylint: disable=unidiomatic-typecheck
                    raise
                self.say("\n")  # the line is given up, and not the session

    def next_line(self) -> Optional[str]:
        """The next line, or None where there is none."""
        self.line += 1
        if self.is_terminal:
            try:
                return input("cxl> ")
            except EOFError:
                return None
        data = sys.stdin.buffer.readline(MOST_LINE)
        if len(data) == MOST_LINE and not data.endswith(b"\n"):
            raise BadWords(f"line {self.line} has more than {MOST_LINE} bytes", 11, "line")
        return data.rstrip(b"\n").decode("utf-8", "surrogateescape") if data else None

    def carry_out(self, line: str) -> bool:
        """Carries out a line, and gives whether it was not refused."""
        words = line.split()
        if words and words[0] in OWN:
            return self.own(words)
        try:
            line = in_bytes(line)
        except BadWords as fault:
            return self.refused(words, fault)
        with self.unbroken():
            reply = self.session.act(line)
        self.say(reply)
        for it in reply.splitlines():
            said = it.split(" ")
            if said[0] == "created":
                self.names.append(said[1])
            elif said[0] == "destroyed":
                self.names = [name for name in self.names if name != said[1]]
        return not texts.is_refusal(reply) or self.explain_refusal(words, texts.refusal(reply))

    def say(self, text: str) -> None:
        if text and not tell(text):
            raise Ended

    def refused(self, words: list, fault: CxlError) -> bool:
        """Says what stands in the way of a line of the shell's own."""
        self.say(fault.text + "\n")
        return self.explain_refusal(words, fault)

    def explain_refusal(self, words: list, refused: CxlError) -> bool:
        """What a refusal says, at a terminal; else its line's number, on standard error."""
        if not self.is_terminal:
            complain(f"line {self.line}: {refused.text.splitlines()[0]}")
        elif isinstance(refused, Refusal):
            begun = words[1:] if words[:1] == ["begin"] else words
            means, advice = of_plan(self.host, begun, refused) or refusal_words(refused)
            said = [f"{means}. To do: {advice}."] if means else []
            for reason in refused.reasons:
                said.append(f"window {reason.window}: " + ". To do: ".join(reason_words(reason, self.host)) + ".")
            self.say(wrapped(said, "  "))
        return False

    # ---- Words of its own.

    def own(self, words: list) -> bool:
        least, most = OWN[words[0]]
        try:
            if not least <= len(words) - 1 <= most:
                raise BadWords(f"{words[0]} has other words; see help", 1, "usage")
            self.say(getattr(self, words[0])(*words[1:]))
            return True
        except CxlError as fault:
            return self.refused(words, fault)

    def help(self) -> str:
        return HELP

    def regions(self) -> str:
        with self.unbroken():
            heads = [self.session.act(f"show {name}").split("\n")[0] for name in self.names]
        return "".join(head + "\n" for head in heads) or "no live region\n"

    def room(self) -> str:
        with self.unbroken():
            image = self.session.under.image()
        return room_answer(Host(self.host.table.data, self.host.topology.data, image, self.host.name)).text(self.is_terminal)

    def where(self, *words: str) -> str:
        ends = [] if words[0][:1].isdigit() else [words[0]]
        if len(words) - len(ends) not in (1, 2):
            raise BadWords("where has HPA [LEN], or EP DPA [LEN]", 1, "usage")
        first, *more = words[len(ends):]
        place, length = number(first), amount(more[0]) if more else None
        with self.unbroken():
            said = (of_device(self.session, self.host, ends[0], place, length) if ends else
                    of_address(self.session, self.host, place, length))
        return said.text(self.is_terminal)

    def explain(self, *words: str) -> str:
        said = explained(" ".join(words))
        if said:
            return wrapped(said) if self.is_terminal else "".join(line + "\n" for line in said)
        raise BadWords(f"nothing is known of {' '.join(words)}; {like(' '.join(words), list(EXPLAINED)) or 'as in: explain K12'}" if words else
                       f"explain has a word: {', '.join(EXPLAINED)}", 1, "usage")

    def history(self) -> str:
        try:
            import readline
        except ImportError:
            return ""
        return "".join(f"{place} {readline.get_history_item(place)}\n"
                       for place in range(1, readline.get_current_history_length() + 1))

    def quit(self) -> str:
        return ""


def wrapped(lines: list, indent: str = "") -> str:
    """Sentences for a terminal, wrapped at words."""
    width = max(shutil.get_terminal_size().columns - 1, 20)
    return "".join(textwrap.fill(line, width, initial_indent=indent, subsequent_indent=indent + "  ", break_long_words=False,
                                 break_on_hyphens=False) + "\n" for line in lines)


def work(options) -> int:
    host = only_host(options.words, options)
    for line in host.sources.lines() if host.sources else []:
        complain(line)
    status = Shell(host, options.stop).run()
    return OPEN if status in (0, 8) and host.sources and host.sources.is_open else status
