"""The proved program as a process. Its files are in memory, so that nothing stays behind where a run is stopped."""

import os
import subprocess
from typing import Optional

from . import texts
from .errors import Broken, NoEngine, fault_of
from .files import write_all
from .incoming import bytes_of

# Two lines that change nothing, and what each of them is always answered: where these answers stand side by side, a reply has ended.
SENTINELS, ANSWERS = b"step\nbegin\n", b"bad line 4 missing\nbad line 5 missing\n"
BLOCK = 1 << 16  # bytes of a reply that are read at once
NAMES = ("table", "topology", "image")
NO_LIBRARY = ("windows, trees, decoders, all places of a broken rule and register writes come from libcxlplan.so, which is not found: run "
              "./prove --library in the repository, or ./install, or name it in CXLPLAN_LIBRARY")
WRITING = (b"create", b"destroy", b"begin", b"step", b"abort")  # the lines that may write registers


def not_begun(program: str, fault: OSError) -> NoEngine:
    return NoEngine(f"{program}: {fault.strerror}")


class Files:
    """The files of a host in memory, for one run. The other process has them by the numbers with which they are open."""

    def __init__(self, *contents: Optional[bytes]) -> None:
        self.ends: list = []
        for name, content in zip(NAMES, contents):
            if content is not None:
                self.ends.append(os.memfd_create(f"cxlplan-{name}"))
                write_all(self.ends[-1], content)
        self.names = [f"/proc/self/fd/{end}" for end in self.ends]

    def __enter__(self) -> "Files":
        return self

    def __exit__(self, *_) -> None:
        while self.ends:
            os.close(self.ends.pop())


class ProgramEngine:
    """The forms of the program, each a run of it. For what the library alone tells it has none."""

    kind = "program"

    def __init__(self, program: str) -> None:
        self.program = os.path.realpath(program)

    def call(self, *words: str, contents: tuple = (), behind: tuple = (), script: bytes = b"") -> tuple:
        """The status and the text of `cxlplan WORDS.. FILES.. BEHIND..`."""
        with Files(*contents) as files:
            try:
                ran = subprocess.run([self.program, *words, *files.names, *behind], input=script, pass_fds=files.ends,
                                     stdout=subprocess.PIPE, stderr=subprocess.DEVNULL, check=False)
            except OSError as fault:
                raise not_begun(self.program, fault) from None
        if ran.returncode < 0:
            raise Broken(f"{self.program} was ended by signal {-ran.returncode}", ran.returncode)
        return ran.returncode, ran.stdout

    def route(self, cedt: bytes, hpa: int) -> tuple:
        return self.call("route", contents=(cedt,), behind=(f"{hpa:#x}",))

    def listing(self, cedt: bytes) -> tuple:
        return self.call("list", contents=(cedt,))

    def normal(self, cedt: bytes) -> tuple:
        return self.call("normal", contents=(cedt,))

    def check(self, cedt: bytes, topo: bytes, image: bytes) -> tuple:
        return self.call("check", contents=(cedt, topo, image))

    def plan(self, cedt: bytes, topo: bytes, line: str) -> tuple:
        return self.call("plan", contents=(cedt, topo), behind=(line,))

    def run(self, cedt: bytes, topo: bytes, image: Optional[bytes], script: bytes) -> tuple:
        return self.call("run", contents=(cedt, topo, image), script=script)

    def gen(self, count: int) -> tuple:
        return self.call("gen", str(count))

    def version(self) -> str:
        return self.call("--version")[1].decode("ascii", "backslashreplace").strip()

    def tree(self, cedt: bytes, topo: bytes) -> list:
        raise NoEngine(NO_LIBRARY)

    def windows(self, cedt: bytes, topo: bytes) -> list:
        raise NoEngine(NO_LIBRARY)

    def decoders(self, cedt: bytes, topo: bytes, image: bytes, only_used: bool = False) -> list:
        raise NoEngine(NO_LIBRARY)

    def controls(self, cedt: bytes, topo: bytes, image: bytes) -> dict:
        raise NoEngine(NO_LIBRARY)

    def breaches(self, cedt: bytes, topo: bytes, image: bytes) -> list:
        raise NoEngine(NO_LIBRARY)

    def words(self, cedt: bytes, topo: bytes, image: Optional[bytes], script: bytes) -> list:
        raise NoEngine(NO_LIBRARY)

    def image(self, cedt: bytes, topo: bytes, image: Optional[bytes], script: bytes) -> bytes:
        raise NoEngine(NO_LIBRARY)

    def session(self, cedt: bytes, topo: bytes, image: Optional[bytes], teller=None) -> "ProgramSession":
        """A session, whose nodes another engine may tell."""
        return ProgramSession(self, cedt, topo, image, teller or self)


class ProgramSession:
    """A run of the program that is given one line at a time. Register writes and images are told by the engine that tells the nodes."""

    def __init__(self, engine: ProgramEngine, cedt: bytes, topo: bytes, image: Optional[bytes], teller) -> None:
        self.engine, self.teller, self.files = engine, teller, Files(cedt, topo, image)
        self.host = (cedt, topo, image)
        self.lines: list = []  # all that were sent
        self.writing = 0  # how many there are up to the last that may write
        self.is_watched = False
        # a stop at the terminal is this process's to take
        try:
            self.process = subprocess.Popen([engine.program, "run", *self.files.names], pass_fds=self.files.ends, start_new_session=True, bufsize=0,
                                            stdin=subprocess.PIPE, stdout=subprocess.PIPE, stderr=subprocess.DEVNULL)
        except OSError as fault:
            self.files.__exit__()
            raise not_begun(engine.program, fault) from None
        self.send(b"")
        self.reply()

    def ended(self, said: bytes):
        """What the program ended with in place of a session."""
        status, text = self.process.wait(), said.decode("ascii", "backslashreplace")
        self.close()
        return texts.breach(text) if text.startswith("breach ") else texts.refusal(text) if status == 8 else fault_of(status, text)

    def send(self, line: bytes) -> None:
        try:
            write_all(self.process.stdin.fileno(), line + SENTINELS)
        except BrokenPipeError:
            pass  # the program has ended; what it said is read next

    def act(self, line: str) -> str:
        """What the session replies to a line; nothing to a comment or a blank line."""
        sent = bytes_of(line) + b"\n"
        self.send(sent)
        reply = self.reply()
        self.lines.append(sent)
        if sent.split(None, 1)[:1] and sent.split(None, 1)[0] in WRITING:
            self.writing = len(self.lines)
        return reply.decode("ascii", "backslashreplace")

    def reply(self) -> bytes:
        """What stands before the answers of the sentinels."""
        said = b""
        while not said.endswith(ANSWERS) or said[:-len(ANSWERS)][-1:] not in (b"", b"\n"):
            part = os.read(self.process.stdout.fileno(), BLOCK)
            if not part:
                raise self.ended(said)
            said += part
        return said[:-len(ANSWERS)]

    def watch(self) -> None:
        """Has the words of writes told. Where nothing tells them, that is said at once."""
        self.teller.words(*self.host, b"")
        self.is_watched = True

    def words(self) -> list:
        """The register writes that the last line sent that may write; none where they are not watched."""
        return self.teller.words(*self.host, b"".join(self.lines[:self.writing])) if self.is_watched and self.writing else []

    def image(self) -> bytes:
        """The registers as they stand."""
        return self.teller.image(*self.host, b"".join(self.lines))

    def close(self) -> None:
        for pipe in (self.process.stdin, self.process.stdout):
            try:
                pipe.close()
            except BrokenPipeError:
                pass
        self.process.wait()
        self.files.__exit__()
