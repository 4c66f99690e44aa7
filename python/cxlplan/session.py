"""A session: a host whose registers and memory are the simulator's, to which lines of a script are given one by one."""

from typing import Optional, Union

from . import texts
from .errors import CxlError, Refusal
from .facts import Down, Region, Up
from .incoming import single


class Session:
    """An open session over a host, after reset or from its image. It is closed by `close`, or at the end of a `with`."""

    def __init__(self, under) -> None:
        self.under = under

    def __enter__(self) -> "Session":
        return self

    def __exit__(self, *_) -> None:
        self.close()

    def close(self) -> None:
        self.under.close()

    def act(self, line: str) -> str:
        """The reply to a line as text; a refusal is a reply like another."""
        return self.under.act(line)

    def ask(self, line: str) -> str:
        """The reply to a line; a refusal is raised."""
        text = self.act(line)
        if texts.is_refusal(text):
            raise texts.refusal(text)
        return text

    # ---- Regions.

    def create(self, name: str, kind: str, size: int, *endpoints: str, ways: Optional[int] = None, gran: Optional[int] = None) -> Region:
        """Makes a region over endpoints, or over as many as `ways` says, which are picked."""
        self.ask(create_line(name, kind, size, *endpoints, ways=ways, gran=gran))
        return self.show(name)[0]

    def destroy(self, name: str) -> None:
        self.ask(f"destroy {single(name)}")

    def show(self, name: str) -> tuple:
        """A live region, and its decoders' rows."""
        return texts.shown(self.ask(f"show {single(name)}"))

    # ---- Addresses.

    def down(self, hpa: int) -> Down:
        return texts.down(self.ask(f"down {hpa:#x}").rstrip("\n"))

    def up(self, endpoint: str, dpa: int) -> Up:
        return texts.up(self.ask(f"up {single(endpoint)} {dpa:#x}").rstrip("\n"), endpoint, dpa)

    def extents(self, hpa: int, length: int) -> list:
        """On which device bytes a range of 1 to 65,536 host bytes lies."""
        return texts.extents(self.ask(f"range {hpa:#x} {length}"))

    def spread(self, hpa: int, length: int) -> list:
        """How many bytes of a range lie on each slot."""
        return texts.spreads(self.ask(f"spread {hpa:#x} {length}"))

    def poison(self, endpoint: str, payload: bytes) -> tuple:
        """Which host bytes the records of a poison list touch, and the list's flags."""
        return texts.poison(self.ask(f"poison {single(endpoint)} {payload.hex()}"))

    # ---- Memory.

    def load(self, hpa: int, length: int) -> bytes:
        return bytes.fromhex(self.ask(f"load {hpa:#x} {length}").split()[1])

    def store(self, hpa: int, data: Union[bytes, bytearray]) -> None:
        self.ask(f"store {hpa:#x} {data.hex()}")

    # ---- Writes.

    def watch(self) -> "Session":
        """Has the words of writes told; before the first line that writes. Where nothing tells them, the session is closed."""
        try:
            self.under.watch()
        except CxlError:
            self.close()
            raise
        return self

    def writes(self) -> list:
        """The register writes that the last line sent, in their order."""
        return self.under.words()

    def would(self, line: str) -> Optional[Refusal]:
        """The refusal that a line to begin is met with, or None; what is begun is taken back before its first write."""
        text = self.act(f"begin {line}")
        if texts.is_refusal(text):
            return texts.refusal(text)
        self.ask("abort")
        return None


def create_line(name: str, kind: str, size: int, *endpoints: str, ways: Optional[int] = None, gran: Optional[int] = None) -> str:
    """The line of a script that makes a region."""
    words = ["create", single(name), single(kind), f"{size:#x}"] + ([f"gran={gran}"] if gran is not None else [])
    return " ".join(words + ([f"ways={ways}"] if ways is not None else list(map(single, endpoints))))
