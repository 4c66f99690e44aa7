"""A host: its table, its topology and its registers, with what is asked of them."""

import os
from dataclasses import dataclass
from functools import cached_property
from typing import Optional

from . import texts
from ._engine import engine
from .errors import BadFile, Breach, CxlError, NoEngine, Refusal, fault_of
from .facts import Decoder, Down, Node, Place, Planned, Position, Region, Up, Window
from .incoming import FILES, address, read_file, read_within
from .session import Session, create_line
from .sources import Sources, sources_of


def answered(pair: tuple) -> str:
    """The text of an answer with status 0; else its fault, breach or refusal is raised."""
    status, data = pair
    text = data.decode("ascii", "replace")
    if status == 0:
        return text
    if status != 8:
        raise fault_of(status, text)
    raise texts.breach(text) if text.startswith("breach ") else texts.refusal(text)


@dataclass(frozen=True)
class Table:
    """An ACPI CEDT."""
    data: bytes
    name: str = "table"

    @cached_property
    def records(self) -> list:
        """Bridges, windows, XOR maps and other records, in table order. Windows are judged by the table alone."""
        return texts.records(answered(engine().listing(self.data)))

    @property
    def windows(self) -> list:
        return [record for record in self.records if isinstance(record, Window)]

    def route(self, hpa: int) -> Position:
        """To which target of which window an address goes; with no window that can be used a refusal is raised."""
        return texts.position(answered(engine().route(self.data, address(hpa))))

    def normal(self) -> bytes:
        """The table's bytes with reserved fields zero."""
        status, data = engine().normal(self.data)
        return data if status == 0 else answered((status, data)).encode()


@dataclass(frozen=True)
class Topology:
    """Bridges, switches and endpoints, as a file of TOML states them."""
    data: bytes
    name: str = "topology"


@dataclass(frozen=True)
class Image:
    """The decoder registers of all nodes."""
    data: bytes
    name: str = "image"


class Host:
    """A machine by its three files. Without an image it is as after reset."""

    def __init__(self, table: bytes, topology: bytes, image: Optional[bytes] = None, name: str = "host", files: tuple = FILES) -> None:
        self.name, self.table, self.topology = name, Table(table, files[0]), Topology(topology, files[1])
        self.image = None if image is None else Image(image, files[2])
        self.sources: Optional[Sources] = None

    @classmethod
    def from_files(cls, table: str, topology: str, image: Optional[str] = None) -> "Host":
        """A host of three files, or of two as after reset; `-` is standard input."""
        names = [name for name in (table, topology, image) if name is not None]
        if names.count("-") > 1:
            raise BadFile("-: standard input stands there twice", 1, "twice", "-")
        return cls(*map(read_file, names), name=names[-1], files=(*names, FILES[2])[:3])

    @classmethod
    def from_folder(cls, folder: str, is_reset: bool = False) -> "Host":
        """A host of a folder that cxl-capture made; its image is not looked at where it is to be as after reset."""
        if not os.path.isdir(folder):
            why = "is no folder" if os.path.lexists(folder) else "No such file or directory"
            raise BadFile(f"{folder}: {why}", 2, "no folder", folder)
        files = FILES[:2] if is_reset else FILES
        for name in (os.path.join(folder, file) for file in files):
            if not os.path.lexists(name):
                raise BadFile(f"{name}: is not there; cxl-capture makes {', '.join(FILES)}", 2, "missing", name)
        host = cls(*(read_within(folder, file) for file in files), name=folder,
                   files=tuple(os.path.join(folder, file) for file in FILES))
        host.sources = None if is_reset else sources_of(folder)
        return host

    @property
    def _bytes(self) -> tuple:
        return self.table.data, self.topology.data

    @property
    def registers(self) -> Optional[bytes]:
        return None if self.image is None else self.image.data

    # ---- What stands there.

    @cached_property
    def nodes(self) -> list:
        """Each Node: bridges, switches, endpoints."""
        return engine().tree(*self._bytes)

    @cached_property
    def _named(self) -> dict:
        return {node.name: node for node in self.nodes}

    def node(self, name: str) -> Node:
        if name not in self._named:
            raise Refusal(f"no such node {name}", "no such node", name)
        return self._named[name]

    @cached_property
    def below(self) -> dict:
        """By the name of a bridge or switch what hangs on each of its ports; by None the bridges, by their names."""
        found: dict = {}
        for node in self.nodes:
            found.setdefault(node.parent, {})[node.name if node.parent is None else node.port] = node
        return found

    @property
    def endpoints(self) -> list:
        return [node for node in self.nodes if node.kind == "endpoint"]

    @cached_property
    def windows(self) -> list:
        """Each Window, judged with the topology's bridges."""
        return engine().windows(*self._bytes)

    @cached_property
    def decoders(self) -> list:
        """Each Decoder of the image, whether it is sound or not; none without an image."""
        return engine().decoders(*self._bytes, self.registers) if self.image else []

    @cached_property
    def blocks(self) -> dict:
        """By the name of a node its decoders, in their order."""
        found: dict = {}
        for decoder in self.decoders:
            found.setdefault(decoder.node, []).append(decoder)
        return found

    @cached_property
    def ranges(self) -> dict:
        """By base and size the committed decoders of that range, in the order of the topology."""
        found: dict = {}
        for decoder in self.decoders:
            if decoder.committed:
                found.setdefault(decoder.range, []).append(decoder)
        return found

    @cached_property
    def ranges_by_node(self) -> dict:
        """By base and size, and then by the name of a node, its first committed decoder of that range."""
        return {key: {it.node: it for it in reversed(decoders)} for key, decoders in self.ranges.items()}

    # ---- Whether it is sound.

    @property
    def verdict(self) -> str:
        """sound or breach, by its registers; of a captured host also told, where they are sound as Linux tells them, and unknown or
        outside, where neither can be said."""
        of_files = "breach" if self.breach else "sound"
        return self.sources.verdict(of_files) if self.sources else of_files

    def check(self) -> list:
        """The Regions of the image by rising base; the first broken rule is raised as a Breach."""
        return texts.regions(answered(engine().check(*self._bytes, self.registers))) if self.image else []

    @cached_property
    def breach(self) -> Optional[Breach]:
        """The first broken rule, or None."""
        try:
            self.regions  # pylint: disable=pointless-statement
        except Breach as found:
            return found
        return None

    @cached_property
    def regions(self) -> list:
        """As `check`, asked once."""
        return self.check()

    @cached_property
    def breaches(self) -> list:
        """The places that break the first broken rule, the first of all first."""
        return engine().breaches(*self._bytes, self.registers) if self.image else []

    # ---- Where an address lies.

    def session(self) -> Session:
        """A session from the host's registers; those that are not sound are refused with their breach."""
        return Session(engine().session(*self._bytes, self.registers))

    def where(self, hpa: int) -> Down:
        with self.session() as session:
            return session.down(hpa)

    def host_of(self, endpoint: str, dpa: int) -> Up:
        with self.session() as session:
            return session.up(endpoint, dpa)

    # ---- What could be made.

    def plan(self, line: str, with_writes: bool = False) -> Planned:
        """The plan of `create NAME KIND SIZE ..` on the registers as they are; `create` may be left out. The register writes are told
        where they are asked for."""
        from .planning import plan
        return plan(self, line if line.split()[:1] == ["create"] else f"create {line}", with_writes)

    def pick(self, kind: str, size: int, ways: int, gran: Optional[int] = None, with_writes: bool = False) -> Planned:
        """The plan of a region over as many endpoints as `ways` says, which are picked."""
        return self.plan(create_line("r0", kind, size, ways=ways, gran=gran), with_writes)

    def room(self):
        """What is free, and the largest regions that have a plan."""
        from .room import room_of
        return room_of(self)

    def places(self) -> list:
        """The broken places, first that of `check`, which is the only one where there is no library; none of sound registers."""
        found = self.breach
        if found is None:
            return []
        try:
            return self.breaches
        except NoEngine:
            return [Place(found.rule, found.node, found.decoder)]

    def same_range(self, decoder: Decoder) -> list:
        """The committed decoders of the same range, in the order of the topology."""
        return self.ranges.get(decoder.range, [])


__all__ = ["Host", "Image", "Table", "Topology", "CxlError", "Region"]
