"""What is known of a machine: records of its table, its nodes, decoders and regions, with the names that the field has for them.
Addresses, sizes and granularities are bytes; words are registers of 32 bits."""

from dataclasses import dataclass, fields
from typing import Optional

PLAIN = (int, str, bool, type(None))
WORD_NAMES = ("base low", "base high", "size low", "size high", "control", "tail low", "tail high")


_names: dict = {}  # of the fields of each class of facts


def plain(value):
    """A value as numbers, texts, lists and dictionaries, as JSON has them."""
    kind = type(value)
    if kind in PLAIN:
        return value
    if kind is tuple or kind is list:
        return [plain(item) for item in value]
    names = _names.get(kind)
    if names is None:
        names = _names[kind] = tuple(part.name for part in fields(kind))
    return {name: plain(getattr(value, name)) for name in names}


class Fact:
    """What each fact can do."""

    def as_dict(self) -> dict:
        """The fact by the names of its fields."""
        return plain(self)


# ---- The table.

@dataclass(frozen=True)
class Bridge(Fact):
    """A CHBS record: a host bridge and where its registers are. Version 0 is CXL 1.1, 1 is CXL 2.0."""
    uid: int
    version: int
    base: int
    length: int


@dataclass(frozen=True)
class Window(Fact):
    """A CFMWS record: a range of host addresses and the bridges over which it is dealt. `verdict` is `usable`, or what is in the way.
    Judged with a topology, `cause` says which of its causes `target` and `maps` have."""
    number: int
    base: int
    size: int
    ways: int
    gran: int
    arithmetic: str  # modulo or xor
    restrict: int
    qtg: int
    targets: tuple  # UIDs
    verdict: str
    cause: str = ""

    @property
    def end(self) -> int:
        """The first address past the window."""
        return self.base + self.size

    @property
    def is_usable(self) -> bool:
        return self.verdict == "usable"

    def takes(self, kind: str) -> bool:
        """Whether its restrictions permit memory of this kind."""
        return bool(self.restrict & {"ram": 4, "pmem": 8}[kind])


@dataclass(frozen=True)
class Maps(Fact):
    """A CXIMS record: the XOR maps of a granularity."""
    gran: int
    maps: tuple


@dataclass(frozen=True)
class Other(Fact):
    """A record of another type."""
    type: int
    length: int


# ---- The tree.

@dataclass(frozen=True)
class Node(Fact):
    """A host bridge, a switch or an endpoint. `port` is the parent's port on which it hangs; a bridge has a `uid` instead."""
    number: int
    kind: str  # bridge, switch or endpoint
    name: str
    parent: Optional[str]
    port: Optional[int]
    uid: Optional[int]
    decoders: int
    targets: Optional[int]  # of a bridge or switch
    low: bool  # selects by address bits 8 to 11
    high: bool  # by 12 to 14
    ways3: Optional[bool]  # of an endpoint: 3, 6 and 12 ways
    ways16: Optional[bool]
    passthrough: bool
    ram: int = 0
    pmem: int = 0


# ---- Registers.

@dataclass(frozen=True)
class Decoder(Fact):
    """What a decoder holds. `ways` and `gran` are None where their codes stand for nothing; a port has `targets`, an endpoint `skip`."""
    node: str
    number: int
    committed: bool
    commit: bool
    error: bool
    lock: bool
    host_only: bool
    base: int
    size: int
    ways: Optional[int]
    gran: Optional[int]
    targets: Optional[tuple]
    skip: Optional[int]
    words: tuple

    @property
    def end(self) -> int:
        return self.base + self.size

    @property
    def range(self) -> tuple:
        return self.base, self.size


@dataclass(frozen=True)
class Slot(Fact):
    """A device's share of a region: its place in turn, the endpoint, and where the share starts there."""
    number: int
    endpoint: str
    start: int


@dataclass(frozen=True)
class Region(Fact):
    """A range of host addresses with all decoders that carry it to devices."""
    name: str
    base: int
    size: int
    window: int
    gran: int
    ways: int
    kind: str  # ram or pmem
    slots: tuple

    @property
    def end(self) -> int:
        return self.base + self.size

    @property
    def share(self) -> int:
        """Bytes on each endpoint."""
        return self.size // self.ways


@dataclass(frozen=True)
class ShownRow(Fact):
    """A decoder of a region as it stands: its seven words, base low first."""
    node: str
    decoder: int
    words: tuple


@dataclass(frozen=True)
class Write(Fact):
    """A register write of 32 bits. `offset` is that in the node's HDM decoder capability structure. Of a commit `reads` is what the word
    reads when it is done."""
    node: str
    offset: int
    value: int
    reads: Optional[int] = None


@dataclass(frozen=True)
class Place(Fact):
    """A decoder that breaks a rule."""
    rule: str
    node: str
    decoder: int


# ---- Answers.

@dataclass(frozen=True)
class Via(Fact):
    """A port's decoder on the way of an address, and which entry of its target list is taken."""
    node: str
    decoder: int
    entry: int


@dataclass(frozen=True)
class Down(Fact):
    """Where a host address goes."""
    hpa: int
    region: str
    slot: int
    position: int
    via: tuple
    endpoint: str
    dpa: int


@dataclass(frozen=True)
class Up(Fact):
    """Which host address goes to a byte of a device."""
    hpa: int
    region: str
    endpoint: str = ""
    dpa: int = 0


@dataclass(frozen=True)
class Extent(Fact):
    """A run of host bytes that lie side by side on a device."""
    hpa: int
    length: int
    endpoint: str
    dpa: int


@dataclass(frozen=True)
class Spread(Fact):
    """How many bytes of a range lie on a slot."""
    slot: int
    endpoint: str
    bytes: int


@dataclass(frozen=True)
class Position(Fact):
    """To which target of which window an address goes, by the table alone."""
    window: int
    position: int
    bridge: int


@dataclass(frozen=True)
class Piece(Fact):
    """Host bytes that a poison record touches: a run, or, of more than 64 runs, the first addresses of the first and of the last."""
    region: str
    hpa: int
    length: Optional[int] = None
    last: Optional[int] = None
    runs: int = 1


@dataclass(frozen=True)
class Poison(Fact):
    """A poison record of an endpoint with the host bytes that it touches."""
    endpoint: str
    dpa: int
    length: int
    source: str
    pieces: tuple
    unmapped: int = 0


@dataclass(frozen=True)
class Reason(Fact):
    """What is in the way of a plan in a window."""
    window: int
    cause: str
    place: str = ""


@dataclass(frozen=True)
class Planned(Fact):
    """A region that could be made on the registers as they are: its decoders as they would stand, the register writes that make it,
    those that take it down again, and those by which endpoints of it that do not decode yet are let decode, before all others."""
    region: Region
    decoders: tuple
    writes: tuple
    undo: tuple
    enables: tuple = ()


@dataclass(frozen=True)
class Released(Fact):
    """A region that could be taken down: the writes that do it, and those that take these back before the last one."""
    region: Region
    writes: tuple
    undo: tuple
