"""What is free on a host, and the largest regions that have a plan on its registers as they are.

Each size that is told was planned, and the next one was refused. That no larger one beyond that has a plan is taken for granted: the
search is not proved, each of its answers is. So that one window is asked and not the first that takes a region, the planner is given
the table with all other windows marked as of fixed configuration, in which no region is made."""

import struct
from dataclasses import dataclass
from typing import Optional

from .facts import Fact, Region
from .host import Host

GRAIN = 256 << 20
WAYS = (1, 2, 3, 4, 6, 8, 12, 16)
TOO_MUCH = 1 << 51  # bytes of a region
FIXED = 1 << 4  # of a window's restrictions
PROBE = "probe"


@dataclass(frozen=True)
class FreeRange(Fact):
    """Host addresses of a window that no region has."""
    window: int
    base: int
    size: int


@dataclass(frozen=True)
class FreeMemory(Fact):
    """An endpoint's memory of a kind, and how much of it a further region could take."""
    endpoint: str
    kind: str
    size: int
    free: int


@dataclass(frozen=True)
class Room(Fact):
    """What is free, and for each window, kind and number of ways the largest region that has a plan."""
    ranges: tuple
    memory: tuple
    largest: tuple  # Regions


def room_of(host: Host, kinds: tuple = ("ram", "pmem")) -> Room:
    regions = host.regions
    return Room(tuple(free_ranges(host.windows, regions)), tuple(free_memory(host)),
                tuple(region for window in host.windows if window.is_usable for region in largest_in(host, window, kinds)))


def free_ranges(windows: list, regions: list):
    """What lies between the regions of each usable window."""
    for window in windows:
        at = window.base
        for region in [it for it in regions if it.window == window.number] if window.is_usable else []:
            if region.base > at:
                yield FreeRange(window.number, at, region.base - at)
            at = region.end
        if window.is_usable and at < window.end:
            yield FreeRange(window.number, at, window.end - at)


def free_memory(host: Host):
    """Of each endpoint and kind how many bytes are behind its last span, where the next one begins."""
    with host.session() as session:
        for node in host.endpoints:
            for kind, size in (("ram", node.ram), ("pmem", node.pmem)):
                if size:
                    yield FreeMemory(node.name, kind, size, free_at(session, node.name, kind))


def free_at(session, endpoint: str, kind: str) -> int:
    """The planner's answer to a region that no device has room for: from where to where there is room for a share. A device whose ram
    was skipped has none left in it, and one without a free decoder takes no share at all."""
    refused = session.would(f"create {PROBE} {kind} {TOO_MUCH:#x} {endpoint}")
    if refused is None or refused.cause != "span" or " no-room " not in refused.place:
        return 0
    start, limit = refused.place.split()[-2:]
    return int(limit, 16) - int(start, 16)


def largest_in(host: Host, window, kinds: tuple):
    """The largest region of each kind and number of ways that has a plan in a window."""
    alone = Host(table_with(host.table.data, window.number), host.topology.data, host.registers, host.name)
    with alone.session() as session:
        for kind in kinds:
            for ways in WAYS:
                found = largest(session, kind, ways, window.size // (GRAIN * ways))
                if found:
                    yield found


def largest(session, kind: str, ways: int, most: int) -> Optional[Region]:
    """The largest region of so many ways that the planner takes, of up to `most` shares of 256 MiB each."""
    def takes(shares: int) -> bool:
        refused = session.would(line_of(kind, ways, shares))
        if refused and refused.cause not in ("no-set", "size"):
            raise refused
        return refused is None

    if most < 1 or not takes(1):
        return None
    low, high = 1, most + 1  # the first is taken, the last is not
    while high - low > 1:
        middle = (low + high) // 2
        low, high = (middle, high) if takes(middle) else (low, middle)
    session.ask(line_of(kind, ways, low))
    region, _ = session.show(PROBE)
    session.ask(f"destroy {PROBE}")
    return region


def line_of(kind: str, ways: int, shares: int) -> str:
    return f"create {PROBE} {kind} {GRAIN * ways * shares:#x} ways={ways}"


def table_with(table: bytes, number: int, only: Optional[tuple] = None) -> bytes:
    """The table with each window but one marked as of fixed configuration; that one may be given another base and size, and then it is
    not of fixed configuration."""
    made, at, window = bytearray(table), 36, 0
    while at < len(made):
        kind, length = struct.unpack_from("<BxH", made, at)
        if kind == 1:
            restrict = struct.unpack_from("<H", made, at + 32)[0]
            if window != number:
                struct.pack_into("<H", made, at + 32, restrict | FIXED)
            elif only is not None:
                struct.pack_into("<QQ", made, at + 8, *only)
                struct.pack_into("<H", made, at + 32, restrict & ~FIXED)
            window += 1
        at += length
    made[9] = 0
    made[9] = -sum(made) % 256
    return bytes(made)
