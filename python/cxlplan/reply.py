"""The regions that a reply of cxlplan tells, over the host that it was told of: a reply of `plan`, of `check`, or of a script with a
`show` of each region.

Only the words of the reply are read here. What they mean is asked of the proved calls: rows of a `plan` have to be those of the plan of
the same region; rows of a `show`, alone in the machine after reset, have to make that region; and slots of a `check` have to have a
plan. Where each chunk goes is told by a session in which the region stands."""

import re
import struct
from dataclasses import dataclass, field
from typing import NoReturn, Optional

from .editing import places_of, reset_image
from .errors import BadFile, Breach, CxlError, Refusal
from .facts import ShownRow, Slot
from .host import Host
from .incoming import read_file
from .planning import turns
from .room import table_with
from .session import create_line

GRAIN = 256 << 20  # bytes: sizes of regions are multiples of it
WAYS, GRANS = (1, 2, 3, 4, 6, 8, 12, 16), [256 << code for code in range(7)]

X, N, NAME = "0x([0-9a-f]+)", "([0-9]+)", "([A-Za-z0-9_]{1,15})"
RANGE = f"window {N} base {X} size {X} gran {N} ways {N}"
PLAN, SHOW = re.compile(f"plan {NAME} (ram|pmem) {RANGE}"), re.compile(f"region {NAME} (ram|pmem) {RANGE}")
CHECK = re.compile(f"region {X} size {X} window {N} gran {N} ways {N} (ram|pmem)")
PORT_ROW = re.compile(f"row {NAME} {N} ways {N} gran {N} targets ([0-9,]+)")
END_ROW = re.compile(f"row {NAME} {N} ways {N} gran {N} skip {X}")
SHOW_ROW, SLOT = re.compile(f"node {NAME} {N}" + " ([0-9a-f]{8})" * 7), re.compile(f"slot {N} {NAME} {X}")


@dataclass(frozen=True)
class PlanRow:
    """What a decoder is to hold, as `plan` tells it: a port has `targets`, an endpoint `skip`."""
    node: str
    decoder: int
    ways: int
    gran: int  # bytes
    targets: Optional[tuple]
    skip: Optional[int]


@dataclass
class Told:
    """A region as a reply tells it. Of `plan` and `show` it has `rows` by the node's name, in the end those of `show`, and what they
    hold as `decoders`; `turns` tell where its first chunks go."""
    name: str
    kind: str
    window: int
    base: int
    size: int
    gran: int  # bytes
    ways: int
    rows: dict = field(default_factory=dict)
    slots: list = field(default_factory=list)
    decoders: dict = field(default_factory=dict)
    turns: list = field(default_factory=list)

    @property
    def share(self) -> int:
        """Bytes on each endpoint."""
        return self.size // self.ways

    @property
    def is_planned(self) -> bool:
        return any(isinstance(row, PlanRow) for row in self.rows.values())


class Reply:
    """The regions of a reply by their names. Of a script's reply the last `show` of each region counts, and lines of other commands are
    passed over."""

    def __init__(self, file: str, host: Host) -> None:
        self.file, self.host = file, host
        self.nodes = {node.name: node for node in host.nodes}
        self.regions: dict = {}
        self.created: set = set()
        self.last: Optional[Told] = None  # the one to which rows and slots belong
        self.refusal = ""
        for number, line in enumerate(read_file(file).decode("ascii", "replace").splitlines(), 1):
            try:
                self.add(line)
            except (KeyError, ValueError, IndexError) as fault:
                self.bad(f"line {number}: {fault} does not fit the host")
        if self.created or not self.regions:
            self.bad(f"{min(self.created)} was created, but no `show` of it follows" if self.created
                     else f"no region in it{self.refusal}")
        for region in self.regions.values():
            self.complete(region)

    def bad(self, what: str) -> NoReturn:
        raise BadFile(f"{self.file}: {what}", 1, "reply", self.file)

    # ---- The lines.

    def add(self, line: str) -> None:
        word = line.split(" ")[0]
        if match := PLAN.fullmatch(line) or SHOW.fullmatch(line):
            name, kind, window, base, size, gran, ways = match.groups()
            self.begin(Told(name, kind, int(window), int(base, 16), int(size, 16), int(gran), int(ways)))
        elif match := CHECK.fullmatch(line):
            base, size, window, gran, ways, kind = match.groups()
            self.begin(Told(f"region{len(self.regions)}", kind, int(window), int(base, 16), int(size, 16), int(gran), int(ways)))
        elif self.last and (match := PORT_ROW.fullmatch(line) or END_ROW.fullmatch(line)):
            name, decoder, ways, gran, tail = match.groups()
            is_port = " targets " in line
            self.put(PlanRow(name, int(decoder), int(ways), int(gran), tuple(map(int, tail.split(","))) if is_port else None,
                             None if is_port else int(tail, 16)))
        elif self.last and (match := SHOW_ROW.fullmatch(line)):
            self.put(ShownRow(match[1], int(match[2]), tuple(int(word, 16) for word in match.groups()[2:])))
        elif self.last and (match := SLOT.fullmatch(line)):
            if int(match[1]) != len(self.last.slots):
                raise ValueError(f"slot {match[1]}")
            if self.nodes[match[2]].kind != "endpoint":
                raise ValueError(match[2])
            self.last.slots.append(Slot(int(match[1]), match[2], int(match[3], 16)))
        else:
            self.last = None
            self.pass_over(line, word)

    def pass_over(self, line: str, word: str) -> None:
        """Notes what a line of another command says of regions."""
        if word == "created":
            self.created.add(line.split(" ")[1])
        elif word == "destroyed":
            self.regions.pop(line.split(" ")[1], None)
            self.created.discard(line.split(" ")[1])
        elif word in ("breach", "refused", "error:"):
            self.refusal = f"; it says {line[:80]!r}"

    def begin(self, region: Told) -> None:
        window = self.host.windows[region.window]
        if region.ways not in WAYS or region.ways % window.ways:
            raise ValueError(f"window {region.window}")
        if region.gran not in GRANS or region.size % (GRAIN * region.ways) or not (
                0 < region.size and window.base <= region.base <= window.end - region.size):
            raise ValueError(f"base {region.base:#x} size {region.size:#x} gran {region.gran}")
        self.created.discard(region.name)
        self.regions[region.name] = self.last = region

    def put(self, row) -> None:
        if row.decoder >= self.nodes[row.node].decoders or self.nodes[row.node].passthrough:
            raise ValueError(f"decoder {row.decoder} of {row.node}")
        if isinstance(row, PlanRow) and row.gran not in GRANS:
            raise ValueError(f"{row.gran} is not in list")
        if self.last.rows and self.last.is_planned != isinstance(row, PlanRow):
            raise ValueError(f"another form of row for {row.node}")
        self.last.rows[row.node] = row

    # ---- What the proved calls say of it.

    def complete(self, region: Told) -> None:
        """Holds a region against the host."""
        if region.is_planned:
            self.has_memory(region, [(row.node, row.skip) for row in region.rows.values() if row.skip is not None])
            self.as_planned(region)
            return
        if len({slot.endpoint for slot in region.slots}) != region.ways:
            self.bad(f"{region.name} has not {region.ways} slots of different endpoints")
        self.has_memory(region, [(slot.endpoint, slot.start) for slot in region.slots])
        if region.rows:
            self.as_shown(region)
        else:
            with self.made(region, [slot.endpoint for slot in region.slots]) as session:
                region.turns = turns(session, self.host, region)

    def has_memory(self, region: Told, starts: list) -> None:
        for name, start in starts:
            if start + region.share > self.nodes[name].ram + self.nodes[name].pmem:
                self.bad(f"the share of {name} ends past its memory")

    def lead_elsewhere(self, region: Told, why: Optional[CxlError] = None) -> NoReturn:
        text = why.text.split("\n")[0] if why else ""
        self.bad(f"the rows of {region.name} do not lead to its slots on this host" + (f": {text}" if text else ""))

    def made(self, region: Told, endpoints: list):
        """A session after reset in which the region was made at its base: its window is given to it alone."""
        table = table_with(self.host.table.data, region.window, (region.base, region.size))
        session = Host(table, self.host.topology.data).session()
        try:
            session.ask(create_line(region.name, region.kind, region.size, *endpoints, gran=region.gran))
        except Refusal as refused:
            session.close()
            if region.rows:
                self.lead_elsewhere(region, refused)
            self.bad(f"{region.name} has no plan on this host: {refused.text.splitlines()[0]}")
        found = session.show(region.name)[0]
        if meaning(found)[:-1] != meaning(region)[:-1]:
            session.close()
            self.lead_elsewhere(region)
        return session

    def as_planned(self, region: Told) -> None:
        """A plan's rows have to be those of the plan of its endpoints; its slots and words are told by that."""
        ends = [row.node for row in region.rows.values() if row.skip is not None]
        with self.made(region, ends) as session:
            found, rows = session.show(region.name)
            decoders = Host(self.host.table.data, self.host.topology.data, session.under.image()).decoders
            region.turns = turns(session, self.host, region)
        places = {(row.node, row.decoder) for row in rows}
        region.decoders = {it.node: it for it in decoders if (it.node, it.number) in places}
        planned = {it.node: PlanRow(it.node, it.number, it.ways, it.gran, it.targets, it.skip) for it in region.decoders.values()}
        if planned != region.rows or region.slots not in ([], list(found.slots)):
            self.lead_elsewhere(region)
        region.rows, region.slots = {row.node: row for row in rows}, list(found.slots)

    def as_shown(self, region: Told) -> None:
        """The words of a `show`, alone in the machine after reset, have to make the region that it tells."""
        held = Host(self.host.table.data, self.host.topology.data, self.image([region])).decoders
        region.decoders = {it.node: it for it in held if it.node in region.rows and it.number == region.rows[it.node].decoder}
        for row in region.rows.values():
            if region.decoders[row.node].words != row.words:
                self.bad(f"decoder {row.decoder} of {row.node} does not keep the words of {region.name}")
        alone = Host(self.host.table.data, self.host.topology.data, self.image([region], is_alone=True))
        try:
            found = alone.check()
        except Breach as breach:
            self.lead_elsewhere(region, breach)
        if [meaning(it) for it in found] != [meaning(region)]:
            self.lead_elsewhere(region)
        with alone.session() as session:
            region.turns = turns(session, alone, found[0])

    def image(self, regions: list, is_alone: bool = False) -> bytes:
        """The machine after reset, with each endpoint enabled and the words of these regions in their decoders; of one that is to be
        alone in the first decoders, from where its shares start."""
        if not hasattr(self, "reset"):
            self.reset, self.places = reset_image(self.host), places_of(self.host)
        image = bytearray(self.reset)
        for region in regions:
            starts = {slot.endpoint: struct.unpack("<II", struct.pack("<Q", slot.start)) for slot in region.slots}
            for row in region.rows.values():
                tail = starts.get(row.node, row.words[5:]) if is_alone else row.words[5:]
                struct.pack_into("<7I", image, self.places[row.node, 0 if is_alone else row.decoder], *row.words[:5], *tail)
        return bytes(image)


def meaning(region) -> tuple:
    """A region but for its name; with one way it has no granularity."""
    return (region.base, region.size, region.window, region.gran if region.ways > 1 else None, region.ways, region.kind,
            tuple(region.slots))
