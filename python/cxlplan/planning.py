"""Plans on a host's registers as they are, with their register writes, as texts for Linux and for firmware.

A plan is a create in a session that is thrown away: so the answer, its refusals and its writes are the session's."""

import re
from dataclasses import dataclass, replace

from ._engine import engine
from .errors import BadWords, NoEngine
from .facts import Planned, Released, WORD_NAMES, Write

GLOBAL_CONTROL, ENABLE = 0x4, 1 << 1  # where an endpoint is let decode
COMMIT = 1 << 9  # of a control word
MOST_WAIT = "10 ms"  # in which a commit is done or has failed, by the standard
GRAIN = 256 << 20  # bytes: Linux makes a root decoder of a window whose base and size are multiples of it


def opened(host, with_writes: bool):
    """A session, whose writes are told where they are asked for."""
    return host.session().watch() if with_writes else host.session()


def name_of(line: str) -> str:
    words = line.split()
    if len(words) < 2:
        raise BadWords(f"{line!r} names no region", 1, "missing")
    return words[1]


def plan(host, line: str, with_writes: bool = True) -> Planned:
    """The plan of a line `create NAME ..`; its refusal is raised."""
    with opened(host, with_writes) as session:
        session.ask(line)
        writes = tuple(session.writes())
        region, rows = session.show(name_of(line))
        decoders = decoders_of(host, session, rows)
        session.ask(f"destroy {region.name}")
        undo = tuple(session.writes())
    return Planned(region, decoders, with_reads(writes, rows), undo, enables(host, region) if with_writes else ())


def enables(host, region) -> tuple:
    """The writes that let those endpoints of a region decode that do not yet; after reset none does."""
    held = engine().controls(host.table.data, host.topology.data, host.registers) if host.image else {}
    names = dict.fromkeys(slot.endpoint for slot in region.slots)
    return tuple(Write(name, GLOBAL_CONTROL, held.get(name, 0) | ENABLE) for name in names if not held.get(name, 0) & ENABLE)


def with_reads(writes: tuple, rows: list) -> tuple:
    """Writes, of which those that commit have what is read when they are done: what a session shows of the decoder."""
    shown = {(row.node, row.decoder): row.words[4] for row in rows}
    return tuple(replace(it, reads=shown[it.node, decoder_at(it.offset)[0]]) if commits(it) else it for it in writes)


def commits(write: Write) -> bool:
    return write.offset >= 0x10 and decoder_at(write.offset)[1] == 4 and bool(write.value & COMMIT)


def decoders_of(host, session, rows: list) -> tuple:
    """The decoders of these rows as they stand in a session; none where there is no library, which tells them."""
    try:
        decoders = type(host)(host.table.data, host.topology.data, session.under.image()).decoders
    except NoEngine:
        return ()
    made = {(row.node, row.decoder) for row in rows}
    return tuple(it for it in decoders if (it.node, it.number) in made)


def image_with(host, line: str) -> bytes:
    """The image of the host with a region that is planned."""
    with host.session() as session:
        session.ask(line)
        return session.under.image()


def release(host, name: str, with_writes: bool = True) -> Released:
    """What taking a region down would write, and what takes all but the last of these writes back; what refuses it is raised."""
    with opened(host, with_writes) as session:
        region, rows = session.show(name)
        undo = with_reads(taken_back(session, name), rows)
        session.ask(f"destroy {name}")
        return Released(region, tuple(session.writes()), undo)


def taken_back(session, name: str) -> tuple:
    """The writes by which a release is taken back that was made but for its last write."""
    count = int(session.ask(f"begin destroy {name}").split()[-1])
    if count > 1:
        session.ask(f"step {count - 1}")
    session.ask("abort")
    return tuple(session.writes())


# ---- For Linux.

@dataclass(frozen=True)
class Turn:
    """A chunk of a region's first turn: its slot, its position among the window's targets, and which of the devices there it goes to, as
    the entries of the ports below the window say."""
    slot: int
    position: int
    rank: int


def turns(session, host, region) -> list:
    """Each Turn of a region that stands in a session: all of it told by `down`."""
    image = session.under.image()
    decoders = {(it.node, it.number): it for it in type(host)(host.table.data, host.topology.data, image).decoders}
    found = []
    for chunk in range(region.ways):
        way = session.down(region.base + chunk * region.gran)
        rank, step = 0, 1
        for via in way.via:
            rank, step = rank + step * via.entry, step * decoders[via.node, via.decoder].ways
        found.append(Turn(way.slot, way.position, rank))
    return found


def root_decoder(host, window: int) -> int:
    """The number of the root decoder that Linux makes for a window: it passes over windows that it cannot use."""
    uids = {node.uid for node in host.nodes if node.kind == "bridge"}
    return sum(it.base % GRAIN == 0 == it.size % GRAIN and uids.issuperset(it.targets) for it in host.windows[:window])


def linux_text(host, planned: Planned, line: str) -> str:
    """The `cxl create-region` line of a plan, with comments."""
    with host.session() as session:
        session.ask(line)
        return create_text(host, planned.region, turns(session, host, planned.region))


def create_text(host, region, found: list) -> str:
    """The `cxl create-region` line of a region, with comments. Linux takes the devices by the window's targets first."""
    window, number = host.windows[region.window], root_decoder(host, region.window)
    by_slot = [slot.endpoint for slot in region.slots]
    names = [by_slot[it.slot] for it in sorted(found, key=lambda it: (it.rank, it.position))]
    text = (f"# {region.name}: window {region.window} begins at {window.base:#x}, and so has decoder0.{number}/start. "
            f"Linux chooses the base itself; here it is {region.base:#x}.\n")
    if names != by_slot:
        text += f"# Linux counts the window's targets first. By slot the devices are: {' '.join(by_slot)}\n"
    if not all(re.fullmatch("mem[0-9]+", name) for name in names):
        text += "# Put the kernel's name, memN, in the place of each device.\n"
    return text + (f"cxl create-region -m -t {region.kind} -d decoder0.{number} -w {region.ways} -g {region.gran} "
                   f"-s {region.size:#x} {' '.join(names)}\n")


# ---- For firmware.

def decoder_at(offset: int) -> tuple:
    """The decoder to which an offset belongs, and the word of it: 0 is base low."""
    return (offset - 0x10) // 0x20, (offset - 0x10) % 0x20 // 4


def word_name(kind: str, offset: int) -> str:
    """What stands at an offset: in an endpoint the tail is its skip, in a port the list of its targets."""
    if offset < 0x10:
        return ("capability", "global control", "reserved", "reserved")[offset // 4]
    return (*WORD_NAMES, "reserved")[decoder_at(offset)[1]].replace("tail", "DPA skip" if kind == "endpoint" else "target list")


def words_text(host, heading: str, writes) -> str:
    """Register writes for people, in their order, under the decoder to which they go."""
    nodes = {node.name: node for node in host.nodes}
    text, last = f"# {heading}\n", None
    for write in writes:
        number, node = decoder_at(write.offset)[0], nodes[write.node]
        if last != (write.node, number):
            last = (write.node, number)
            at = f"UID {node.uid}" if node.kind == "bridge" else f"below port {node.port} of {node.parent}"
            text += f"\n{node.kind} {node.name}, {at}" + (f", decoder {number}\n" if number >= 0 else "\n")
        text += f"  {write.offset:#06x}  {write.value:#010x}  {word_name(node.kind, write.offset)}{meaning(write)}\n"
    return text


def meaning(write) -> str:
    """What a write of a control word does."""
    if write.offset == GLOBAL_CONTROL:
        return ": bit 1 lets it decode, and the others stay"
    return f", commit; reads {write.reads:#010x} when done" if commits(write) else ""


def csv_text(writes) -> str:
    """Writes as rows; the last field is what a commit reads when it is done, and else empty."""
    return "node,offset,value,reads\n" + "".join(
        f"{it.node},{it.offset:#06x},{it.value:#010x},{'' if it.reads is None else f'{it.reads:#010x}'}\n" for it in writes)


def c_text(name: str, *lists: tuple) -> str:
    """Lists of writes as constants of C, each with what it is for."""
    text = ("#include <stdint.h>\n\n/* Offsets are those in a node's HDM decoder capability structure. Where reads is not 0, go on when the word\n"
            f"   reads so, within {MOST_WAIT}; if bit 11 is set then, the commit has failed. */\n"
            "struct cxl_write { const char *node; uint16_t offset; uint32_t value; uint32_t reads; };\n")
    for what, items in lists:
        text += f"\nstatic const struct cxl_write {c_name(name)}_{what}[{len(items)}] = {{\n"
        text += "".join(f'\t{{ "{it.node}", {it.offset:#06x}, {it.value:#010x}, {it.reads or 0:#010x} }},\n' for it in items) + "};\n"
    return text


def c_name(name: str) -> str:
    """A region's name as the begin of one of C, which begins with no digit, and with no underscore, since those are the compiler's."""
    return name if name[:1].isalpha() else f"region_{name}"
