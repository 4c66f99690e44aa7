"""Turns regions that cxlplan prints into commands for Linux, register writes for
firmware, or an image file.

  cxl-regions CEDT TOPO REPLY
        the `cxl create-region` command of each region
  cxl-regions --words CEDT TOPO REPLY
        the register writes that make it, in their order
  cxl-regions --image FILE CEDT TOPO REPLY
        makes FILE, an image in which the regions are committed

CEDT and TOPO are the files that cxlplan read, and REPLY is its output, or - for
standard input: that of `plan`, of a script with a `show` of each region, or,
for the first form only, of `check`. FILE must not be there yet.
Bad input gives one line on standard error and status 1.
"""

import sys
from typing import Optional

from ._engine import engine
from .errors import BadFile, BadWords, Breach
from .files import write_new
from .host import Host
from .planning import create_text, decoder_at
from .reply import Reply, Told, meaning
from .room import table_with
from .session import create_line
from .tools import Words, carried_out, host_of, tell

COMMIT, COMMITTED, ANSWERS = 1 << 9, 1 << 10, 7 << 9  # of a control word: the last are those that a write does not set


# ---- For firmware.

def writes_text(region: Told, host: Host) -> str:
    """The writes of a region's words, in their order."""
    text, last = (f"# {region.name}: {8 * len(region.rows)} writes of 32 bits. Offsets are those in a node's HDM decoder "
                  f"capability structure.\n# Before them bit 1 of the word at 0x4 is set in each endpoint.\n"), ""
    nodes = {node.name: node for node in host.nodes}
    for name, place, commits in order_of(region, host):
        if name != last:
            last, node, row = name, nodes[name], region.rows[name]
            at = f"UID {node.uid}" if node.kind == "bridge" else f"below port {node.port} of {node.parent}"
            text += f"\n{node.kind} {name}, {at}, decoder {row.decoder}\n"
            said = row_texts(region, row, region.decoders[name])
        text += said[place, commits]
    return text


def order_of(region: Told, host: Host) -> list:
    """Of each write its node, the word of the decoder, and whether it commits: those of the region made alone, which have the same order.
    Of a region that is not planned so, children come before their parents, and commit comes last."""
    table = table_with(host.table.data, region.window, (region.base, region.size))
    line = create_line(region.name, region.kind, region.size, *[it.endpoint for it in region.slots], gran=region.gran)
    found = []
    for write in engine().words(table, host.topology.data, None, line.encode()):
        place = decoder_at(write.offset)[1]
        found.append((write.node, place, place == 4 and bool(write.value & COMMIT)))
    if {name for name, _, _ in found} == set(region.rows):
        return found
    return [(node.name, place, commits) for node in reversed(host.nodes) if node.name in region.rows
            for place, commits in ((0, False), (1, False), (2, False), (3, False), (5, False), (6, False), (4, False), (4, True))]


def row_texts(region: Told, row, held) -> dict:
    """The lines of a row's writes, by word and by whether they commit; `held` are its fields."""
    base_low, base_high, size_low, size_high, control, tail_low, tail_high = row.words
    control &= ~ANSWERS
    if held.targets is None:
        tail, said = "DPA skip", f"{held.skip:#x} bytes are skipped"
    else:
        tail, said = "target list", "entries " + ", ".join(map(str, held.targets))
    ways = f"{held.ways} ways of {held.gran} bytes" if held.ways > 1 else "one way"
    flags = ", host-only memory" * held.host_only + ", lock on commit" * held.lock
    rows = {(0, False): (base_low, "base low"), (1, False): (base_high, f"base high: from {region.base:#x}"),
            (2, False): (size_low, "size low"), (3, False): (size_high, f"size high: {region.size:#x} bytes"),
            (5, False): (tail_low, f"{tail} low"), (6, False): (tail_high, f"{tail} high: {said}"),
            (4, False): (control, f"control: {ways}{flags}"),
            (4, True): (control | COMMIT, f"control with commit; reads {control | COMMIT | COMMITTED:#010x} when done")}
    return {(place, commits): f"  {0x10 + 0x20 * row.decoder + 4 * place:#06x}  {value:#010x}  {what}\n"
            for (place, commits), (value, what) in rows.items()}


def image_of(reply: Reply) -> bytes:
    """The machine after reset, with each endpoint enabled and the regions of a reply committed; `check` has to find them in it."""
    regions, host = list(reply.regions.values()), reply.host
    places = [(row.node, row.decoder) for region in regions for row in region.rows.values()]
    if len(set(places)) != len(places):
        raise BadWords("two regions of the reply have the same decoder", 1, "twice")
    image = reply.image(regions)
    try:
        found = Host(host.table.data, host.topology.data, image).check()
    except Breach as breach:
        if breach.rule == "K2":
            raise BadWords(f"decoder {breach.decoder - 1} of {breach.node} has no region in the reply, but the next one has: show all "
                           "regions", 1, "hole") from None
        raise BadWords(f"together the regions of the reply break a rule: {breach.text}", 1, "breach") from None
    if sorted(map(meaning, found)) != sorted(map(meaning, regions)):
        raise BadWords("`check` finds other regions in the image than the reply tells", 1, "regions")
    return image


# ---- The command line.

def main(words: Optional[list] = None) -> int:
    return carried_out("cxl-regions", __doc__, work, sys.argv[1:] if words is None else words)


def work(words: list) -> int:
    parser = Words("cxl-regions", "CEDT TOPO REPLY")
    forms = parser.add_mutually_exclusive_group()
    forms.add_argument("--words", action="store_true")
    forms.add_argument("--image", metavar="FILE")
    said = parser.read(words)
    table, topology, file = said.names
    reply = Reply(file, host_of(table, topology))
    regions = list(reply.regions.values())
    if (said.words or said.image is not None) and not all(region.rows for region in regions):
        raise BadFile(f"{file}: no registers in it; take the reply of `plan`, or of `show`", 1, "reply", file)
    if said.image is not None:
        write_new(said.image, image_of(reply))
        return 0
    texts = [writes_text(region, reply.host) if said.words else create_text(reply.host, region, region.turns) for region in regions]
    return 0 if tell("\n".join(texts), end="") else 1


if __name__ == "__main__":
    sys.exit(main())
