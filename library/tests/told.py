"""The lines of the calls that no command has, worked out here of the bytes of tables, topologies and images, as a peer of the library."""

import struct

from cxlplan.facts import Node

try:
    import tomllib
except ImportError:  # before Python 3.11
    try:
        import tomli as tomllib
    except ImportError:
        tomllib = None

COUNTS = (1, 2, 4, 6, 8, 10)
WAYS = {0: 1, 1: 2, 2: 4, 3: 8, 4: 16, 8: 3, 9: 6, 10: 12}
PLACEHOLDER = 0x10  # the capability word of a node that passes all on
BITS = {"lock": 1 << 8, "commit": 1 << 9, "committed": 1 << 10, "error": 1 << 11, "host-only": 1 << 12}
UNIT, LIMIT = 1 << 28, 1 << 52  # of addresses


def bits_of(bits):
    return "".join(f" {name} {1 if bit else 0}" for name, bit in bits.items())


# ---- Trees.

def nodes_of(topo):
    """The nodes of a topology that the program takes: bridges, switches, endpoints."""
    top, nodes = tomllib.loads(topo.decode()), []
    for kind in ("bridge", "switch", "endpoint"):
        for table in top.get(kind, []):
            nodes.append(node_of(len(nodes), kind, table))
    return nodes


def node_of(number, kind, table):
    is_end, passes = kind == "endpoint", table.get("passthrough", False)
    return Node(number, kind, table["name"], table.get("parent"), table.get("port"), table.get("uid"),
                1 if passes else table.get("decoders", 4), None if is_end else 1 if passes else table.get("targets", 8),
                not passes and table.get("low", True), not passes and table.get("high", True),
                table.get("ways3", True) if is_end else None, table.get("ways16", True) if is_end else None, passes,
                table.get("ram", 0), table.get("pmem", 0))


def capability_of(node):
    if node.passthrough:
        return PLACEHOLDER
    word = COUNTS.index(node.decoders) | node.low << 8 | node.high << 9
    return word | (node.ways3 << 11 | node.ways16 << 12 if node.kind == "endpoint" else node.targets << 4)


def kind_of(node):
    if node.kind == "bridge":
        return f"bridge uid {node.uid}"
    memory = f" ram {node.ram:#x} pmem {node.pmem:#x}" if node.kind == "endpoint" else ""
    return f"{node.kind}{memory} parent {node.parent} port {node.port}"


def tree(topo):
    """`cxlplan_tree`."""
    text = f"frames {tomllib.loads(topo.decode()).get('frames', 65536)}\n"
    for node in nodes_of(topo):
        text += f"node {node.number} {node.name} {kind_of(node)} cap {capability_of(node):#x} decoders {node.decoders}"
        text += f" targets {node.targets or 0}" + bits_of({it: getattr(node, it) for it in ("low", "high", "ways3", "ways16", "passthrough")})
        text += "\n"
    return text.encode()


# ---- Decoders.

def kept(node, offset, word):
    """What is kept of a word of an image: reserved bits are dropped."""
    place = offset - 0x10 & 0x1f if offset >= 0x10 else None
    if place is None:
        return {0: capability_of(node), 4: word & 2 if node.kind == "endpoint" else 0}.get(offset, 0)
    if place in (0, 8) or place == 0x14 and node.kind == "endpoint":
        return word & 0xf0000000
    return word & 0x1fff if place == 0x10 else 0 if place == 0x1c else word


def words_of(nodes, image):
    """The words of each node's block in an image that the program takes."""
    at, blocks = 12, []
    for node in nodes:
        count = 4 + 8 * node.decoders
        blocks.append([kept(node, 4 * place, word) for place, word in enumerate(struct.unpack_from(f"<{count}I", image, at))])
        at += 4 * count
    return blocks


def decoder(node, number, words):
    control, tail = words[4], words[5] | words[6] << 32
    ways = WAYS.get(control >> 4 & 15, 1)
    end = f"skip {tail:#x}" if node.kind == "endpoint" else "targets " + ",".join(str(tail >> 8 * at & 255) for at in range(ways))
    return (f"decoder {node.name} {number} base {words[0] | words[1] << 32:#x} size {words[2] | words[3] << 32:#x} ways {ways}"
            f" gran {256 << (control & 15)} codes {control >> 4 & 15} {control & 15}"
            f"{bits_of({name: control & bit for name, bit in BITS.items()})} {end} words {' '.join(f'{word:08x}' for word in words)}\n")


def decoders(topo, image):
    """`cxlplan_decoders`."""
    nodes, text = nodes_of(topo), ""
    for node, words in zip(nodes, words_of(nodes, image)):
        text += f"block {node.number} {node.name} cap {words[0]:#x} control {words[1]:#x}\n"
        text += "".join(decoder(node, i, words[4 + 8 * i:12 + 8 * i]) for i in range(node.decoders))
    return text.encode()


# ---- Windows.

def records_of(cedt):
    """Of a table that the program takes the versions of its bridges, the maps of each granularity, and its windows."""
    versions, maps, found, at = {}, {}, [], 36
    while at < len(cedt):
        kind, length = struct.unpack_from("<BxH", cedt, at)
        if kind == 0:
            uid, version = struct.unpack_from("<II", cedt, at + 4)
            versions.setdefault(uid, []).append(version)
        elif kind == 1:
            base, size, ways, xor, gran, restrict, qtg = struct.unpack_from("<QQBBxxIHH", cedt, at + 8)
            targets = struct.unpack_from(f"<{WAYS[ways]}I", cedt, at + 36)
            found.append((base, size, WAYS[ways], xor, gran, restrict, qtg, targets))
        elif kind == 2:
            maps.setdefault(cedt[at + 6], struct.unpack_from(f"<{cedt[at + 7]}Q", cedt, at + 8))
        at += length
    return versions, maps, found


def target_cause(uid, versions, uids):
    """Why a target is missing; nothing of one that is there."""
    if uid not in versions:
        return "no-chbs"
    return "no-cxl2" if 1 not in versions[uid] else "no-bridge" if uid not in uids else ""


def maps_cause(maps, ways, gran):
    """Why the maps of a granularity do not serve XOR over so many ways; nothing of those that do."""
    needed = (ways & -ways).bit_length() - 1
    if needed == 0:
        return ""
    if maps is None:
        return "no-cxims"
    if len(maps) < needed:
        return f"few {len(maps)} {needed}"
    select = range(gran + 8, gran + 8 + needed)  # the address bits of the maps
    fits = all(it < LIMIT and it % (1 << low) == 0 and [bit for bit in select if it >> bit & 1] == [low] for it, low in zip(maps, select))
    return "" if fits else "unfit"


def verdict(window, before, versions, maps, uids):
    base, size, ways, xor, gran, _, _, targets = window
    if base % UNIT:
        return "align"
    if size == 0 or size % (UNIT * ways):
        return "size"
    if base + size > LIMIT:
        return "too-high"
    for number, (other, other_size, *_) in enumerate(before):
        if max(base, other) < min(base + size, other + other_size):
            return f"overlap {number}"
    for uid in targets:
        if target_cause(uid, versions, uids):
            return f"target {uid} {target_cause(uid, versions, uids)}"
    for place, uid in enumerate(targets):
        if uid in targets[:place]:
            return f"repeat {uid}"
    lacks = maps_cause(maps.get(gran), ways, gran) if xor else ""
    return f"maps {lacks}" if lacks else "usable"


def windows(cedt, topo):
    """`cxlplan_windows`."""
    uids = {node.uid for node in nodes_of(topo) if node.kind == "bridge"}
    (versions, maps, found), text = records_of(cedt), ""
    for number, window in enumerate(found):
        base, size, ways, xor, gran, restrict, qtg, targets = window
        text += (f"window {number} base {base:#x} size {size:#x} ways {ways} gran {256 << gran} xor {xor} restrict {restrict:#x} qtg {qtg} "
                 f"targets {','.join(map(str, targets))} verdict {verdict(window, found[:number], versions, maps, uids)}\n")
    return text.encode()


# By call; none where Python has no reader of TOML.
TELLS = {"tree": tree, "decoders": decoders, "windows": windows} if tomllib else {}
