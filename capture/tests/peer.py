"""A peer of cxl-regions and cxl-picture, which works out by itself what they ask of the proved calls: Linux's order of
devices, register words, images, and who gets which chunk. It reads topologies, tables and replies with eyes of its own,
word by word. Nothing but tests uses it."""

import string
import struct
from dataclasses import dataclass, field
from typing import Optional

MOST_BYTES, MOST_NODES = 1 << 20, 1024  # of a file, and of a topology
GRAIN = 256 << 20  # bytes: bases and sizes of windows and regions are multiples of it

# CXL 2.0, HDM decoder capability: codes, and the bits of the control word.
WAYS = {0: 1, 1: 2, 2: 4, 3: 8, 4: 16, 8: 3, 9: 6, 10: 12}
WAYS_CODES = {ways: code for code, ways in WAYS.items()}
GRANS = [256 << code for code in range(7)]
COUNT_CODES = {1: 0, 2: 1, 4: 2, 6: 3, 8: 4, 10: 5}
COMMIT, COMMITTED, HOST_ONLY, ANSWERS = 1 << 9, 1 << 10, 1 << 12, 7 << 9
PLACEHOLDER, ENABLE = 0x10, 2
DECODER = struct.Struct("<IIIIIIII")  # base, size, each low and high; control; tail low and high; reserved


class BadInput(Exception):
    """Why nothing is made: where, and what."""


def read(file: str) -> bytes:
    try:
        with open(file, "rb") as opened:
            data = opened.read(MOST_BYTES + 1)
    except OSError as fault:
        raise BadInput(f"{file}: {fault.strerror}") from None
    if len(data) > MOST_BYTES:
        raise BadInput(f"{file}: more than {MOST_BYTES} bytes")
    return data


# ---- The topology.

@dataclass
class Node:
    """A host bridge, a switch or an endpoint."""
    kind: str
    name: str
    parent: Optional[int]
    port: int  # of the parent; of a bridge its UID
    above: int  # the number of bridges and switches above it
    decoders: int
    capability: int
    passthrough: bool
    ram: int
    pmem: int


KINDS = ("bridge", "switch", "endpoint")
NAME_LETTERS, DIGITS, HEXADECIMAL = set(string.ascii_letters + string.digits + "_"), set(string.digits), set("0123456789abcdef")
BARE = NAME_LETTERS | set("+-")  # of a key or a value without quotes


def is_name(word: str) -> bool:
    return 0 < len(word) <= 15 and set(word) <= NAME_LETTERS


class Toml:
    """As much of TOML as topologies need: tables in arrays of either form, strings, integers and booleans."""

    def __init__(self, text: str):
        self.tokens, at = [], 0
        while at < len(text):
            length = self.length_at(text, at)
            if not length:
                raise BadInput(f"line {text.count(chr(10), 0, at) + 1} is not understood")
            token = text[at:at + length]
            self.tokens += [] if token[0] == "#" or token.isspace() else [token]
            at += length
        self.tokens.append("")

    @staticmethod
    def length_at(text: str, at: int) -> int:
        """How long the token is that begins there, or the space or comment; 0 where there is none."""
        char = text[at]
        if char == "#":
            return (text.find("\n", at) + 1 or len(text) + 1) - 1 - at
        if char in "\"'":
            end = text.find(char, at + 1)
            inside = text[at + 1:end]
            return 0 if end < 0 or "\n" in inside or char == '"' and "\\" in inside else end + 1 - at
        if char.isspace():
            return 1
        if char in "[]{},=":
            return 2 if text[at:at + 2] in ("[[", "]]") else 1
        end = at
        while end < len(text) and text[end] in BARE:
            end += 1
        return end - at

    def take(self, *wanted: str) -> str:
        token = self.tokens[0]
        if not token or wanted and token not in wanted:
            raise BadInput(f"{token or 'its end'!r} stands where {' or '.join(wanted) or 'more'} is wanted")
        return self.tokens.pop(0)

    def document(self) -> dict:
        top: dict = {}
        table = top
        while self.tokens[0]:
            if self.tokens[0] == "[[":
                self.take()
                tables = top.setdefault(self.take(), [])
                self.take("]]")
                table = {}
                tables.append(table)
            else:
                self.pair(table)
        return top

    def pair(self, table: dict) -> None:
        key = self.take().strip("\"'")
        self.take("=")
        if key in table:
            raise BadInput(f"{key} stands twice in a table")
        table[key] = self.value()

    def value(self):
        token = self.take()
        if token[0] in "\"'":
            return token[1:-1]
        if token in ("true", "false"):
            return token == "true"
        if token == "[":
            return self.items("]", [], lambda items: items.append(self.value()))
        if token == "{":
            return self.items("}", {}, self.pair)
        if token[0] not in DIGITS or not set(token) <= BARE - set("+-"):
            raise BadInput(f"{token!r} is no value")
        return int(token.replace("_", ""), 0 if token[0] == "0" and len(token) > 1 else 10)

    def items(self, end: str, into, read_item):
        while self.tokens[0] != end:
            read_item(into)
            if self.tokens[0] != end:
                self.take(",", end)
        self.take(end)
        return into


def read_topology(file: str) -> list:
    """The nodes in their order: bridges, switches, endpoints."""
    data = read(file)
    try:
        top, nodes, named = Toml(data.decode()).document(), [], {}
        for kind in KINDS:
            for table in top.get(kind, []):
                node = read_node(kind, table, named, nodes)
                if not is_name(node.name) or node.name in named:
                    raise BadInput(f"{node.name[:40]!r} is no name, or stands twice")
                if any((node.parent, node.port) == (other.parent, other.port) for other in nodes):
                    raise BadInput(f"{node.name}: an earlier node stands at its port, or has its UID")
                named[node.name] = len(nodes)
                nodes.append(node)
                if len(nodes) > MOST_NODES:
                    raise BadInput(f"more than {MOST_NODES} nodes")
        return nodes
    except BadInput as fault:
        raise BadInput(f"{file}: {fault}") from None
    except (KeyError, TypeError, ValueError, AttributeError, RecursionError) as fault:
        raise BadInput(f"{file}: no topology: {type(fault).__name__} {fault}") from None


def read_node(kind: str, table: dict, named: dict, nodes: list) -> Node:
    def value(key, default, allowed):
        found = table.get(key, default)
        if type(found) is not type(default) or found not in allowed:
            raise BadInput(f"{kind} {str(table['name'])[:40]}: {key} = {str(found)[:40]}")
        return found

    def flag(key, default=True):
        return value(key, default, (False, True))

    decoders, passthrough = value("decoders", 4, COUNT_CODES), flag("passthrough", False)
    capability = COUNT_CODES[decoders] | flag("low") << 8 | flag("high") << 9
    if kind == "endpoint":
        capability |= flag("ways3") << 11 | flag("ways16") << 12
    else:
        capability |= value("targets", 8, (1, 2, 4, 8)) << 4
    parent = None if kind == "bridge" else named[table["parent"]]
    above = 0 if parent is None else nodes[parent].above + 1
    if parent is not None and (nodes[parent].kind == "endpoint" or kind == "switch" and above > 4):
        raise BadInput(f"{table['name']}: its parent is an endpoint, or it is below four switches")
    port = value("uid", -1, range(1 << 32)) if kind == "bridge" else value("port", -1, range(256))
    if passthrough:
        decoders, capability = 1, PLACEHOLDER
    sizes = range((1 << 52) + 1)
    return Node(kind, table["name"], parent, port, above, decoders, capability, passthrough,
                value("ram", 0, sizes), value("pmem", 0, sizes))


# ---- The table's windows.

@dataclass
class Window:
    base: int
    size: int
    xor: bool
    gran: int  # bytes
    targets: list  # UIDs
    maps: list = field(default_factory=list)  # the XOR maps, of a window that needs some

    @property
    def ways(self) -> int:
        return len(self.targets)

    @property
    def bits(self) -> int:
        """How many bits of a slot's number choose the target, beside its remainder by three."""
        return (self.ways & -self.ways).bit_length() - 1

    def target_of(self, slot: int) -> int:
        """The place of the slot's bridge among the targets."""
        low, third = 1 << self.bits, self.ways >> self.bits
        return slot % low + low * (slot // low % third)

    def position_of(self, slot: int, ways: int) -> int:
        """The place at which Linux counts the slot's device: the target first, then the device below it. With 3, 6 or
        12 targets that is another than the slot, where there is more than one device to each."""
        return self.target_of(slot) + self.ways * ((slot >> self.bits) % (ways // self.ways))


def read_windows(file: str) -> list:
    table, at = read(file), 36
    if table[:4] != b"CEDT" or len(table) < at or struct.unpack_from("<I", table, 4)[0] != len(table):
        raise BadInput(f"{file}: no whole CEDT")
    windows, maps = [], {}
    try:
        while at < len(table):
            kind, length = struct.unpack_from("<BxH", table, at)
            if kind == 1:
                base, size, ways, xor, gran = struct.unpack_from("<QQBBxxI", table, at + 8)
                targets = struct.unpack_from(f"<{WAYS[ways]}I", table, at + 36)
                windows.append(Window(base, size, xor == 1, 256 << gran if gran < 7 else 0, list(targets)))
            elif kind == 2:
                maps.setdefault(256 << table[at + 6] if table[at + 6] < 7 else 0, list(
                    struct.unpack_from(f"<{table[at + 7]}Q", table, at + 8)))
            at += max(length, 4)
    except (struct.error, KeyError, IndexError):
        raise BadInput(f"{file}: the record at byte {at} is no whole one") from None
    for window in windows:
        window.maps = maps.get(window.gran, [])[:window.bits] if window.xor else []
    return windows


# ---- The reply.

@dataclass
class Row:
    """What a decoder holds for a region."""
    decoder: int
    ways: int
    gran: int  # code, as in the control word
    tail: int  # the target list of a port, entry 0 in the lowest byte; the skip of an endpoint
    others: int = HOST_ONLY  # further bits of the control word


@dataclass
class Region:
    name: str
    kind: str
    window: int
    base: int
    size: int
    gran: int  # bytes
    ways: int
    rows: dict = field(default_factory=dict)  # by node; none in a reply of `check`
    slots: list = field(default_factory=list)  # an endpoint's node and the start of its share, for each slot


# The lines of a reply by the words that stand in each: those in capitals stand for what is read.
RANGE = "window NUMBER base ADDRESS size ADDRESS gran NUMBER ways NUMBER"
PLAN, SHOW = f"plan NAME KIND {RANGE}", f"region NAME KIND {RANGE}"
CHECK = "region ADDRESS size ADDRESS window NUMBER gran NUMBER ways NUMBER KIND"
PORT_ROW = "row NAME NUMBER ways NUMBER gran NUMBER targets PORTS"
END_ROW = "row NAME NUMBER ways NUMBER gran NUMBER skip ADDRESS"
SHOW_ROW, SLOT = "node NAME NUMBER" + " WORD" * 7, "slot NUMBER NAME ADDRESS"


def number_of(word: str) -> Optional[int]:
    return int(word) if word and set(word) <= DIGITS else None


def address_of(word: str) -> Optional[int]:
    return int(word[2:], 16) if word[:2] == "0x" and word[2:] and set(word[2:]) <= HEXADECIMAL else None


def ports_of(word: str) -> Optional[int]:
    """A target list, entry 0 in the lowest byte."""
    numbers = [number_of(part) for part in word.split(",")]
    return None if None in numbers else int.from_bytes(bytes(numbers), "little")


READERS = {"NAME": lambda word: word if is_name(word) else None, "KIND": lambda word: word if word in ("ram", "pmem") else None,
           "NUMBER": number_of, "ADDRESS": address_of, "PORTS": ports_of,
           "WORD": lambda word: address_of("0x" + word) if len(word) == 8 else None}


def read_line(form: str, line: str) -> list:
    """What a line says in the places of a form; nothing where it is another line."""
    wanted, words, values = form.split(" "), line.split(" "), []
    if len(wanted) != len(words):
        return []
    for want, word in zip(wanted, words):
        value = READERS[want](word) if want in READERS else word
        if value is None or want not in READERS and word != want:
            return []
        values += [value] if want in READERS else []
    return values


class Reply:
    """Reads the regions of a reply over a host. Of a script's reply the last `show` of each region counts, and lines
    of other commands are passed over."""

    def __init__(self, file: str, nodes: list, windows: list):
        self.file, self.nodes, self.windows = file, nodes, windows
        self.numbers = {node.name: number for number, node in enumerate(nodes)}
        self.regions: dict = {}
        self.created: set = set()
        self.last: Optional[Region] = None  # the one to which rows and slots belong
        self.refusal = ""
        for number, line in enumerate(read(file).decode("ascii", "replace").splitlines(), 1):
            try:
                self.add(line)
            except (KeyError, ValueError, IndexError) as fault:
                raise BadInput(f"{file}: line {number}: {fault} does not fit the host") from None
        if self.created or not self.regions:
            raise BadInput(f"{file}: " + (f"{min(self.created)} was created, but no `show` of it follows"
                                          if self.created else f"no region in it{self.refusal}"))
        for region in self.regions.values():
            self.complete(region)

    def add(self, line: str) -> None:
        word = line.split(" ")[0]
        if said := read_line(PLAN, line) or read_line(SHOW, line):
            self.begin(Region(*said))
        elif said := read_line(CHECK, line):
            base, size, window, gran, ways, kind = said
            self.begin(Region(f"region{len(self.regions)}", kind, window, base, size, gran, ways))
        elif self.last and (said := read_line(PORT_ROW, line) or read_line(END_ROW, line)):
            name, decoder, ways, gran, tail = said
            self.put(name, Row(decoder, ways, GRANS.index(gran), tail))
        elif self.last and (said := read_line(SHOW_ROW, line)):
            name, decoder, *words = said
            if words[0] + (words[1] << 32) != self.last.base or words[2] + (words[3] << 32) != self.last.size:
                raise ValueError("another base or size")
            self.put(name, Row(decoder, WAYS[words[4] >> 4 & 15], words[4] & 15, words[5] + (words[6] << 32),
                               words[4] & (1 << 8 | HOST_ONLY)))
        elif self.last and (said := read_line(SLOT, line)):
            number, name, start = said
            if number != len(self.last.slots):
                raise ValueError(f"slot {number}")
            self.last.slots.append((self.endpoint(name), start))
        else:
            self.last = None
            if word == "created":
                self.created.add(line.split(" ")[1])
            elif word == "destroyed":
                self.regions.pop(line.split(" ")[1], None)
                self.created.discard(line.split(" ")[1])
            elif word in ("breach", "refused", "error:"):
                self.refusal = f"; it says {line[:80]!r}"

    def begin(self, region: Region) -> None:
        window = self.windows[region.window]
        if region.ways not in WAYS_CODES or region.ways % window.ways:
            raise ValueError(f"window {region.window}")
        if region.gran not in GRANS or region.size % (GRAIN * region.ways) or not (
                0 < region.size and window.base <= region.base <= window.base + window.size - region.size):
            raise ValueError(f"base {region.base:#x} size {region.size:#x} gran {region.gran}")
        self.created.discard(region.name)
        self.regions[region.name] = self.last = region

    def put(self, name: str, row: Row) -> None:
        node = self.nodes[self.numbers[name]]
        if row.decoder >= node.decoders or node.passthrough:
            raise ValueError(f"decoder {row.decoder} of {name}")
        if row.ways not in WAYS_CODES or 256 << max(row.gran, 0) not in GRANS or row.tail >> 64:
            raise ValueError(f"ways {row.ways} or its granularity")
        self.last.rows[self.numbers[name]] = row

    def endpoint(self, name: str) -> int:
        if self.nodes[self.numbers[name]].kind != "endpoint":
            raise ValueError(name)
        return self.numbers[name]

    def complete(self, region: Region) -> None:
        """The slots of a plan, whose machine has no other region; else they are those to which the rows lead."""
        if region.rows:
            ends = [self.end_of(region, slot) for slot in range(region.ways)]
            region.slots = region.slots or [(end, region.rows[end].tail) for end in ends]
            if ends != [end for end, _ in region.slots]:
                raise BadInput(f"{self.file}: the rows of {region.name} do not lead to its slots on this host")
        if len({end for end, _ in region.slots}) != region.ways:
            raise BadInput(f"{self.file}: {region.name} has not {region.ways} slots of different endpoints")
        for end, start in region.slots:
            if start + region.size // region.ways > self.nodes[end].ram + self.nodes[end].pmem:
                raise BadInput(f"{self.file}: the share of {self.nodes[end].name} ends past its memory")

    def end_of(self, region: Region, slot: int) -> int:
        """The endpoint to which the rows lead a slot: the window's target, then a port's entry by the next bits."""
        window = self.windows[region.window]
        place = {(node.parent, node.port): number for number, node in enumerate(self.nodes)}
        try:
            number, bits = place[None, window.targets[window.target_of(slot)]], window.bits
            while self.nodes[number].kind != "endpoint":
                if self.nodes[number].passthrough:
                    number = next(place[at] for at in place if at[0] == number)
                    continue
                row = region.rows[number]
                entry = (slot >> bits) % row.ways
                bits += row.ways.bit_length() - 1
                number = place[number, row.tail >> 8 * entry & 255]
            return number if number in region.rows else place[()]
        except (KeyError, StopIteration):
            raise BadInput(f"{self.file}: the rows of {region.name} do not lead to slot {slot} on this host") from None


# ---- For Linux.

def decoder_of(window: int, windows: list, nodes: list) -> int:
    """The number of the root decoder that Linux makes for a window: it passes over windows that it cannot use."""
    uids = {node.port for node in nodes if node.kind == "bridge"}
    taken = [w.base % GRAIN == 0 == w.size % GRAIN and uids.issuperset(w.targets) for w in windows]
    return sum(taken[:window])


def command_of(region: Region, windows: list, nodes: list) -> str:
    window, number = windows[region.window], decoder_of(region.window, windows, nodes)
    names = [nodes[end].name for end, _ in region.slots]
    order = sorted(range(region.ways), key=lambda slot: window.position_of(slot, region.ways))
    text = (f"# {region.name}: window {region.window} begins at {window.base:#x}, and so has decoder0.{number}/start. "
            f"Linux chooses the base itself; here it is {region.base:#x}.\n")
    if order != list(range(region.ways)):
        text += f"# Linux counts the window's targets first. By slot the devices are: {' '.join(names)}\n"
    if any(name[:3] != "mem" or number_of(name[3:]) is None for name in names):
        text += "# Put the kernel's name, memN, in the place of each device.\n"
    return text + (f"cxl create-region -m -t {region.kind} -d decoder0.{number} -w {region.ways} -g {region.gran} "
                   f"-s {region.size:#x} {' '.join(names[slot] for slot in order)}\n")


# ---- For firmware.

def words_of(region: Region, row: Row) -> tuple:
    """The eight words of a committed decoder."""
    control = row.gran | WAYS_CODES[row.ways] << 4 | row.others | COMMIT | COMMITTED
    base_and_size = struct.unpack("<IIII", struct.pack("<QQ", region.base, region.size))
    return (*base_and_size, control, *struct.unpack("<II", struct.pack("<Q", row.tail)), 0)


def writes_of(region: Region, nodes: list) -> str:
    """Children before their parents, so from the last node of the topology to the first; commit comes last."""
    text = (f"# {region.name}: {8 * len(region.rows)} writes of 32 bits. Offsets are those in a node's HDM decoder "
            f"capability structure.\n# Before them bit 1 of the word at 0x4 is set in each endpoint.\n")
    for number in sorted(region.rows, reverse=True):
        node, row = nodes[number], region.rows[number]
        at = f"below port {node.port} of {nodes[node.parent].name}" if node.parent is not None else f"UID {node.port}"
        text += f"\n{node.kind} {node.name}, {at}, decoder {row.decoder}\n"
        base_low, base_high, size_low, size_high, control, tail_low, tail_high, _ = words_of(region, row)
        control &= ~ANSWERS
        if node.kind == "endpoint":
            tail, said = "DPA skip", f"{row.tail:#x} bytes are skipped"
        else:
            tail, said = "target list", "entries " + ", ".join(
                str(row.tail >> 8 * entry & 255) for entry in range(row.ways))
        meaning = f"{row.ways} ways of {256 << row.gran} bytes" if row.ways > 1 else "one way"
        for place, value, what in (
                (0x00, base_low, "base low"), (0x04, base_high, f"base high: from {region.base:#x}"),
                (0x08, size_low, "size low"), (0x0c, size_high, f"size high: {region.size:#x} bytes"),
                (0x14, tail_low, f"{tail} low"), (0x18, tail_high, f"{tail} high: {said}"),
                (0x10, control, f"control: {meaning}" + (", host-only memory" if row.others & HOST_ONLY else "")
                 + (", lock on commit" if row.others & 1 << 8 else "")),
                (0x10, control | COMMIT, f"control with commit; reads {control | COMMIT | COMMITTED:#010x} when done")):
            text += f"  {0x10 + 0x20 * row.decoder + place:#06x}  {value:#010x}  {what}\n"
    return text


def image_of(regions: list, nodes: list) -> bytes:
    """The machine after reset, with each endpoint enabled and these regions committed."""
    held = {(number, region.rows[number].decoder): words_of(region, region.rows[number])
            for region in regions for number in region.rows}
    if len(held) != sum(len(region.rows) for region in regions):
        raise BadInput("two regions of the reply have the same decoder")
    for number, decoder in held:
        if decoder and (number, decoder - 1) not in held:
            raise BadInput(f"decoder {decoder - 1} of {nodes[number].name} has no region in the reply, but the next "
                           "one has: show all regions")
    image = b"CXLHDM01" + struct.pack("<I", len(nodes))
    for number, node in enumerate(nodes):
        image += struct.pack("<IIII", node.capability, ENABLE if node.kind == "endpoint" else 0, 0, 0)
        image += b"".join(DECODER.pack(*held.get((number, i), [0] * 8)) for i in range(node.decoders))
    return image


# ---- What is asked of the peer.

def read_host(words: list) -> tuple:
    """Nodes, windows and regions of the files CEDT, TOPO and REPLY."""
    windows, nodes = read_windows(words[0]), read_topology(words[1])
    return nodes, windows, list(Reply(words[2], nodes, windows).regions.values())


def commands(*files: str) -> str:
    """What cxl-regions has to print of these files."""
    nodes, windows, regions = read_host(list(files))
    return "\n".join(command_of(region, windows, nodes) for region in regions)


def words(*files: str) -> str:
    """What `cxl-regions --words` has to print."""
    nodes, _, regions = read_host(list(files))
    return "\n".join(writes_of(region, nodes) for region in regions)


def image(*files: str) -> bytes:
    """What `cxl-regions --image` has to make."""
    nodes, _, regions = read_host(list(files))
    return image_of(regions, nodes)


def first_turn(region: Region, windows: list) -> list:
    """The slots to which the first chunks of a region go."""
    return [slot_of(windows[region.window], region.ways, chunk, region.base + chunk * region.gran) for chunk in range(region.ways)]


def slot_of(window: Window, ways: int, chunk: int, address: int) -> int:
    """The slot of a region's chunk: its number's remainder, under XOR with the parities of the address as low bits."""
    low, slot = 1 << window.bits, chunk % ways
    if not window.xor or window.bits == 0:
        return slot
    parities = sum((bin(address & one).count("1") & 1) << bit for bit, one in enumerate(window.maps))
    return slot - slot % low + parities
