"""A host as its software finds it: ACPI tables from the RSDP on, PCI buses by their configuration
space, and the component registers of CXL by the CHBS records of the CEDT and the register locators
of devices.

Firmware (SeaBIOS) numbered the buses and placed the BARs; nothing here does. Numbers of structures
are those of ACPI 6.5, PCIe 5.0 and CXL 2.0."""

import struct
from dataclasses import dataclass
from functools import cached_property
from typing import Iterator, Optional, Sequence

from qtest import Qemu, QemuFault

SPACE = 4096  # bytes of a function's configuration space
RSDP_AREA = (0xe0000, 0x20000)  # where a BIOS leaves the root of ACPI
ENDPOINT, ROOT_PORT, UPSTREAM, DOWNSTREAM = 0, 4, 5, 6  # kinds of function, of the PCI Express capability
PCI_EXPRESS, SERIAL, DVSEC = 0x10, 0x3, 0x23  # capabilities
CXL_VENDOR, REGISTER_LOCATOR, COMPONENT_REGISTERS = 0x1e98, 8, 1
CACHE_MEM, CXL_CAPABILITY, HDM_DECODERS = 0x1000, 1, 5
HEAD, DECODER = 0x10, 0x20  # bytes of a block before its decoders, and of each decoder
KINDS = ["bridge", "switch", "endpoint"]
DECODER_COUNTS = {0: 1, 1: 2, 2: 4, 3: 6, 4: 8, 5: 10}


# ---- ACPI.

def tables_of(qemu: Qemu) -> dict:
    """The ACPI tables by signature, or none while firmware has not placed them all."""
    start, length = RSDP_AREA
    at = qemu.read(start, length).find(b"RSD PTR ")
    if at < 0:
        return {}
    rsdt, = struct.unpack("<I", qemu.read(start + at + 16, 4))
    pointers = table_at(qemu, rsdt)[36:]
    tables = [table_at(qemu, pointer) for pointer, in struct.iter_unpack("<I", pointers)]
    return {table[:4].decode(): table for table in tables if table}


def table_at(qemu: Qemu, address: int) -> bytes:
    """A table, or nothing where no bytes that sum to zero stand there yet."""
    length, = struct.unpack("<I", qemu.read(address + 4, 4))
    table = qemu.read(address, length) if 36 <= length <= 1 << 20 else b""
    return table if sum(table) % 256 == 0 else b""


def bridges_of(cedt: bytes) -> dict:
    """The component registers of each host bridge, by its UID: the CHBS records."""
    found, at = {}, 36
    while at < len(cedt):
        kind, length = struct.unpack_from("<BxH", cedt, at)
        if kind == 0:
            uid, _, _, base = struct.unpack_from("<IIIQ", cedt, at + 4)
            found[uid] = base
        at += length
    return found


# ---- PCI.

class Function:
    """A function of a PCI device, by its configuration space."""

    def __init__(self, qemu: Qemu, ecam: int, bus: int, device: int):
        self.qemu, self.base = qemu, ecam + (bus << 20) + (device << 15)
        self.ecam, self.bus, self.device = ecam, bus, device

    @cached_property
    def space(self) -> bytes:
        """All of it at once: on a busy machine an answer of QEMU may be long in coming."""
        return self.qemu.read(self.base, SPACE)

    def read(self, at: int) -> int:
        return struct.unpack_from("<I", self.space, at)[0]

    def express(self) -> int:
        """The place of its PCI Express capability."""
        at = self.read(0x34) & 0xfc
        while at:
            word = self.read(at)
            if word & 0xff == PCI_EXPRESS:
                return at
            at = word >> 8 & 0xfc
        raise QemuFault(f"{self}: no PCI Express capability")

    @property
    def kind(self) -> int:
        return self.read(self.express()) >> 20 & 15

    @property
    def port(self) -> int:
        """A port's number, of its link capabilities."""
        return self.read(self.express() + 0xc) >> 24

    @property
    def below(self) -> int:
        """The bus below a port."""
        return self.read(0x18) >> 8 & 0xff

    def extended(self, wanted: int) -> Iterator[int]:
        """The places of its extended capabilities of one kind."""
        at = 0x100
        while at:
            word = self.read(at)
            if word & 0xffff == wanted:
                yield at
            at = word >> 20

    def serial(self) -> int:
        at = next(self.extended(SERIAL))
        return self.read(at + 4) | self.read(at + 8) << 32

    def component_registers(self) -> int:
        """Where its register locator puts them: a BAR, and an offset in it."""
        for at in self.extended(DVSEC):
            word = self.read(at + 4)
            if word & 0xffff != CXL_VENDOR or self.read(at + 8) & 0xffff != REGISTER_LOCATOR:
                continue
            for entry in range(at + 0xc, at + (word >> 20), 8):
                low, high = self.read(entry), self.read(entry + 4)
                if low >> 8 & 0xff == COMPONENT_REGISTERS:
                    return self.bar(low & 7) + (low & 0xffff0000 | high << 32)
        raise QemuFault(f"{self}: no register locator names component registers")

    def bar(self, number: int) -> int:
        low = self.read(0x10 + 4 * number)
        high = self.read(0x14 + 4 * number) if low & 6 == 4 else 0
        if not self.read(4) & 2 or not low & ~15 | high:
            raise QemuFault(f"{self}: firmware set up no BAR {number}")
        return low & ~15 | high << 32

    def __str__(self):
        return f"{self.bus:02x}:{self.device:02x}.0"


# ---- Component registers.

def block_in(qemu: Qemu, registers: int) -> Optional[int]:
    """The address of the HDM decoder capability structure among component registers, if there is
    one."""
    first = registers + CACHE_MEM
    header, = qemu.read32(first)
    if header & 0xffff != CXL_CAPABILITY:
        raise QemuFault(f"no CXL capability header at {first:#x}: {header:#x}")
    for number in range(1, (header >> 24) + 1):
        word, = qemu.read32(first + 4 * number)
        if word & 0xffff == HDM_DECODERS:
            return first + (word >> 20)
    return None


@dataclass
class Node:
    """A host bridge, a switch or an endpoint, as it was found."""
    kind: str
    parent: Optional["Node"]
    port: int  # of the parent; of a bridge its UID
    block: Optional[int]  # the address of its decoder registers; a passthrough node has none
    capability: int = 0x10
    serial: int = 0
    name: str = ""

    @property
    def decoders(self) -> int:
        return DECODER_COUNTS[self.capability & 15]

    @property
    def place(self) -> tuple:
        """The UID of its bridge, and the ports down to it."""
        return (*(self.parent.place if self.parent else ()), self.port)

    @property
    def length(self) -> int:
        """The bytes of its block."""
        return HEAD + DECODER * self.decoders


class Host:
    """All nodes of a host whose firmware has run, in a topology's order, and their registers."""

    def __init__(self, qemu: Qemu, tables: dict):
        self.qemu, self.cedt = qemu, tables["CEDT"]
        self.ecam, = struct.unpack_from("<Q", tables["MCFG"], 44)
        self.nodes: list = []
        for uid, registers in sorted(bridges_of(self.cedt).items()):
            bridge = self.found("bridge", None, uid, registers)
            self.look_below(bridge, uid)
        self.nodes.sort(key=lambda node: KINDS.index(node.kind))

    def found(self, kind: str, parent: Optional[Node], port: int, registers: int) -> Node:
        node = Node(kind, parent, port, block_in(self.qemu, registers))
        if node.block is not None:
            node.capability, = self.qemu.read32(node.block)
        self.nodes.append(node)
        return node

    def functions(self, bus: int, devices: Sequence[int]) -> Iterator[Function]:
        """The first function of each of these devices of a bus that is there."""
        found = [Function(self.qemu, self.ecam, bus, device) for device in devices]
        for function, word in zip(found, self.qemu.read32(*[it.base for it in found])):
            if word & 0xffff != 0xffff:
                yield function

    def look_below(self, parent: Node, bus: int) -> None:
        """What hangs at the ports of a bus: of a root bus the UID of its bridge is the number."""
        for port in self.functions(bus, range(32)):
            if port.kind not in (ROOT_PORT, DOWNSTREAM) or not port.below:
                continue
            child = next(self.functions(port.below, [0]), None)
            if child is None:
                continue
            kind = {ENDPOINT: "endpoint", UPSTREAM: "switch"}[child.kind]
            node = self.found(kind, parent, port.port, child.component_registers())
            if kind == "switch":
                self.look_below(node, child.below)
            else:
                node.serial = child.serial()
