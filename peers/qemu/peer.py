"""One machine in QEMU, once its firmware has run: its nodes with their registers, the memory of its
devices, and the files that the program reads of it."""

import os
import re
import struct
import subprocess
import tempfile
import time
from typing import Optional

import host
import machines
from qtest import Qemu, QemuFault

LINE = 64  # bytes of a cache line
FIRMWARE_TIME = 300  # seconds, in which firmware places the tables
PROGRAM = os.environ.get("QEMU", "qemu-system-x86_64")
TARGETS, LOW, HIGH, WAYS3, WAYS16 = 4, 8, 9, 11, 12  # bits of the capability word


def said(words: list) -> bytes:
    """What QEMU prints; nothing where it does not know these words."""
    return subprocess.run([PROGRAM, *words], stdout=subprocess.PIPE, stderr=subprocess.DEVNULL, check=False).stdout


def version() -> str:
    return said(["--version"]).decode().partition("\n")[0].replace(" emulator version", "")


class Peer:
    """Use it in a `with`. It has a folder of its own below the one that is named, for as long as it
    is open."""

    def __init__(self, machine: machines.Machine, below: Optional[str]):
        options = said(["-device", "cxl-type3,help"])
        has_ram = b"volatile-memdev" in options
        if not options:
            raise Lacks("has no CXL devices")
        if machine.ram and not has_ram:
            raise Lacks("has no volatile memory")
        self.machine, self.place = machine, tempfile.TemporaryDirectory(prefix="cxl-peer-", dir=below)
        self.folder = self.place.name
        try:
            self.start(has_ram)
        except BaseException:
            self.place.cleanup()
            raise

    def start(self, has_ram: bool) -> None:
        log = os.path.join(self.folder, "qemu.log")
        self.qemu = Qemu(PROGRAM, self.words(has_ram), log)
        try:
            self.host = host.Host(self.qemu, self.firmware_tables())
            self.give_names()
            self.look_for_needs()
        except BaseException:
            self.qemu.__exit__()
            raise
        self.nodes = self.host.nodes
        self.blocks = {node.name: node.block for node in self.nodes if node.block}
        self.places = {node.name: node.place for node in self.nodes}
        self.memory = Memory(self.machine, self.folder)
        self.table = self.save("table.cedt", self.host.cedt)
        self.topology = self.save("topo.toml", self.topo().encode())

    def __enter__(self):
        return self

    def __exit__(self, *_):
        self.qemu.__exit__()
        self.place.cleanup()

    def words(self, has_ram: bool) -> list:
        """Those that make QEMU the machine."""
        return machines.words_for(self.machine, self.folder, has_ram)

    def save(self, name: str, data: bytes) -> str:
        path = os.path.join(self.folder, name)
        with open(path, "wb") as opened:
            opened.write(data)
        return path

    def firmware_tables(self) -> dict:
        """Waits until firmware has placed the tables, for which the buses have to be set up, and
        stops the processor."""
        end = time.monotonic() + FIRMWARE_TIME
        while not {"CEDT", "MCFG"} <= (tables := host.tables_of(self.qemu)).keys():
            if time.monotonic() > end:
                raise QemuFault(f"firmware placed {' '.join(tables) or 'no table'} in {FIRMWARE_TIME} seconds")
            time.sleep(0.05)
        self.qemu.command("stop")
        return tables

    def give_names(self) -> None:
        """What was found is the machine: each node at its place, and no other."""
        names = self.machine.names()
        for node in self.host.nodes:
            node.name = names.pop(node.place, "")
            if not node.name or node.serial and node.serial != self.machine.serial(node.name):
                raise QemuFault(f"an unknown {node.kind} at {node.place}, serial {node.serial}")
        if names:
            raise QemuFault(f"not found: {' '.join(names.values())}")

    def look_for_needs(self) -> None:
        words = {kind: [node.capability for node in self.host.nodes if node.kind == kind] for kind in host.KINDS}
        for need, bit in (("ways3", WAYS3), ("ways16", WAYS16)):
            if need in self.machine.needs and not all(word >> bit & 1 for word in words["endpoint"]):
                raise Lacks(f"has devices without {need}")
        if "passthrough" in self.machine.needs and any(node.block for node in self.host.nodes if node.kind == "bridge"):
            raise Lacks("has decoders in each bridge")

    def topo(self) -> str:
        """The topology file, with the capabilities that the registers tell."""
        text = ""
        for node in self.nodes:
            text += f'[[{node.kind}]]\nname = "{node.name}"\n'
            text += f'parent = "{node.parent.name}"\nport = {node.port}\n' if node.parent else f"uid = {node.port}\n"
            if node.block is None:
                text += "passthrough = true\n\n"
                continue
            flags = [("low", LOW), ("high", HIGH)]
            text += f"decoders = {node.decoders}\n"
            if node.kind == "endpoint":
                flags += [("ways3", WAYS3), ("ways16", WAYS16)]
                text += f"ram = {self.machine.ram:#x}\npmem = {self.machine.pmem:#x}\n"
            else:
                text += f"targets = {node.capability >> TARGETS & 15}\n"
            text += "".join(f"{key} = {str(bool(node.capability >> bit & 1)).lower()}\n" for key, bit in flags) + "\n"
        return text

    @property
    def decoders(self) -> int:
        """How many decoders each node has that has some."""
        return min(node.decoders for node in self.nodes if node.block)

    @property
    def releases(self) -> bool:
        """Whether a committed decoder can be released: never where QEMU has one decoder in a block
        alone."""
        return self.decoders > 1

    # ---- Registers, by the node's name and the offset in its block.

    def read(self, name: str, off: int) -> int:
        return self.qemu.read32(self.blocks[name] + off)[0]

    def write(self, words: dict) -> None:
        """Words by node and offset, in this order."""
        self.qemu.write32({self.blocks[name] + off: value for (name, off), value in words.items()})

    def capability(self, node: host.Node) -> int:
        """A capability word as a topology has it: of an endpoint the count of targets means
        nothing."""
        return node.capability & ~(15 << TARGETS) if node.kind == "endpoint" else node.capability

    def registers(self) -> dict:
        """All words of all blocks behind their capability words, by node and offset."""
        at = [(node.name, off) for node in self.nodes if node.block for off in range(4, node.length, 4)]
        return dict(zip(at, self.qemu.read32(*[self.blocks[name] + off for name, off in at])))

    # ---- Memory, by host addresses.

    def load(self, address: int, length: int) -> bytes:
        return b"".join(self.qemu.read(at, part) for at, part in lines_of(address, length))

    def store(self, address: int, data: bytes) -> None:
        for at, part in lines_of(address, len(data)):
            self.qemu.write(at, data[at - address:at - address + part])


def lines_of(address: int, length: int):
    """A range cut at cache lines, as a processor cuts it: QEMU takes an access as it comes."""
    end = address + length
    while address < end:
        part = min(end - address, LINE - address % LINE)
        yield address, part
        address += part


class Lacks(Exception):
    """What this QEMU has not, so that it cannot be the machine."""


class Memory:
    """The memory of all devices: files, which QEMU maps. Volatile memory comes first by device
    address."""

    def __init__(self, machine: machines.Machine, folder: str):
        self.parts = {device: [(0, f"{os.path.join(folder, device)}.ram")] * bool(machine.ram)
                      + [(machine.ram, f"{os.path.join(folder, device)}.pmem")] for device in machine.devices()}

    def bytes_at(self, device: str, start: int, length: int) -> bytes:
        first, file = [part for part in self.parts[device] if part[0] <= start][-1]
        with open(file, "rb") as opened:
            opened.seek(start - first)
            return opened.read(length)

    def clear(self) -> None:
        """All bytes are zero again: the files are cut, and given back their size."""
        for parts in self.parts.values():
            for _, file in parts:
                size = os.path.getsize(file)
                os.truncate(file, 0)
                os.truncate(file, size)

    def filled(self) -> dict:
        """All bytes of all devices that are not zero, by device and device address."""
        return {(device, first + at): value for device, parts in self.parts.items() for first, file in parts
                for at, value in filled_bytes(file)}


def filled_bytes(file: str):
    with open(file, "rb") as opened:
        end, at = os.fstat(opened.fileno()).st_size, 0
        while at < end:
            try:
                at = os.lseek(opened.fileno(), at, os.SEEK_DATA)
            except OSError:  # no data behind it
                return
            hole = os.lseek(opened.fileno(), at, os.SEEK_HOLE)
            opened.seek(at)
            for run in re.finditer(rb"[^\0]+", opened.read(hole - at)):
                yield from enumerate(run.group(), at + run.start())
            at = hole


def image_of(peer: Peer, words: dict, order: Optional[list] = None) -> bytes:
    """An image file with these words, of the nodes in this order; a passthrough node has a placeholder."""
    nodes = peer.nodes if order is None else order
    image = b"CXLHDM01" + struct.pack("<I", len(nodes))
    for node in nodes:
        image += struct.pack("<I", peer.capability(node))
        image += b"".join(struct.pack("<I", words.get((node.name, off), 0)) for off in range(4, node.length, 4))
    return image
