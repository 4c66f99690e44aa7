"""The sessions among the worked cases, carried out by `cxlbench` over QEMU's registers, and what they come to.

Each node of a case has the decoder block of a node of the machine: a bridge or switch that of a bridge, an endpoint that of a device.
Its capability word is the case's. A case with more nodes or decoders than the machine has is left out, and so is an image whose words
QEMU does not keep as they are written."""

import importlib.machinery
import importlib.util
import os
import sys
import tempfile
from types import SimpleNamespace
from typing import List, Optional, Tuple

import pipe
import program
from peer import Peer

MACHINE = "sixteen-ways"  # with the most nodes of each kind
GLOBAL, HEAD, SIZE, CONTROL = 4, 0x10, 0x20, 0x10  # offsets and bytes of a block, and the control word in a decoder


def loaded():
    """`worked/run` as a module."""
    path = os.path.join(program.TOP, "worked", "run")
    loader = importlib.machinery.SourceFileLoader("worked_run", path)
    module = importlib.util.module_from_spec(importlib.util.spec_from_loader(loader.name, loader))
    loader.exec_module(module)
    return module


class Bus:
    """Answers lines from the blocks that stand for the nodes of a case."""

    def __init__(self, peer: Peer, nodes: list, blocks: list, fails: frozenset):
        self.peer, self.nodes, self.blocks, self.fails, self.count = peer, nodes, blocks, fails, 0

    def answer(self, line: str) -> str:
        self.count += 1
        if self.count in self.fails:
            return "failed"
        verb, number, *numbers = line.split()
        node, (off, *value) = int(number), [pipe.number_of(word) for word in numbers]
        if verb == "r":
            return f"{self.word(node, off):#010x}"
        if self.blocks[node]:
            self.peer.write({(self.blocks[node], off): value[0]})
        return "ok"

    def word(self, node: int, off: int) -> int:
        if off == 0:
            return self.nodes[node].capability
        return self.peer.read(self.blocks[node], off) if self.blocks[node] else 0

    def decoders(self) -> list:
        """The words of each node's decoders."""
        return [SimpleNamespace(decoders=[[self.word(node, HEAD + SIZE * number + 4 * place) for place in range(8)]
                                          for number in range(it.decoders)]) for node, it in enumerate(self.nodes)]

    def put(self, image: Optional[list]) -> bool:
        """The registers are those of the image, or those after reset; whether QEMU keeps them."""
        for node, name in enumerate(self.blocks):
            if not name:
                continue
            offs = range(HEAD, HEAD + SIZE * self.nodes[node].decoders, 4)
            self.peer.write({(name, off): 0 for off in sorted(offs, key=lambda off: off % SIZE != 0)})
            self.peer.write({(name, GLOBAL): 0})
            if image:
                self.peer.write({(name, GLOBAL): image[node].read(GLOBAL)})
                self.peer.write({(name, off): image[node].read(off) for off in sorted(offs, key=lambda off: off % SIZE == 0)})
        return image is None or all(self.word(node, off) == image[node].read(off)
                                    for node, it in enumerate(self.nodes) if self.blocks[node]
                                    for off in range(4, HEAD + SIZE * it.decoders, 4))


def blocks_for(peer: Peer, nodes: list) -> Optional[list]:
    """The block of each node, None of one that is passthrough; nothing where the machine has too few."""
    free = {kind: [it.name for it in peer.nodes if it.kind == kind and it.block] for kind in ("bridge", "endpoint")}
    found: List[Optional[str]] = []
    for node in nodes:
        of_kind = free["endpoint" if node.is_endpoint else "bridge"]
        is_placeholder = node.capability == 0x10
        if not is_placeholder and (not of_kind or node.decoders > peer.decoders):
            return None
        found.append(None if is_placeholder else of_kind.pop(0))
    return found


def try_case(peer: Peer, worked, case) -> Optional[list]:
    """What differs in a case, or None where it is left out."""
    names = case.bench_words()
    if names is None or case.status not in (0, 7):
        return None
    try:
        nodes = worked.texts.nodes_of(case.files[names[1]].decode("utf-8", "replace"))
        image = worked.registers.blocks_of(case.files[names[2]]) if len(names) == 3 else None
    except (worked.texts.Fault, ValueError):
        return None
    blocks = blocks_for(peer, nodes)
    words = sum(4 + 8 * node.decoders for node in nodes)
    if not blocks or image and [it.capability for it in image] != [it.capability for it in nodes]:
        return None
    bus = Bus(peer, nodes, blocks, frozenset(words + number for number in case.fails))
    if not bus.put(image):
        return None
    with tempfile.TemporaryDirectory(dir=peer.folder) as folder:
        worked.lay_out(folder, case)
        files = [os.path.join(folder, name) for name in names]
        status, said = pipe.run_words(folder, files, bus, case.script)
    return worked.differences(case, worked.Answer(status, said, None, bus.decoders()), False)


def try_cases(peer: Peer) -> Tuple[int, int, List[str]]:
    """How many cases were tried, how many were left out, and what differs."""
    sys.path.append(os.path.join(program.TOP, "worked"))
    worked = loaded()
    found, _ = worked.read_all([])
    tried, faults = 0, []
    for case in found:
        differing = try_case(peer, worked, case)
        tried += differing is not None
        faults += [f"{place}: {case.title}: {wanted} wanted, {got} came" for place, wanted, got in (differing or [])[:1]]
    return tried, len(found) - tried, faults
