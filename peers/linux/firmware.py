"""Registers as firmware may leave them: written while the processor stands still behind the firmware, before Linux comes."""

from typing import Optional

import program
from checks import ENABLE, GLOBAL
from guest import Guest
from peer import image_of

import cxlplan

FIRST, CONTROL = 0x10, 0x20  # the offset of the first decoder in a block, and of its control word
COMMITTED_LOCKED = 0x1700  # a control word: an expander's, committed and locked
GRANULARITY = 0xf  # its bits


def set_registers(guest: Guest) -> Optional[cxlplan.Host]:
    """The registers that the machine is to begin with. A host with what was planned is given back, by the names of the machine."""
    return {"planned": set_planned, "gran": set_other_granularity, "empty": set_empty_locked}[guest.machine.firmware](guest)


def set_planned(guest: Guest) -> cxlplan.Host:
    """All regions, word by word as the program plans them."""
    files = guest.table, guest.topology
    guest.write({(node.name, GLOBAL): ENABLE for node in guest.nodes if node.kind == "endpoint"})
    with program.Session(*files) as session:
        names = [session.wants(line, "created")[1] for line in guest.machine.regions]
        shown = "".join(session.show(name) for name in names)
    for words in program.words_of(*files, shown).values():
        for word in words:
            guest.write({(word.node, word.off): word.value})
    with open(guest.topology, "rb") as topology:
        return cxlplan.Host(guest.host.cedt, topology.read(), image_of(guest, guest.registers()), "planned")


def set_other_granularity(guest: Guest) -> cxlplan.Host:
    """The same, and then of the last device's decoder twice the granularity. QEMU takes a write to a committed decoder."""
    planned = set_planned(guest)
    last = list(guest.machine.devices())[-1]
    control = guest.read(last, CONTROL)
    guest.write({(last, CONTROL): control & ~GRANULARITY | (control & GRANULARITY) + 1})
    return planned


def set_empty_locked(guest: Guest) -> None:
    """A bridge's first decoder without bytes, committed and locked, so that nobody sets it."""
    bridge = next(node.name for node in guest.nodes if node.kind == "bridge" and node.block)
    guest.write({(bridge, CONTROL): COMMITTED_LOCKED})
