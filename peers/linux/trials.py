"""What is tried on a machine, and what is compared: the plan that is pasted against the regions and the registers that Linux
makes of it, stores against the bytes of the devices, and each capture against the registers. What is right is the program's
answer."""

import json
import os
import random
from dataclasses import dataclass, field
from typing import Optional

from captures import Captured, Captures, READ, SHORT, desk, save, verdict_of
from guest import Guest
from hosts import Host
from peer import image_of

import cxlplan
from cxlplan.host import FILES

ACCESS = 8  # bytes of a store
ONE_WAY_GRANULARITY = "granularity of one way"  # which decides nothing
CONTROL = 4  # the place of the control word among a decoder's
DOUBTFUL = (2, 3)  # statuses of cxl-capture that say that not all is known
# Frees device memory that decoders of no region hold, the last decoder first.
FREE = ('for it in $(ls -dr /sys/bus/cxl/devices/decoder*); do [ -e $it/dpa_size ] && [ -z "$(cat $it/region)" ] '
        '&& echo 0 > $it/dpa_size; done; true')


@dataclass
class Tally:
    """What was compared, and what came of it."""
    regions: int = 0  # that Linux made, or took over from firmware, as they were planned
    words: int = 0  # of registers
    stores: int = 0
    lost: int = 0  # of them
    captures: int = 0  # that tell what the registers hold
    doubtful: int = 0  # that do not, and say so
    refused: int = 0  # that were not made, and say why
    diffs: int = 0
    said: list = field(default_factory=list)  # what Linux accepts and loses, refuses, or counts otherwise
    faults: list = field(default_factory=list)

    def fault(self, text: str) -> None:
        self.faults.append(text)

    def say(self, text: str) -> None:
        if text not in self.said:
            self.said.append(text)


class Trial:
    """A machine on which Linux runs with its drivers."""

    def __init__(self, guest: Guest, tally: Tally, folder: str, stores: int):
        self.guest, self.tally, self.count = guest, tally, stores
        self.random = random.Random(guest.machine.name)
        self.captures = Captures(guest, folder)
        self.filled: dict = {}  # the bytes of all devices that are not zero
        self.folder, self.shots = folder, 0
        guest.look_again()
        self.first = self.captures.take()
        # It gives the names that Linux has for the nodes; where it was not made, the machine's own do.
        self.base = self.first[READ].host or cxlplan.Host.from_files(guest.table, guest.topology)
        places = {guest.places[name]: name for name in guest.places}
        self.own = {node.name: places[place_of(node, self.base)] for node in self.base.nodes}
        self.kernels = {own: name for name, own in self.own.items()}

    # ---- Registers.

    def seen(self) -> cxlplan.Host:
        """The host with the registers that QEMU holds, in a folder as a capture."""
        order = {node.name: node for node in self.guest.nodes}
        nodes = [order[self.own[node.name]] for node in self.base.nodes]
        self.guest.qemu.command("stop")
        image = image_of(self.guest, self.guest.registers(), nodes)
        self.guest.qemu.command("cont")
        self.shots += 1
        place = os.path.join(self.folder, f"seen{self.shots}")
        os.mkdir(place)
        for name, data in zip(FILES, (self.base.table.data, self.base.topology.data, image)):
            save(place, name, data)
        return cxlplan.Host.from_folder(place)

    def compare_words(self, seen: cxlplan.Host, captured: cxlplan.Host) -> None:
        """The registers as QEMU holds them and as they were captured, word for word."""
        ours, theirs = seen.registers or b"", captured.registers or b""
        self.tally.words += len(ours) // 4
        differ = sum(ours[at:at + 4] != theirs[at:at + 4] for at in range(0, len(ours), 4))
        if differ or len(ours) != len(theirs):
            self.tally.fault(f"captured registers: {differ} words are other than in QEMU")

    # ---- Regions.

    def line(self, create: str) -> str:
        """A `create` line with the names that Linux has for the devices."""
        return " ".join(self.kernels.get(word, word) for word in create.split(" "))

    def make(self, create: str) -> bool:
        """A region by the line that the desk has for Linux; whether Linux makes it, as planned."""
        host, line = self.seen(), self.line(create)
        planned = host.plan(line)
        status, text = desk("plan", "--linux", host.name, *line.split(" "))
        if status:
            self.tally.fault(f"plan {line}: {text.strip()}")
            return False
        status, said = self.guest.run(text)
        if status:
            self.tally.say(f"refuses {create}: {' / '.join(said.strip().splitlines()[-3:])}")
            if create not in self.guest.machine.refused:
                self.tally.fault(f"Linux does not make {create}")
            for name in [it["region"] for it in self.listed("-Ri") if it.get("decode_state") != "commit"]:
                self.guest.run(f"cxl destroy-region -f {name}")
            self.guest.run(FREE)  # of devices that did not come to be targets, which keeps the decoders before from release
            return False
        return self.compare_region(planned, create)

    def compare_region(self, planned: cxlplan.Planned, what: str) -> bool:
        """The region stands in the registers as it was planned, and so do its decoders."""
        seen = self.seen()
        try:
            found = [it for it in seen.check() if meaning(it) == meaning(planned.region)]
        except cxlplan.CxlError as fault:
            self.tally.fault(f"{what}: {fault}")
            return False
        if not found:
            self.tally.fault(f"{what}: planned {planned.region}, and there are {seen.regions}")
            return False
        self.tally.regions += 1
        held = {(it.node, it.number): it for it in seen.decoders}
        for wanted in planned.decoders:
            self.compare_decoder(wanted, held[wanted.node, wanted.number], what)
        return True

    def compare_decoder(self, wanted: cxlplan.Decoder, held: cxlplan.Decoder, what: str) -> None:
        self.tally.words += len(wanted.words)
        for place, (ours, theirs) in enumerate(zip(wanted.words, held.words)):
            if ours == theirs:
                continue
            if place == CONTROL and wanted.ways == held.ways == 1 and not (ours ^ theirs) & ~0xf:
                self.tally.say(ONE_WAY_GRANULARITY)
                continue
            self.tally.fault(f"{what}: word {place} of decoder {wanted.number} of {wanted.node} is {theirs:#x}, and not {ours:#x}")

    # ---- Stores.

    def store(self, region: cxlplan.Region, where: cxlplan.Host, what: str) -> int:
        """Stores to a region from the guest. Each is looked for in the devices where the desk says that its bytes go; how many were
        not there, or were not loaded again, is given back."""
        addresses = sorted(self.addresses(region))
        stores = [(address, bytes(self.random.randrange(1, 256) for _ in range(ACCESS))) for address in addresses]
        loaded = self.guest.access(stores)
        lost = 0
        with where.session() as session:
            for (address, data), again in zip(stores, loaded):
                down = session.down(address)
                device = self.own.get(down.endpoint, down.endpoint)
                arrived = self.guest.memory.bytes_at(device, down.dpa, ACCESS) == data
                lost += not arrived or again != data
                if arrived:
                    self.filled.update({(device, down.dpa + at): value for at, value in enumerate(data)})
        self.tally.stores += len(stores)
        self.tally.lost += lost
        if lost:
            self.tally.say(f"{what}: {lost} of {len(stores)} stores are lost")
        return lost

    def addresses(self, region: cxlplan.Region) -> set:
        """The ends of a region, edges of its chunks, and anything between."""
        found = {region.base, region.end - ACCESS}
        while len(found) < self.count:
            address = region.base + self.random.randrange(region.size // ACCESS) * ACCESS
            if len(found) % 2:
                address += self.random.choice([0, region.gran - ACCESS]) - address % region.gran
            found.add(address)
        return found

    def compare_memory(self) -> None:
        """Nothing but what was stored stands in the devices."""
        theirs = self.guest.memory.filled()
        differ = [at for at in {**theirs, **self.filled} if theirs.get(at) != self.filled.get(at)]
        if differ:
            self.tally.fault(f"{len(differ)} bytes of the devices are other than was stored, the first {differ[0]}")

    # ---- Captures.

    def capture(self) -> dict:
        """The machine in each form, and what each tells beside the registers."""
        return self.judged(self.captures.take())

    def judged(self, taken: dict) -> dict:
        seen = self.seen()
        if taken[READ].host:
            self.compare_words(seen, taken[READ].host)
        for form, captured in taken.items():
            self.judge(form, captured, seen)
        return taken

    def judge(self, form: str, captured: Captured, seen: cxlplan.Host) -> None:
        """A capture tells the regions that the registers have, or that it does not know."""
        truth, verdict = verdict_of(seen), captured.verdict()
        if captured.note:
            self.tally.say(captured.note)
        if captured.host is None:
            self.tally.refused += 1
            self.tally.say(f"{form}: not captured: {captured.said.partition(': ')[2][-100:]}")
        elif verdict == truth and (captured.host.breach or [*map(meaning, captured.host.regions)] == [*map(meaning, seen.regions)]):
            self.tally.captures += 1
        elif captured.status in DOUBTFUL:
            self.tally.doubtful += 1
            self.tally.say(f"{form}: status {captured.status}, {verdict}; the registers: {truth}")
        else:
            self.tally.fault(f"{form}: status {captured.status}, {verdict}; the registers: {truth}")

    def compare_captures(self, before: dict, after: dict, made: list) -> None:
        """The desk tells the regions that came and went, of each form that made files both times."""
        for form, captured in after.items():
            if captured.host is None or before[form].host is None or captured.host.breach:
                continue
            _, text = desk("diff", before[form].host.name, captured.host.name)
            self.tally.diffs += 1
            parts = ("region", "window") if form == SHORT else ("region", "window", "node")  # which shows no idle decoders
            told = {" ".join(line.split()[:3]) for line in text.splitlines() if line[2:].startswith(parts)}
            if told != {f"+ region {region.base:#x}" for region in made}:
                self.tally.fault(f"diff of {form}: {' / '.join(sorted(told))}")

    # ---- Taken down.

    def names(self) -> dict:
        """The regions of Linux, by base."""
        return {it["resource"]: it["region"] for it in self.listed("-R") if "resource" in it}

    def listed(self, words: str) -> list:
        return json.loads(self.guest.run(f"cxl list {words} 2>/dev/null")[1] or "[]")

    def states(self) -> str:
        """How many regions Linux shows, and how many of them are committed."""
        listed = self.listed("-Ri")
        committed = sum(it.get("decode_state") == "commit" for it in listed)
        return f"{len(listed)} regions, {committed} of them committed"

    def take_down(self, region: cxlplan.Region) -> bool:
        name = self.names().get(region.base)
        if name is None:
            self.tally.say(f"shows no region at {region.base:#x}")
            return False
        status, said = self.guest.run(f"cxl destroy-region -f {name}")
        if status:
            self.tally.say(f"does not destroy {name}: {' / '.join(said.strip().splitlines()[-3:])}")
        return status == 0

    def compare_reset(self, before: Optional[cxlplan.Host]) -> None:
        """All regions are gone, from the registers too."""
        seen = self.seen()
        if left := committed_in(seen):
            self.tally.fault(f"still committed: {left}")
        if before is None:
            return
        status, text = desk("diff", before.name, seen.name)
        self.tally.diffs += 1
        if status:
            self.tally.fault(f"diff behind all: {text.strip()[:200]}")


def committed_in(host: cxlplan.Host) -> str:
    return ", ".join(f"{it.node} {it.number}" for it in host.decoders if it.committed)


def place_of(node: cxlplan.Node, host: cxlplan.Host) -> tuple:
    """The UID of a node's bridge, and the ports down to it."""
    return (*place_of(host.node(node.parent), host), node.port) if node.parent else (node.uid,)


def meaning(region: cxlplan.Region) -> tuple:
    """What a region is, without its name; the granularity of one way decides nothing."""
    return (region.base, region.size, region.window, region.gran if region.ways > 1 else 0, region.kind, region.slots)


# ---- What is tried.

def try_rounds(trial: Trial, host: Host) -> None:
    for number, lines in enumerate(host.rounds):
        before = trial.capture() if number else trial.judged(trial.first)
        made = [line for line in lines if trial.make(line)]
        regions = trial.seen().regions if made else []
        for region in regions:
            if trial.store(region, trial.seen(), f"region of {region.ways} ways"):
                trial.tally.fault(f"stores to {region.base:#x} are lost")
        trial.compare_captures(before, trial.capture(), regions)
        if host.behind and number == len(host.rounds) - 1:
            {"release": release_below, "reset": reset_device}[host.behind](trial, regions)
            return
        for region in reversed(regions):
            if not trial.take_down(region):
                trial.tally.fault(f"Linux does not take down {region.base:#x}")
        trial.compare_reset(before[READ].host)
    trial.compare_memory()


def release_below(trial: Trial, regions: list) -> None:
    """The first region is destroyed while the second lives."""
    where = trial.seen()
    done = trial.take_down(regions[0])
    behind(trial, where, regions[1:], f"the first region {'is destroyed' if done else 'is not destroyed, as Linux says'}")


def reset_device(trial: Trial, regions: list) -> None:
    """A function level reset of a device of the region."""
    where = trial.seen()
    name = regions[0].slots[-1].endpoint
    status, said = trial.guest.run(f"echo 1 > $(readlink -f /sys/bus/cxl/devices/{name}/../reset)")
    if status:
        trial.tally.say(f"the reset is refused: {said.strip()[-100:]}")
    behind(trial, where, regions, "a device was reset")


def behind(trial: Trial, where: cxlplan.Host, regions: list, what: str) -> None:
    """What is left of the regions, in the registers and in each form of a capture."""
    trial.guest.look_again()
    trial.tally.say(f"{what}: the registers: {verdict_of(trial.seen())}; Linux shows {trial.states()}")
    for region in regions:
        trial.store(region, where, what)
    trial.capture()


def try_firmware(trial: Trial, planned: Optional[cxlplan.Host]) -> None:
    """What Linux makes of registers that were set before it came; `planned` has the regions that were meant."""
    seen = trial.seen()
    trial.tally.say(f"the registers: {verdict_of(seen)}; Linux shows {trial.states()}")
    trial.judged(trial.first)
    if planned is None:
        return
    for region in planned.regions:
        if trial.store(region, planned, f"the region at {region.base:#x}") and not seen.breach:
            trial.tally.fault(f"stores to {region.base:#x} are lost")
    if not seen.breach:
        trial.compare_memory()
    gone = [trial.take_down(region) for region in reversed(planned.regions)]
    trial.tally.say(f"{sum(gone)} of {len(gone)} are destroyed; still committed: {committed_in(trial.seen()) or 'none'}")
