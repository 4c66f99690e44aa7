"""The machines: what hangs below which bridge, the windows, and the regions that are made on them;
and each as words for QEMU.

A tree is written by ports: `{16: {0: "d1", 1: {0: "d2", 3: "d3"}, 2: None}}` is a bridge of UID 16
with three root ports, a device at the first, a switch with two devices at the second, and nothing
at the third. A bridge with one root port has no decoders in QEMU, so those that are to have some
get an empty port beside."""

import os
from dataclasses import dataclass

GRAIN = 256 << 20  # bytes: sizes of windows, devices and regions are multiples of it


@dataclass
class Window:
    targets: list  # UIDs of bridges
    size: int = 4 << 30
    gran: int = 256


@dataclass
class Machine:
    name: str
    says: str
    tree: dict
    windows: list
    regions: list  # `create` lines, made in this order
    ram: int = 0  # bytes of each device
    pmem: int = 2 * GRAIN
    needs: tuple = ()  # what not every QEMU has: "ram", "ways3", "ways16", "passthrough"
    deals_as_qemu: bool = True  # whether QEMU finds the device of an address as the program does

    def devices(self) -> dict:
        """Each device's name and its place: the UID of its bridge, and the ports down to it."""
        return {child: place for place, child in places_of(self.tree) if isinstance(child, str)}

    def names(self) -> dict:
        """The name of each node by its place."""
        named = {(uid,): f"hb{uid}" for uid in self.tree}
        for place, child in places_of(self.tree):
            if child is not None:
                named[place] = child if isinstance(child, str) else "sw" + "_".join(map(str, place))
        return named

    def serial(self, device: str) -> int:
        return list(self.devices()).index(device) + 1


def places_of(tree: dict, above: tuple = ()):
    """All ports below, each with its place and what hangs there: a name, a switch's ports, or
    None."""
    for port, child in tree.items():
        if above:
            yield (*above, port), child
        if isinstance(child, dict):
            yield from places_of(child, (*above, port))


THREE_BRIDGES = {16: {0: "d1", 1: "d4"}, 32: {0: "d2", 1: "d5"}, 48: {0: "d3", 1: "d6"}}
BEFORE = Window([16], GRAIN)  # moves the window behind it to 0x120000000, a multiple of 768 MiB

MACHINES = [
    Machine("one-way", "one bridge, one way; two regions by size", {16: {0: "d1", 1: None}}, [Window([16])],
            ["create r0 pmem 0x10000000 d1", "create r1 pmem 0x10000000 d1"]),
    Machine("two-ways", "two bridges, a device below each", {16: {0: "d1", 1: None}, 32: {0: "d2", 1: None}},
            [Window([16, 32], gran=1024)],
            ["create r0 pmem 0x20000000 d1 d2", "create r1 pmem 0x20000000 d1 d2"]),
    Machine("four-ways", "two bridges, two devices below each", {16: {0: "d1", 1: "d3"}, 32: {0: "d2", 1: "d4"}},
            [Window([16, 32])],
            ["create r0 pmem 0x40000000 d1 d2 d3 d4", "create r1 pmem 0x20000000 d3 d4"]),
    Machine("eight-ways", "two bridges, four devices below each, the targets turned round; and four of them",
            {16: {port: f"d1{port}" for port in range(4)}, 32: {port: f"d2{port}" for port in range(4)}},
            [Window([32, 16], gran=4096)],
            ["create r0 pmem 0x80000000 ways=8", "create r1 pmem 0x40000000 d12 d22 d13 d23"]),
    Machine("sixteen-ways", "four bridges, four devices below each",
            {uid: {port: f"d{uid}_{port}" for port in range(4)} for uid in (16, 32, 48, 64)},
            [Window([16, 32, 48, 64], 8 << 30, 512)],
            ["create r0 pmem 0x100000000 ways=16", "create r1 pmem 0x80000000 ways=8"], needs=("ways16",)),
    Machine("one-bridge", "eight ports of one bridge", {16: {port: f"d{port}" for port in range(8)}},
            [Window([16])], ["create r0 pmem 0x80000000 gran=512 ways=8", "create r1 pmem 0x20000000 d2 d5"]),
    Machine("passthrough", "two bridges without decoders, a device below each",
            {16: {0: "d1"}, 32: {0: "d2"}}, [Window([16, 32], gran=4096)],
            ["create r0 pmem 0x20000000 d1 d2", "create r1 pmem 0x20000000 d1 d2"], needs=("passthrough",)),
    Machine("passthrough-switches", "two bridges without decoders, a switch below each, two devices below each",
            {16: {0: {0: "d10", 3: "d11"}}, 32: {0: {0: "d20", 1: "d21"}}}, [Window([16, 32], gran=2048)],
            ["create r0 pmem 0x40000000 ways=4", "create r1 pmem 0x20000000 d11 d20"], needs=("passthrough",)),
    Machine("switches", "a bridge over two switches, and a device beside them",
            {16: {0: {0: "d1", 1: "d2"}, 1: {2: "d3", 5: "d4"}, 2: "d5"}}, [Window([16], gran=256)],
            ["create r0 pmem 0x40000000 gran=256 d1 d2 d3 d4", "create r1 pmem 0x30000000 d5"], pmem=3 * GRAIN),
    Machine("ram-and-pmem", "both kinds on the same devices, with skips",
            {16: {0: "d1", 1: "d2"}}, [Window([16])],
            ["create r0 ram 0x20000000 gran=512 d1 d2", "create r1 pmem 0x20000000 gran=2048 d1 d2",
             "create r2 pmem 0x10000000 d2"], ram=2 * GRAIN, needs=("ram",)),
    Machine("three-ways", "three bridges, at a multiple of 768 MiB", THREE_BRIDGES,
            [BEFORE, Window([16, 32, 48], 6 << 30, 1024)],
            ["create r0 pmem 0x30000000 d1 d2 d3", "create r1 pmem 0x30000000 d4 d2 d6"], needs=("ways3",)),
    Machine("six-ways", "three bridges, two devices below each, at a multiple of 768 MiB", THREE_BRIDGES,
            [BEFORE, Window([32, 48, 16], 6 << 30, 256)],
            ["create r0 pmem 0x60000000 ways=6", "create r1 pmem 0x30000000 d1 d2 d3"], needs=("ways3",)),
    Machine("twelve-ways", "three bridges, four devices below each, at a multiple of 768 MiB",
            {uid: {port: f"d{uid}_{port}" for port in range(4)} for uid in (16, 32, 48)},
            [BEFORE, Window([16, 32, 48], 6 << 30, 512)],
            ["create r0 pmem 0xc0000000 ways=12", "create r1 pmem 0x60000000 ways=6"], needs=("ways3",)),
    Machine("two-windows", "two windows, the second to one bridge, and a region in each",
            {16: {0: "d1", 1: "d3"}, 32: {0: "d2", 1: "d4"}}, [Window([16, 32], gran=8192), Window([32], 1 << 30, 256)],
            ["create r0 pmem 0x40000000 ways=4", "create r1 pmem 0x20000000 gran=16384 d2 d4"]),
    Machine("two-levels", "switches below a switch, to which QEMU carries no store",
            {16: {0: {0: {0: "d1", 1: "d2"}, 1: {0: "d3", 1: "d4"}}, 1: "d5"}}, [Window([16])],
            ["create r0 pmem 0x10000000 d5", "create r1 pmem 0x40000000 d1 d2 d3 d4"], deals_as_qemu=False),
    Machine("three-off", "three bridges, at no multiple of 768 MiB: QEMU deals by another remainder", THREE_BRIDGES,
            [Window([16, 32, 48], 6 << 30, 1024)],
            ["create r0 pmem 0x30000000 d1 d2 d3", "create r1 pmem 0x30000000 d4 d5 d6"],
            needs=("ways3",), deals_as_qemu=False),
]
QUICK = ["one-way", "two-ways", "four-ways"]


def machine_of(name: str) -> Machine:
    return next(machine for machine in MACHINES if machine.name == name)


# ---- As words for QEMU.

def words_for(machine: Machine, folder: str, has_ram: bool) -> list:
    """Devices by these options, their memory in files of the folder. Before QEMU had volatile
    memory it had other names."""
    options = ["q35", "cxl=on"]
    for number, window in enumerate(machine.windows):
        options += [f"cxl-fmw.{number}.size={window.size}", f"cxl-fmw.{number}.interleave-granularity={window.gran}"]
        options += [f"cxl-fmw.{number}.targets.{place}=hb{uid}" for place, uid in enumerate(window.targets)]
    words = ["-M", ",".join(options), "-m", "256M", "-accel", "tcg", "-smp", "1", "-display", "none", "-nodefaults",
             "-no-user-config"]
    for device in machine.devices():
        for part, size in (("ram", machine.ram), ("pmem", machine.pmem), ("label", 1 << 18)):
            if size:
                words += ["-object", f"memory-backend-file,id={device}.{part},share=on,size={size},"
                          f"mem-path={os.path.join(folder, device)}.{part}"]
    for uid in machine.tree:
        words += ["-device", f"pxb-cxl,bus=pcie.0,id=hb{uid},bus_nr={uid}"]
    for slot, (place, child) in enumerate(places_of(machine.tree), 1):
        above, own = "_".join(map(str, place[:-1])), "_".join(map(str, place))
        kind, bus = ("cxl-rp", f"hb{above}") if len(place) == 2 else ("cxl-downstream", f"sw{above}")
        words += ["-device", f"{kind},bus={bus},id=at{own},port={place[-1]},chassis=0,slot={slot}"]
        if isinstance(child, dict):
            words += ["-device", f"cxl-upstream,bus=at{own},id=sw{own}"]
        elif child:
            words += ["-device", device_words(machine, child, f"at{own}", has_ram)]
    return words


def device_words(machine: Machine, device: str, bus: str, has_ram: bool) -> str:
    pmem = "persistent-memdev" if has_ram else "memdev"
    text = f"cxl-type3,bus={bus},id={device},sn={machine.serial(device)},{pmem}={device}.pmem,lsa={device}.label"
    return text + (f",volatile-memdev={device}.ram" if machine.ram else "")
