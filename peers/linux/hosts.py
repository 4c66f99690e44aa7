"""The machines on which Linux is tried, and what is done on each: regions in rounds, which live side by side, what is done behind
the last round, or what stands in the registers before the driver comes.

Trees, windows and sizes are written as in peers/qemu/machines.py."""

from dataclasses import dataclass, field

from machines import GRAIN, Machine, Window


@dataclass
class Host(Machine):
    rounds: list = field(default_factory=list)  # `create` lines; those of a round live side by side
    refused: tuple = ()  # those of them that Linux is known not to make; README.md says why
    behind: str = ""  # "release": the first region of the last round is released below the others; "reset": a device is reset
    firmware: str = ""  # "planned": the words of `regions` before the driver; "gran", "empty": see firmware.py


PAIR = {16: {0: "d1", 1: "d2"}}
TWO_BRIDGES = {16: {0: "d1", 1: None}, 32: {0: "d2", 1: None}}


def windows_over_two(gran: int) -> list:
    return [Window([16, 32], 1 << 30, gran), Window([32], 1 << 30), Window([16], 1 << 30)]


HOSTS = [
    Host("ways", "1, 2, 4 and 8 ways side by side, then 3 and 6, over three bridges",
         {16: {port: f"d{port + 1}" for port in range(4)}, 32: {port: f"d{port + 5}" for port in range(4)},
          48: {0: "d9", 1: "d10"}},
         [Window([16], GRAIN), Window([16, 32, 48], 3 << 30, 1024), Window([16, 32], 8 << 30, 256)], [], pmem=2 * GRAIN,
         needs=("ways3",), rounds=[
             ["create r0 pmem 0x10000000 d1", "create r1 pmem 0x20000000 d2 d6", "create r2 pmem 0x40000000 d3 d7 d4 d8",
              "create r3 pmem 0x80000000 d1 d5 d2 d6 d3 d7 d4 d8"],
             ["create r4 pmem 0x30000000 d1 d5 d9", "create r5 pmem 0x60000000 d3 d7 d9 d4 d8 d10"]]),
    Host("switches", "a bridge over two switches, and a device beside them",
         {16: {0: {0: "d1", 1: "d2"}, 1: {2: "d3", 5: "d4"}, 2: "d5"}}, [Window([16])], [], pmem=3 * GRAIN,
         rounds=[["create r0 pmem 0x40000000 gran=512 d1 d3 d2 d4", "create r1 pmem 0x30000000 d5"]]),
    Host("passthrough", "two bridges without decoders, a switch below each, two devices below each",
         {16: {0: {0: "d1", 3: "d2"}}, 32: {0: {0: "d3", 1: "d4"}}}, [Window([16, 32], gran=2048)], [], needs=("passthrough",),
         rounds=[["create r0 pmem 0x40000000 ways=4", "create r1 pmem 0x20000000 d2 d3"]],
         refused=("create r1 pmem 0x20000000 d2 d3",)),
    Host("ram-and-pmem", "both kinds on the same devices, with skips", PAIR, [Window([16])], [], ram=2 * GRAIN, needs=("ram",),
         rounds=[["create r0 ram 0x20000000 gran=512 d1 d2", "create r1 pmem 0x20000000 gran=2048 d1 d2",
                  "create r2 pmem 0x10000000 d2"]]),
    Host("two-regions", "two bridges, two devices below each, a region of 4 and one of 2 ways",
         {16: {0: "d1", 1: "d3"}, 32: {0: "d2", 1: "d4"}}, [Window([16, 32], gran=1024)], [],
         rounds=[["create r0 pmem 0x40000000 d1 d2 d3 d4", "create r1 pmem 0x20000000 d3 d4"]]),
    Host("released-below", "two regions on the same devices, of which the first is destroyed", PAIR, [Window([16])], [],
         rounds=[["create r0 pmem 0x20000000 d1 d2", "create r1 pmem 0x20000000 d1 d2"]], behind="release"),
    Host("reset", "a device is reset while its region lives", PAIR, [Window([16])], [],
         rounds=[["create r0 pmem 0x20000000 d1 d2"]], behind="reset"),
    Host("firmware", "three regions set before the driver", TWO_BRIDGES, windows_over_two(256),
         ["create r0 pmem 0x20000000 d1 d2", "create r1 pmem 0x10000000 d2", "create r2 pmem 0x10000000 d1"], pmem=3 * GRAIN,
         firmware="planned"),
    Host("firmware-16k", "the same with 16 KiB in the window of both bridges", TWO_BRIDGES, windows_over_two(16384),
         ["create r0 pmem 0x20000000 d1 d2", "create r1 pmem 0x10000000 d2", "create r2 pmem 0x10000000 d1"], pmem=3 * GRAIN,
         firmware="planned"),
    Host("firmware-other", "a device's decoder has twice the granularity of the other's", PAIR, [Window([16])],
         ["create r0 pmem 0x20000000 gran=256 d1 d2"], firmware="gran"),
    Host("firmware-empty", "a bridge's first decoder is committed and locked without bytes", PAIR, [Window([16])], [],
         firmware="empty"),
]
QUICK = ["two-regions"]


def host_of(name: str) -> Host:
    return next(it for it in HOSTS if it.name == name)
