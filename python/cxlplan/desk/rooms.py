"""`room`: what is free on a host, and the largest regions that have a plan."""

from ..host import Host
from ..room import room_of
from .output import Answer, Hex, Size
from .words import only_host


def arguments(parser) -> None:
    parser.add_argument("words", nargs="*", metavar="HOST")
    parser.add_argument("--reset", action="store_true", help="as after reset, without an image")
    parser.add_argument("--kind", choices=("ram", "pmem"), help="only regions of this kind")


def answer(options) -> Answer:
    return room_answer(only_host(options.words, options), (options.kind,) if options.kind else ("ram", "pmem"))


def room_answer(host: Host, kinds: tuple = ("ram", "pmem")) -> Answer:
    room = room_of(host, kinds)
    said = Answer({"host": host.name, "room": room.as_dict(), "proved": "each region that is told has a proved plan; that none is "
                   "larger was sought by asking the planner, and is not proved"})
    said.rows("free", [{"window": it.window, "base": Hex(it.base), "size": Size(it.size)} for it in room.ranges])
    said.rows("memory", [{"_endpoint": it.endpoint, "_kind": it.kind, "size": Size(it.size), "free": Size(it.free)}
                         for it in room.memory])
    return said.rows("largest", [{"window": it.window, "_kind": it.kind, "ways": it.ways, "size": Size(it.size), "base": Hex(it.base),
                                  "gran": it.gran, "over": tuple(slot.endpoint for slot in it.slots)} for it in room.largest])
