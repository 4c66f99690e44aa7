"""`show`: windows, tree, decoders and regions of a host, also of one whose registers are refused."""

from ..explain import verdict_words
from ..facts import Bridge, Decoder, Node, Region, Window
from ..host import Host
from .output import Answer, Hex, Size
from .words import only_host


def arguments(parser) -> None:
    parser.add_argument("words", nargs="*", metavar="HOST")
    parser.add_argument("--reset", action="store_true", help="as after reset, without an image")
    parser.add_argument("--all", action="store_true", help="also decoders that are not committed and empty")


def answer(options) -> Answer:
    host = only_host(options.words, options)
    windows = [window_facts(window, host) for window in host.windows]
    breach = host.breach
    facts = {"host": host.name, "bridges": [it.as_dict() for it in host.table.records if isinstance(it, Bridge)], "windows": windows,
             "nodes": [node.as_dict() for node in host.nodes], "decoders": [it.as_dict() for it in host.decoders],
             "regions": [] if breach else [it.as_dict() for it in host.regions], "breach": breach and breach_facts(breach),
             "verdict": host.verdict}
    said = Answer(facts)
    said.rows("window", [window_row(window, facts) for window, facts in zip(host.windows, windows)])
    said.rows("node", [node_row(node, depth) for node, depth in tree_order(host.nodes)])
    said.rows("decoder", [decoder_row(it) for it in host.decoders if options.all or it.committed or any(it.words[:4]) or it.error])
    if breach:
        said.line(breach.text)
    else:
        region_rows(said, host.regions)
    return said.lines(host.sources.lines("breach" if breach else "sound") if host.sources else [])


def breach_facts(breach) -> dict:
    return {"rule": breach.rule, "node": breach.node, "decoder": breach.decoder}


def window_facts(window: Window, host: Host) -> dict:
    why = "" if window.is_usable else verdict_words(window)
    return {**window.as_dict(), "why": why}


def window_row(window: Window, facts: dict) -> dict:
    return {"window": window.number, "base": Hex(window.base), "size": Size(window.size), "ways": window.ways, "gran": window.gran,
            "_arithmetic": window.arithmetic, "restrict": f"{window.restrict:#06x}", "qtg": window.qtg, "targets": window.targets,
            "_verdict": window.verdict, "why": facts["why"]}


def tree_order(nodes: list) -> list:
    """Each node with its depth, below its parent and in the order of ports."""
    below: dict = {}
    for node in nodes:
        below.setdefault(node.parent, []).append(node)
    order: list = []
    stack = [(node, 0) for node in reversed(below.get(None, []))]
    while stack:
        node, depth = stack.pop()
        order.append((node, depth))
        children = sorted(below.get(node.name, []), key=lambda it: it.port)
        stack += [(child, depth + 1) for child in reversed(children)]
    return order


def node_row(node: Node, depth: int) -> dict:
    lacks = [name for name, has in (("low", node.low), ("high", node.high), ("ways3", node.ways3), ("ways16", node.ways16))
             if has is False and not node.passthrough]
    return {"_kind": node.kind, "_name": node.name, "depth": depth, "uid": node.uid, "below": node.parent, "port": node.port,
            "decoders": None if node.passthrough else node.decoders, "targets": None if node.passthrough else node.targets,
            "ram": Size(node.ram) if node.ram else None, "pmem": Size(node.pmem) if node.pmem else None,
            "_passes": "passthrough" if node.passthrough else None, "without": tuple(lacks) or None}


def state_of(decoder: Decoder) -> str:
    if decoder.error:
        return "error"
    if decoder.committed != decoder.commit:
        return "unfinished"
    return "committed" if decoder.committed else "idle"


def decoder_row(decoder: Decoder) -> dict:
    flags = [name for name, has in (("locked", decoder.lock), ("device", not decoder.host_only and decoder.committed)) if has]
    return {"_node": decoder.node, "_number": decoder.number, "_state": state_of(decoder), "base": Hex(decoder.base),
            "size": Size(decoder.size), "ways": decoder.ways, "gran": decoder.gran,
            "targets": decoder.targets, "skip": None if decoder.skip is None else Size(decoder.skip),
            "_flags": ",".join(flags) or None}


def region_row(region: Region) -> dict:
    return {"_name": region.name, "_kind": region.kind, "window": region.window, "base": Hex(region.base), "size": Size(region.size),
            "gran": region.gran, "ways": region.ways}


def region_rows(said: Answer, regions: list) -> None:
    said.rows("region", [region_row(region) for region in regions])
    said.rows("slot", [{"_region": region.name, "_number": slot.number, "_endpoint": slot.endpoint, "from": Hex(slot.start),
                        "bytes": Size(region.share)} for region in regions for slot in region.slots])
