"""What stands at a place that breaks a rule, in words made of the decoders' fields. The verdict is the proved call's; these words only
tell what it looked at."""

from .facts import Decoder, Place


def found_at(host, place: Place, decoder: Decoder) -> str:
    """What was found at a place, by the rule that it breaks."""
    if decoder is None:
        return "there is no such decoder"
    return {"K2": hole, "K3": bits, "K4": codes, "K5": codes, "K6": range_of, "K7": order, "K8": share, "K9": placed, "K10": targets,
            "K11": unreached, "K12": dealt}.get(place.rule, dealt)(host, decoder)


def dealt(host, decoder: Decoder) -> str:
    """Ways and granularity, and those of others of the range."""
    own, kind = (decoder.ways, decoder.gran), host.node(decoder.node).kind
    counts = pairs_of(host, decoder.range).get(kind, {})
    others = sorted((pair for pair, count in counts.items() if pair != own or count > decoder.committed), key=str)
    beside = " or ".join(f"{ways_words(*it)}" for it in others)
    text = f"it has {ways_words(*own)}"
    return text + (f", and others of its kind in the range have {beside}" if others and others != [own] else "")


def pairs_of(host, wanted: tuple) -> dict:
    """By a kind of node how many decoders of a range have which ways and granularity; worked out once a range."""
    known = host.__dict__.setdefault("_pairs", {})
    if wanted not in known:
        found = known[wanted] = {}
        for it in host.ranges.get(wanted, []):
            counts = found.setdefault(host.node(it.node).kind, {})
            counts[it.ways, it.gran] = counts.get((it.ways, it.gran), 0) + 1
    return known[wanted]


def ways_words(ways, gran) -> str:
    if ways is None or gran is None:
        return f"{'no legal ways' if ways is None else f'{ways} ways'} of {'no legal granularity' if gran is None else f'{gran} bytes'}"
    return f"{ways} ways of {gran} bytes" if ways > 1 else f"one way, of {gran} bytes"


def hole(host, decoder: Decoder) -> str:
    before = next((it for it in host.blocks[decoder.node][:decoder.number] if not it.committed), None)
    if before:
        return f"it is committed, and decoder {before.number} before it is not"
    return "it is committed, and the endpoint does not decode: bit 1 of its global control is clear"


def bits(host, decoder: Decoder) -> str:
    said = (f"commit is {int(decoder.commit)}, committed {int(decoder.committed)}, error {int(decoder.error)}, "
            f"host-only memory {int(decoder.host_only)}")
    return said + (f"; its node is {article(host.node(decoder.node).kind)}")


def article(kind: str) -> str:
    return f"an {kind}" if kind == "endpoint" else f"a {kind}"


def codes(host, decoder: Decoder) -> str:
    node = host.node(decoder.node)
    text = f"it has {ways_words(decoder.ways, decoder.gran)}"
    if node.kind == "endpoint":
        knows = [f"{words} ways" for words, has in (("3, 6 and 12", node.ways3), ("16", node.ways16)) if has]
        text += f"; the endpoint knows 1, 2, 4 and 8 ways{', ' + ', '.join(knows) if knows else ''}"
    else:
        text += f"; the {node.kind} has {node.targets} targets"
    selects = [words for words, has in (("8 to 11", node.low), ("12 to 14", node.high)) if has]
    return text + f", and selects by the address bits {' and '.join(selects) or 'of none'}"


def range_of(host, decoder: Decoder) -> str:
    kind = host.node(decoder.node).kind
    return f"its base is {decoder.base:#x} and its size {decoder.size:#x}" + (
        f", with {decoder.ways} ways in an endpoint" if kind == "endpoint" else "")


def order(host, decoder: Decoder) -> str:
    before = host.blocks[decoder.node][decoder.number - 1]
    return f"it starts at {decoder.base:#x}, and decoder {before.number} before it ends at {before.end:#x}"


def share(host, decoder: Decoder) -> str:
    node = host.node(decoder.node)
    rows = [f"decoder {it.number} skips {it.skip:#x} and takes a share of {it.size:#x} bytes by {it.ways} ways"
            for it in host.blocks[node.name][:decoder.number + 1]]
    return f"{node.name} has {node.ram:#x} bytes of ram and then {node.pmem:#x} of pmem; " + ", ".join(rows)


def placed(host, decoder: Decoder) -> str:
    holding = [it for it in host.windows if it.base <= decoder.base < it.end]
    text = f"its range is {decoder.base:#x} to {decoder.end:#x}"
    if not holding:
        return text + ", which begins in no window"
    window = holding[0]
    permits = [kind for kind in ("ram", "pmem") if window.takes(kind)]
    distance = f"; it begins {decoder.base - window.base:#x} past the window's base" if window.ways % 3 == 0 else ""
    return text + (f"; window {window.number} is {window.base:#x} to {window.end:#x}, its verdict is {window.verdict}, and it permits "
                   f"{' and '.join(permits) or 'no memory'}{distance}")


def targets(host, decoder: Decoder) -> str:
    """Where each entry of a port's list leads, and which targets of the window have nothing of the range."""
    if decoder.targets is None:
        return dealt(host, decoder)
    has, said, below = host.ranges_by_node.get(decoder.range, {}), [], host.below.get(decoder.node, {})
    for entry, port in enumerate(decoder.targets):
        node = below.get(port)
        what = "nothing" if node is None else node.name + (
            " that passes on" if node.passthrough else " with the range" if node.name in has else " without a decoder of the range")
        said.append(f"entry {entry} is port {port}: {what}")
    return "; ".join(said + lacking(host, decoder, has))


def lacking(host, decoder: Decoder, has: dict) -> list:
    """Which bridges of the window have no decoder of a range."""
    window = next((it for it in host.windows if it.is_usable and it.base <= decoder.base < it.end), None)
    bridges = [node for node in host.below.get(None, {}).values() if window and node.uid in window.targets]
    return [f"{node.name}, also a target of window {window.number}, has no decoder of the range" for node in bridges
            if node.name not in has and not node.passthrough]


def unreached(host, decoder: Decoder) -> str:
    node = host.node(decoder.node)
    if node.kind == "bridge":
        return f"its range is {decoder.base:#x} to {decoder.end:#x}, and no window with its bridge sends all of that here"
    above = host.ranges_by_node.get(decoder.range, {}).get(node.parent)
    if above is None:
        passes = ", which passes on," if host.node(node.parent).passthrough else ""
        return f"{node.parent} above it{passes} has no committed decoder of the range {decoder.base:#x} to {decoder.end:#x}"
    listed = ", ".join(map(str, above.targets or ()))
    return f"decoder {above.number} of {node.parent} above it lists the ports {listed}, and {node.name} is at port {node.port}"
