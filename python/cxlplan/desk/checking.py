"""`check`: the regions of sound registers; else where the first broken rule is broken, what was found there, what the rule wants and why,
and the other decoders of the range beside it."""

from collections import Counter

from ..errors import NoEngine
from ..explain import RULES
from ..found import found_at
from ..host import Host
from .output import Answer
from .showing import decoder_row, region_rows
from .words import only_host


def arguments(parser) -> None:
    parser.add_argument("words", nargs="*", metavar="HOST")


def answer(options) -> Answer:
    host = only_host(options.words, options)
    return broken(host) if host.breach else sound(host)


def sound(host: Host) -> Answer:
    """What there is to say where no rule is broken: of a capture also how its registers are known."""
    verdict = host.verdict
    said = Answer({"host": host.name, "verdict": verdict, "sound": verdict in ("sound", "told"), "regions": [it.as_dict() for it in host.regions]})
    region_rows(said, host.regions)
    return said.lines(host.sources.lines("sound") if host.sources else [])


def broken(host: Host) -> Answer:
    """What there is to say of a rule that is broken."""
    wants, why, advice = RULES[host.breach.rule]
    places = [place_facts(host, place) for place in host.places()]
    facts = {"host": host.name, "verdict": host.verdict, "sound": False, "rule": host.breach.rule, "wants": wants, "why": why,
             "advice": advice, "places": places}
    said = Answer(facts, 8).line(host.breach.text)
    said.line(f"{host.breach.rule} wants: {wants}.").line(f"Else: {why}.").line(f"To do: {advice}.")
    for place in places:
        said.line(f"At decoder {place['decoder']} of {place['node']}: {place['found']}.")
    named = {(it["node"], it["decoder"]) for it in places}
    for decoder in dict.fromkeys(place["range"] for place in places if place["range"]):
        add_range(said, host, decoder, named)
    return said.lines(host.sources.lines("breach") if host.sources else [])


class Beside:
    """The decoders of a range, of which JSON tells each place; they are told where they are asked for."""

    def __init__(self, host: Host, decoders: list) -> None:
        self.host, self.decoders = host, decoders

    def as_dict(self) -> list:
        differs = {id(it) for it in odd_ones(self.decoders, self.host)}
        return [{**it.as_dict(), "differs": id(it) in differs} for it in self.decoders]


def place_facts(host: Host, place) -> dict:
    """A broken place with what was found there, and the decoders of its range; or how to get what tells that."""
    try:
        block = host.blocks.get(place.node, [])
    except NoEngine as missing:
        return {"node": place.node, "decoder": place.decoder, "found": missing.text, "range": None, "beside": []}
    decoder = block[place.decoder] if place.decoder < len(block) else None
    beside = host.same_range(decoder) if decoder and decoder.size else []
    return {"node": place.node, "decoder": place.decoder, "found": found_at(host, place, decoder), "range": decoder and decoder.range,
            "beside": Beside(host, beside)}


def odd_ones(decoders: list, host: Host) -> list:
    """Of the decoders of a range those whose ways or granularity are not those of most of their kind."""
    found, groups = [], {"bridge": [], "switch": [], "endpoint": []}  # type: ignore[var-annotated]
    for decoder in decoders:
        groups[host.node(decoder.node).kind].append(decoder)
    for group in groups.values():
        held = [(it.ways, it.gran, it.lock, it.host_only) for it in group]
        counts = Counter(held)
        if len(counts) > 1:
            usual = counts.most_common(1)[0][0]
            found += [it for it, values in zip(group, held) if values != usual]
    return found


def add_range(said: Answer, host: Host, wanted: tuple, named: set) -> None:
    """The decoders of a range, with those that are broken and those that differ marked."""
    beside = host.ranges.get(wanted, [])
    differs, rows = {id(it) for it in odd_ones(beside, host)}, []
    for decoder in beside:
        marks = ["broken"] * ((decoder.node, decoder.number) in named) + ["differs"] * (id(decoder) in differs)
        rows.append({**decoder_row(decoder), "_mark": "<- " + ", ".join(marks) if marks else None})
    if rows:
        said.line(f"The decoders of {wanted[0]:#x} to {wanted[0] + wanted[1]:#x}:")
        said.rows("decoder", rows)
