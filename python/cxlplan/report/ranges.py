"""What is drawn of a host: its regions, or, where its registers are refused, the committed ranges; each with a letter by its address."""

from dataclasses import dataclass
from typing import Optional

from ..facts import Region


@dataclass
class Share:
    """A part of an endpoint's memory that a range has."""
    endpoint: str
    start: int
    size: int


@dataclass
class Range:
    """A region, or a committed range of refused registers. `odd` is one at which the broken rule was found."""
    number: int
    name: str
    base: int
    size: int
    window: Optional[int]
    ways: Optional[int]
    gran: Optional[int]
    kind: str
    shares: list
    odd: bool = False
    region: Optional[Region] = None

    @property
    def end(self) -> int:
        return self.base + self.size

    @property
    def letter(self) -> str:
        return letter_of(self.number)


def letter_of(number: int) -> str:
    """A to Z, then AA and on: letters follow addresses."""
    return (letter_of(number // 26 - 1) if number >= 26 else "") + chr(65 + number % 26)


def ranges_of(host) -> list:
    if host.breach is None:
        return [Range(number, it.name, it.base, it.size, it.window, it.ways, it.gran, it.kind,
                      [Share(slot.endpoint, slot.start, it.share) for slot in it.slots], region=it)
                for number, it in enumerate(host.regions)]
    return committed_ranges(host)


def committed_ranges(host) -> list:
    """The ranges of committed decoders, whatever else is wrong with them, by rising base."""
    kinds = {node.name: node.kind for node in host.nodes}
    broken = {(it.node, it.decoder) for it in host.places()}
    found: dict = {}
    for decoder in host.decoders:
        if decoder.committed:
            found.setdefault(decoder.range, []).append(decoder)
    shares, ranges = shares_of(host), []
    for number, ((base, size), decoders) in enumerate(sorted(found.items())):
        ends = [it for it in decoders if kinds[it.node] == "endpoint"]
        window = next((it.number for it in host.windows if it.is_usable and it.base <= base < it.end), None)
        first = ends[0] if ends else None
        ranges.append(Range(number, f"{base:#x}", base, size, window, first and first.ways, first and first.gran, "",
                            [shares[it.node, it.number] for it in ends if (it.node, it.number) in shares],
                            any((it.node, it.number) in broken for it in decoders)))
    return ranges


def shares_of(host) -> dict:
    """Each endpoint's committed decoders side by side, as their skips and shares say; drawn only where registers are refused, of which
    no proved call tells where shares lie."""
    shares: dict = {}
    at: dict = {}
    for decoder in host.decoders:
        if decoder.skip is not None and decoder.committed and decoder.ways:
            start = at.get(decoder.node, 0) + decoder.skip
            shares[decoder.node, decoder.number] = Share(decoder.node, start, decoder.size // decoder.ways)
            at[decoder.node] = start + decoder.size // decoder.ways
    return shares
