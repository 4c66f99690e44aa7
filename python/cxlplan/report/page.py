"""The parts of a report in their order, and the page around them."""

import hashlib
import html
import os

from .._engine import engine
from ..desk.checking import odd_ones, place_facts
from ..desk.output import size_words
from ..desk.showing import state_of
from ..errors import Refusal
from ..explain import RULES
from ..incoming import printable
from ..sources import VERDICT_WORDS
from .drawing import Tree, key, title_of, windows_part
from .ranges import ranges_of
from .style import STYLE, fills


def page_of(host, inferred: str = "") -> str:
    """The page of a host; `inferred` is the report of its capture."""
    ranges = ranges_of(host)
    parts = [
        ("Verdict", verdict_part(host)), ("Windows", windows_part(host, ranges)),
        ("Machine", "<p class=soft>Memory is plain where it is ram and grey where it is pmem. A node with a broken line has no decoders and "
                    f"hands each address on.</p><ul class=tree>{Tree(host, ranges).part()}</ul>"),
        ("Regions", regions_part(host, ranges)), ("Decoders", decoders_part(host)), ("What the capture put in place", capture_part(inferred)),
        ("How this was made", made_part(host))]
    title = html.escape(printable(f"CXL memory of {os.path.basename(os.path.normpath(host.name)) or host.name}"))
    body = "".join(f"<section><h2>{name}</h2>{part}</section>\n" for name, part in parts if part)
    return (f'<!DOCTYPE html>\n<html lang=en><head><meta charset=utf-8><meta name=viewport content="width=device-width,initial-scale=1">'
            f'<meta name=color-scheme content="light dark"><link rel=icon href="data:,"><title>{title}</title><style>{STYLE}{fills()}</style>'
            f"</head>\n<body><h1>{title}</h1>\n{body}</body></html>\n")


# ---- The verdict.

def verdict_part(host) -> str:
    if host.image is None:
        return "<div class=verdict><b>After reset.</b> No register image was given.</div>"
    verdict = host.verdict
    look = {"sound": "verdict", "breach": "'verdict broken'"}.get(verdict, "'verdict doubt'")
    title = VERDICT_WORDS[verdict].capitalize().replace("linux", "Linux")
    doubt = "".join(f"<p>{html.escape(line)}</p>" for line in host.sources.lines()) if host.sources else ""
    if host.breach is None:
        count = len(host.regions)
        return (f"<div class={look}><b>{title}.</b> {count} region{'s' * (count != 1)}: each host byte of them goes to one device byte, and no "
                f"device byte serves two regions{'' if verdict == 'sound' else ', by these files'}.{doubt}</div>")
    wants, why, advice = RULES[host.breach.rule]
    places = [place_facts(host, place) for place in host.places()]
    broken = {(it["node"], it["decoder"]) for it in places}
    found = "".join(f"<li>Decoder {it['decoder']} of <b>{html.escape(it['node'])}</b>: {html.escape(it['found'])}.</li>" for it in places)
    tables = "".join(range_part(host, it, broken) for it in dict.fromkeys(it["range"] for it in places if it["range"]))
    front = "" if verdict == "breach" else f"<b>{title}.</b> By these files: "
    return (f"<div class={look}>{front}<b>{html.escape(host.breach.text)}</b><ul>{found}</ul><p>{host.breach.rule} wants: {wants}.</p>"
            f"<p>Else: {why}.</p><p>To do: {advice}.</p>{doubt}</div>{tables}")


def range_part(host, wanted: tuple, broken: set) -> str:
    """The decoders of a range beside each other, with those that are broken or differ marked."""
    beside = host.ranges.get(wanted, [])
    odd = {(it.node, it.number) for it in odd_ones(beside, host)} | broken
    return (f"<p>The decoders of <code>{wanted[0]:#x}</code> to <code>{wanted[0] + wanted[1]:#x}</code>:</p>"
            + decoder_table(beside, odd)) if beside else ""


# ---- Regions, and who gets which chunk.

def regions_part(host, ranges: list) -> str:
    if host.breach is not None:
        return "<p>Registers that break a rule make no regions. The ranges above are those of committed decoders.</p>"
    if not ranges:
        return "<p>No decoder is committed: the machine is idle.</p>"
    try:
        opened = host.session()
    except Refusal as fault:
        return (f"<p>No session opens here ({html.escape(str(fault))}), so who gets which chunk is not shown.</p>"
                + "".join(region_part(None, it) for it in ranges))
    with opened as session:
        return "".join(region_part(session, it) for it in ranges)


def region_part(session, it) -> str:
    rows = "".join(f"<tr><td>{slot.number}<td>{html.escape(slot.endpoint)}<td>{slot.start:#x}<td>{slot.start + it.region.share:#x}"
                   for slot in it.region.slots)
    chunks = ""
    if session and it.ways > 1:
        ways = [session.down(it.base + chunk * it.gran) for chunk in range(it.ways)]
        cells = "".join(f"<span>{way.hpa:#x} <b>{html.escape(way.endpoint)}</b></span>" for way in ways)
        chunks = f"<p class=soft>The first chunks of {size_words(it.gran)}, in turn:</p><div class='chunks mono'>{cells}</div>"
    return (f"<div class=region><h3>{key(it)} {html.escape(title_of(it)[len(it.letter) + 1:])}, {it.kind}</h3><div class=scroll><table><tr>"
            f"<th>slot<th>endpoint<th>from<th>to{rows}</table></div>{chunks}</div>")


# ---- Decoders.

def decoder_table(decoders: list, odd) -> str:
    rows = "".join(f"<tr{' class=odd' * ((it.node, it.number) in odd)}>" + "".join(f"<td>{html.escape(cell)}" for cell in cells_of(it))
                   for it in decoders)
    heads = "".join(f"<th>{name}" for name in ("node", "nr", "state", "base", "size", "ways", "gran", "leads to", "control"))
    return f"<div class=scroll><table><tr>{heads}{rows}</table></div>"


def cells_of(it) -> list:
    leads = f"ports {','.join(map(str, it.targets))}" if it.targets is not None else f"skip {it.skip:#x}"
    return [it.node, str(it.number), state_of(it) + (" locked" if it.lock else ""), f"{it.base:#x}", f"{it.size:#x}", str(it.ways or "?"),
            str(it.gran or "?"), leads, f"{it.words[4]:#06x}"]


def decoders_part(host) -> str:
    """Decoders that hold something; of the idle ones how many each node has."""
    if not host.decoders:
        return ""
    used = [it for it in host.decoders if it.committed or it.commit or it.error]
    idle: dict = {}
    for it in host.decoders:
        if not (it.committed or it.commit or it.error):
            idle[it.node] = idle.get(it.node, 0) + 1
    counts = ", ".join(f"{html.escape(name)}&nbsp;{count}" for name, count in idle.items())
    rest = f"<details><summary>{sum(idle.values())} idle decoders</summary><p class=mono>{counts}</p></details>" if idle else ""
    return (decoder_table(used, {(it.node, it.decoder) for it in host.places()}) if used else "<p>None is committed.</p>") + rest


# ---- The capture, and the files.

def capture_part(inferred: str) -> str:
    lines = [printable(line.expandtabs()) for line in inferred.split("\n")]
    return f"<pre>{html.escape(chr(10).join(lines))}</pre>" if inferred else ""


def made_part(host) -> str:
    files = [("table", host.table), ("topology", host.topology), ("image", host.image)]
    rows = "".join(f"<tr><td>{what}<td>{html.escape(printable(os.path.basename(it.name)))}<td>{len(it.data)}<td>{hashlib.sha256(it.data).hexdigest()[:16]}"
                   for what, it in files if it is not None)
    return (f"<p>By cxldesk report, over {html.escape(engine().version())}. The verdict, the regions, the windows' verdicts and where chunks go "
            f"are told by its proved calls.</p><div class=scroll><table><tr><th>file<th>name<th>bytes<th>SHA-256 begins"
            f"{rows}</table></div>")
