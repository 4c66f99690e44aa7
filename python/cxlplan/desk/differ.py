"""`diff`: what differs between two captures, by window, node, decoder and region."""

from dataclasses import fields

from ..errors import BadWords
from ..facts import Decoder, Region
from ..host import Host
from ..sources import VERDICT_WORDS
from .output import Answer
from .words import take_host

PARTS = (("window", "windows", lambda it: it.number), ("node", "nodes", lambda it: it.name),
         ("decoder", "decoders", lambda it: (it.node, it.number)), ("region", "regions", lambda it: it.base))


def arguments(parser) -> None:
    parser.add_argument("words", nargs="+", metavar="A B", help="two hosts, each a folder or CEDT TOPO IMAGE")


def answer(options) -> Answer:
    first, rest = take_host(options.words, options)
    second, rest = take_host(rest, options)
    if rest:
        raise BadWords(f"{rest[0]}: one word too many; see cxldesk diff --help", 1, "extra", rest[0])
    changes = [change for part in PARTS for change in compared(first, second, *part)]
    verdicts = [verdict_of(host) for host in (first, second)]
    if verdicts[0] != verdicts[1]:
        changes.append({"what": "verdict", "name": "check", "change": "changed",
                        "fields": [{"field": "verdict", "was": verdicts[0], "is": verdicts[1]}]})
    said = Answer({"hosts": [first.name, second.name], "changes": changes}, 8 if changes else 0)
    for change in changes:
        told = told_fields(change)
        said.line(f"{SIGNS[change['change']]} {change['what']} {change['name']}" + "".join(f" {it}" for it in told))
    return said.lines([f"{host.name}: {line}" for host in (first, second) if host.sources for line in host.sources.lines()])


def verdict_of(host: Host) -> str:
    """The verdict in words: with the first broken rule, or the number of regions."""
    held = host.breach.text if host.breach else f"{len(host.regions)} regions"
    return held if host.verdict == "breach" else f"{VERDICT_WORDS[host.verdict]}, {held}"


def told_fields(change: dict) -> list:
    """The fields of a change: of one that is new or gone what it has or had."""
    if change["change"] == "changed":
        return [f"{it['field']} {text_of(it['was'])} -> {text_of(it['is'])}" for it in change["fields"]]
    side = "is" if change["change"] == "new" else "was"
    return [f"{it['field']} {text_of(it[side])}" for it in change["fields"]]


SIGNS = {"gone": "-", "new": "+", "changed": "~"}


def text_of(value) -> str:
    if isinstance(value, bool):
        return "yes" if value else "no"
    if isinstance(value, int) and value > 65536:
        return f"{value:#x}"
    return ",".join(map(text_of, value)) if isinstance(value, (list, tuple)) else "none" if value is None else str(value)


def facts_of(host: Host, part: str) -> list:
    return [] if part == "regions" and host.breach else getattr(host, part)


def compared(first: Host, second: Host, what: str, part: str, key) -> list:
    was, now = ({key(it): it for it in facts_of(host, part)} for host in (first, second))
    changes = []
    for name in list(was) + [name for name in now if name not in was]:
        shown = " ".join(map(str, name)) if isinstance(name, tuple) else f"{name:#x}" if what == "region" else str(name)
        change = "gone" if name not in now else "new" if name not in was else "changed"
        changed = fields_of(was.get(name), now.get(name))
        if changed:
            changes.append({"what": what, "name": shown, "change": change, "fields": changed})
    return changes


def fields_of(was, now) -> list:
    """The fields in which two facts differ; of one that is new or gone all that it has. A decoder's words are told by its fields."""
    before, after = map(held, (was, now))
    names = looked_at(was, now) if was is not None and now is not None else whole(was if now is None else now)
    return [{"field": name, "was": flat(before.get(name)), "is": flat(after.get(name))} for name in names
            if before.get(name) != after.get(name)]


def held(fact) -> dict:
    """What a fact has; of a decoder that is not committed its range means nothing."""
    if fact is None:
        return {}
    return {name: value for name, value in fact.as_dict().items()
            if not isinstance(fact, Decoder) or fact.committed or name not in RANGE}


RANGE = ("base", "size", "ways", "gran", "targets", "skip")  # what a committed decoder holds


def looked_at(was, now) -> list:
    """The fields that are compared: of a decoder that is not committed in both, whether it is, and what the committed one holds. A region
    is known by its base, so its number is none."""
    if isinstance(was, Decoder):
        if was.committed != now.committed:
            return ["committed", "commit", "error", *RANGE]
        if not was.committed:
            return ["committed", "commit", "error"]
        return [it.name for it in fields(was) if it.name != "words"]
    return [it.name for it in fields(was) if not (isinstance(was, Region) and it.name == "name")]


def whole(fact) -> list:
    """The fields by which a fact is told alone: of an idle decoder none."""
    if isinstance(fact, Decoder):
        return ["committed", *RANGE, "lock", "host_only"] if fact.committed else []
    return [it.name for it in fields(fact) if it.name not in ("name", "number") and (not isinstance(fact, Region) or it.name != "base")]


def flat(value):
    """A value in a line: of slots their endpoints and starts."""
    if isinstance(value, list) and value and isinstance(value[0], dict):
        return [f"{it['endpoint']}:{it['start']:#x}" for it in value]
    return value
