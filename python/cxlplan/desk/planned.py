"""`plan`: what a new region needs on the registers as they are, or what stands in its way; and what taking one down would write."""

from ..errors import BadWords, Refusal
from ..explain import reason_words, refusal_words
from ..files import write_beside
from ..facts import Planned, Released
from ..host import Host
from ..incoming import in_bytes
from ..planning import MOST_WAIT, c_text, csv_text, image_with, linux_text, name_of, plan, release, words_text
from .output import Answer
from .showing import decoder_row, region_rows
from .slips import of_plan
from .words import take_host


def arguments(parser) -> None:
    parser.add_argument("words", nargs="+", metavar="HOST LINE",
                        help="LINE is [create] NAME KIND SIZE [gran=G] EP.., the same with ways=N for EP.., or destroy NAME")
    parser.add_argument("--reset", action="store_true", help="on a machine after reset, without an image")
    forms = parser.add_mutually_exclusive_group()
    forms.add_argument("--linux", action="store_true", help="the `cxl create-region` command")
    forms.add_argument("--words", action="store_true", dest="register_writes", help="the register writes, and those that destroy the region")
    forms.add_argument("--c", action="store_true", help="both as C constants")
    forms.add_argument("--csv", action="store_true", help="the writes as CSV")
    forms.add_argument("--image", metavar="FILE", help="makes FILE, the image of the host with the region")


def answer(options) -> Answer:
    host, rest = take_host(options.words, options)
    words = " ".join(rest).split()
    if not words:
        raise BadWords("no LINE: create NAME KIND SIZE EP.., or destroy NAME; see cxldesk plan --help", 1, "missing")
    if words[0] == "destroy":
        return released(host, words, options)
    words = words if words[0] == "create" else ["create", *words]
    try:
        return made(host, in_bytes(" ".join(words)), options)
    except Refusal as refused:
        return refused_answer(host, words, refused)


def made(host: Host, line: str, options) -> Answer:
    if options.image is not None:
        write_beside(options.image, image_with(host, line))
        return Answer({"host": host.name, "image": options.image})
    wants_writes = options.register_writes or options.c or options.csv
    found = plan(host, line, wants_writes)
    said = Answer({"host": host.name, "plan": facts_of(found, wants_writes)})
    if options.linux:
        text = linux_text(host, found, line)
        said.facts["linux"] = text.splitlines()[-1]
        return add_text(said, text)
    if wants_writes:
        return add_text(said, making_text(host, found, options))
    region_rows(said, [found.region])
    if not found.decoders:
        return said.line("Its decoders come from the library: run ./prove --library in the repository, or ./install.")
    return said.rows("decoder", [decoder_row(it) for it in found.decoders])


def released(host: Host, words: list, options) -> Answer:
    if len(words) != 2 or options.linux or options.image is not None:
        raise BadWords("the release of a region is `destroy NAME`, with --words, --c or --csv; see cxldesk plan --help", 1, "usage")
    wants_writes = options.register_writes or options.c or options.csv
    try:
        found = release(host, name_of(" ".join(words)), wants_writes)
    except Refusal as refused:
        return refused_answer(host, words, refused)
    said = Answer({"host": host.name, "release": facts_of(found, wants_writes)})
    if wants_writes:
        return add_text(said, releasing_text(host, found, options))
    region_rows(said, [found.region])
    return said.line("It can be destroyed; --words prints the register writes.")


def facts_of(found, with_writes: bool) -> dict:
    """What is planned or released, without lists of writes that nobody asked for."""
    return {name: fact for name, fact in found.as_dict().items() if with_writes or name not in ("writes", "undo", "enables")}


def making_text(host: Host, found: Planned, options) -> str:
    """The writes that make a region, from reset on, and those that take it down."""
    name, writes = found.region.name, found.enables + found.writes
    if options.csv:
        return csv_text(writes)
    if options.c:
        return c_text(name, ("create", writes), ("destroy", found.undo))
    makes = (f"{name}: {len(writes)} writes of 32 bits make it. Offsets are those in a node's HDM decoder capability structure.\n"
             f"# A commit is done when its word reads as shown, within {MOST_WAIT}; if bit 11 is set then, it has failed.")
    return words_text(host, makes, writes) + "\n" + words_text(host, f"{name}: {len(found.undo)} writes take it down.", found.undo)


def releasing_text(host: Host, found: Released, options) -> str:
    """The writes that take a region down, and those that take all but the last of them back."""
    name = found.region.name
    if options.csv:
        return csv_text(found.writes)
    if options.c:
        return c_text(name, ("destroy", found.writes), ("undo", found.undo))
    ends, back = (f"{name}: {len(found.writes)} writes take it down.",
                  f"{name}: {len(found.undo)} writes take back all but the last of these.")
    return words_text(host, ends, found.writes) + "\n" + words_text(host, back, found.undo)


def add_text(said: Answer, text: str) -> Answer:
    for line in text.rstrip("\n").split("\n"):
        said.line(line)
    return said


def refused_answer(host: Host, asked: list, refused: Refusal) -> Answer:
    """A refusal with what stands in the way, by window and node."""
    means, advice = of_plan(host, asked, refused) or refusal_words(refused)
    words = [reason_words(it, host) for it in refused.reasons]
    reasons = [{**it.as_dict(), "means": told[0], "advice": told[1]} for it, told in zip(refused.reasons, words)]
    said = Answer({"host": host.name, "refused": {**refused.as_dict(), "means": means, "advice": advice, "reasons": reasons}}, 8)
    said.line(refused.text.split("\n")[0])
    if means:
        said.line(f"{means[0].upper()}{means[1:]}.").line(f"To do: {advice}.")
    for reason in reasons:
        said.line(f"window {reason['window']}: {reason['means']}. To do: {reason['advice']}.")
    return said
