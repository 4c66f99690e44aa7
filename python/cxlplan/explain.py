"""What rules, refusals, verdicts and faults say, in words, and what to do. The words are those of the guide's tables."""

from .errors import NoEngine

RULES = {
    "K1": ("the image has a block for each node, and in it the node's capability word",
           "the file is of another topology", "capture table, topology and image together"),
    "K2": ("of a block's decoders the first so many are committed, and an endpoint with one decodes",
           "decoders are committed and released in their order, so what stands above a hole may lose bytes",
           "commit the decoder before the named one first, or set bit 1 of the endpoint's global control"),
    "K3": ("commit and committed are equal, no error is set, and a committed decoder is set for host-only memory",
           "a decoder whose commit failed or is not finished carries nothing, and memory of another type is not told here",
           "clear the decoder's control and commit it again, with bit 12 set"),
    "K4": ("the ways and the granularity of a committed decoder are ones that its capability word allows",
           "the hardware has no such ways or granularity, or too few ways",
           "use other ways or another granularity there: a port has 1, 2, 4 or 8 ways and no more than its targets"),
    "K5": ("the address bits by which a committed decoder selects are ones that its block selects by",
           "the hardware does not look at these bits of an address", "use a smaller granularity, or fewer ways"),
    "K6": ("a committed decoder has some bytes, none of them at or above 2^52, and an endpoint's has a multiple of 256 MiB for each of "
           "its ways", "a range without bytes, or one that cannot be dealt evenly, carries nothing whole", "give it another size or base"),
    "K7": ("in a block each committed decoder starts at or above the end of the one before it",
           "an address would be taken by two decoders of one node", "commit the ranges of a block by rising address"),
    "K8": ("an endpoint's share lies in its volatile or in its persistent memory, and in one of them alone",
           "the share would end past the memory of its kind, or lie in both kinds: a skip that is wrong, or too few ways for the size",
           "correct the skip of that decoder or of those before it, or make the region smaller"),
    "K9": ("a committed range lies in one usable window, which permits its kind; in a window of 3, 6 or 12 ways it starts at a multiple "
           "of 768 MiB from the window's base", "the host sends no address of it to this node, or deals it otherwise",
           "move the range, or use a window whose restrictions permit the kind"),
    "K10": ("a port's decoder lists different ports, and each leads to a node with a committed decoder of the same range; and below each "
            "target of the window there is one, too", "addresses are sent where nothing takes them",
            "commit the missing decoders of the range, or correct the target list"),
    "K11": ("a committed decoder is reached: from a target of the window, by decoders of the same range that list the way to it, and its "
            "node does not forward", "no address ever comes to it", "release the decoder, or commit what leads to it"),
    "K12": ("all endpoints of a range have the same kind, and as many ways as lie on the way to them; they interleave by the window's "
            "granularity, and the ports below the window by the bits next to those that are taken above",
            "two host addresses come to one byte of a device, and a store to the one overwrites the other",
            "give the named decoder the ways and the granularity that follow from the window: a port's granularity is the window's, "
            "doubled for each doubling of the ways above it"),
}

REFUSALS = {
    "no such endpoint": ("the name is no endpoint's", "name an endpoint of the topology; a bridge or a switch is none"),
    "no such region": ("no live region has this name", "those of an image are auto0, auto1 and so on, by rising base"),
    "repeat": ("the endpoint stands on the line twice", "name each endpoint once"),
    "ways": ("no region has so many ways", "1, 2, 3, 4, 6, 8, 12 or 16"),
    "size": ("the size is 0, no multiple of 256 MiB for each endpoint, or above 2^52; or 0x is missing in front of it",
             "round the size to 256 MiB times the endpoints, or use fewer of them"),
    "uneven": ("the endpoints do not lie evenly below the node",
               "name as many endpoints below each bridge and below each port that is used"),
    "no-decoder": ("every decoder of the node is committed", "end a region there, or use other endpoints"),
    "span": ("the endpoint has no room of this kind for its share", "make the region smaller, or use endpoints with more memory of the kind"),
    "no-window": ("no window takes the region", "see what is in the way in each window"),
    "no-set": ("no set of so many endpoints has a legal plan in any window",
               "use ways that a window's ways divide, or fewer; make the region smaller; ask for the other kind; leave gran= out. `room` "
               "tells the largest regions that have a plan"),
    "busy": ("a region is being made or ended", "go on with step, or take it back with abort"),
    "name taken": ("a live region has this name", "use another name"),
    "regions full": ("256 regions are live", "end one first"),
    "locked": ("firmware locked this decoder of the region, so it cannot be released", "only a reset releases it"),
    "not last": ("above this decoder of the region another one is committed", "end the region with the last decoders first"),
    "unmapped": ("the address is in no live region", "see the regions; or 0x is missing in front of the address"),
    "no window": ("the address lies in no window that can be used", "see the windows; or 0x is missing in front of the address"),
    "crosses end": ("the last byte is past the end of the region", "ask for a shorter range"),
}

REASONS = {
    "unusable": ("the window cannot be used", "use another window"),
    "kind": ("its restrictions do not permit this kind of memory", "ask for the other kind"),
    "fixed": ("its restrictions fix its configuration", "use another window"),
    "bridges": ("its targets are not exactly the bridges of the endpoints", "name endpoints below exactly its targets"),
    "gran": ("it has more than one way, and another granularity than the stated one", "leave gran= out, or state the window's"),
    "select": ("the node cannot select by the address bits that it would have to", "use fewer endpoints below it, or a smaller granularity"),
    "ways-cap": ("the endpoint cannot have so many ways", "use another number of endpoints, or others"),
    "no-base": ("the region would start at the first address at the least, and end past the second, the window's end",
                "make the region smaller"),
}

VERDICTS = {
    "usable": "can be used",
    "align": "its base is no multiple of 256 MiB",
    "size": "its size is 0, or no multiple of 256 MiB times its ways",
    "too-high": "it ends past 2^52",
    "overlap": "it shares an address with an earlier window",
    "target": "a target is no CXL 2.0 bridge of the table, or no bridge of the topology",
    "repeat": "a target stands in its list twice",
    "maps": "it needs XOR maps, which it has not",
}


CAUSES = {
    "no-chbs": "no CHBS of the table has the target {what}",
    "no-cxl2": "the target {what} is no bridge of CXL 2.0",
    "no-bridge": "the target {what} is no bridge of the topology",
    "no-cxims": "there is no CXIMS of {gran} bytes, which XOR needs",
    "few": "the CXIMS of {gran} bytes has {have} maps, and {ways} ways need {need}",
    "unfit": "of the maps of the CXIMS of {gran} bytes that {ways} ways need, one cannot be used",
}


def verdict_words(window) -> str:
    """Why a window has its verdict."""
    (word, _, what), (cause, *counts) = window.verdict.partition(" "), window.cause.split(" ")
    if cause in CAUSES:
        have, need = counts or ("", "")
        return CAUSES[cause].format(what=what, gran=window.gran, ways=window.ways, have=have, need=need)
    if word == "overlap":
        return f"it shares an address with window {what}"
    if word == "repeat":
        return f"the target {what} stands in its list twice"
    return VERDICTS.get(word, word)


def refusal_words(refusal) -> tuple:
    """What a refusal says, and what to do."""
    if refusal.cause.startswith("bad line"):
        return "the line cannot be read from that byte on", "compare it with the guide; sizes are bytes, and 0x stands before hexadecimal digits"
    if refusal.cause == "span" and "past-ram" in refusal.place:
        return ("what is committed in the endpoint ends past its volatile memory",
                "end the endpoint's pmem regions first, or use other endpoints")
    return REFUSALS.get(refusal.cause, ("", ""))


def window_words(said: str, reason, window) -> str:
    """What is in the way, with what the window has of it."""
    if reason.cause == "unusable":
        return f"{said}: {verdict_words(window)}"
    if reason.cause == "bridges":
        return f"{said}, which are {', '.join(map(str, window.targets))}"
    return f"{said}: it has {window.gran}" if reason.cause == "gran" else said


def reason_words(reason, host) -> tuple:
    """What is in the way in one window, and what to do. Where there is no library, the window is not told."""
    said, advice = REASONS.get(reason.cause, (reason.cause, ""))
    if reason.cause in ("unusable", "bridges", "gran"):
        try:
            said = window_words(said, reason, host.windows[reason.window])
        except NoEngine:
            pass
    elif reason.cause in ("select", "ways-cap"):
        said = f"{reason.place}: {said}"
    elif reason.cause == "no-base":
        start, end = reason.place.split()
        said = f"it would start at {start} at the least, and end past {end}, the window's end"
        if int(start, 16) >= int(end, 16):
            advice = "end the region that lies highest below these nodes first"
    return said, advice


def explained(word: str) -> list:
    """What a rule, a refusal, a reason or a verdict says, and what to do, in sentences; none of another word."""
    if word.upper() in RULES:
        wants, why, advice = RULES[word.upper()]
        return [f"{word.upper()} wants: {wants}.", f"Else: {why}.", f"To do: {advice}."]
    found = [pair for table in (REFUSALS, REASONS) for pair in [table.get(word)] if pair]
    if found:
        return [text for means, advice in found for text in (f"{means[0].upper()}{means[1:]}.", f"To do: {advice}.")]
    return [f"A window's verdict: {VERDICTS[word]}."] if word in VERDICTS else []


EXPLAINED = (*RULES, *dict.fromkeys((*REFUSALS, *REASONS, *VERDICTS)))  # the words of which something is said
