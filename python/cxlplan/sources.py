"""How the registers of a captured host are known: what sources.json says, which cxl-capture puts beside a host's files.

A folder without it was made by hand or by an earlier cxl-capture; its files are judged as they are."""

import json
import os
from dataclasses import dataclass
from typing import Any, Optional

from .errors import BadFile
from .incoming import printable, read_within

FILE, SCHEMA = "sources.json", "cxl-capture/1"
MOST_SOURCES = 1 << 23  # bytes of one: 10,240 decoders take 3 MB
KINDS = ("read", "told", "unknown")
MOST_TOLD = 12  # places that are told of, one by one
VERDICT_WORDS = {"sound": "sound", "told": "sound as Linux tells it", "unknown": "not known", "outside": "outside the profile",
                 "breach": "broken", "fault": "not read"}
OPEN = 13  # the exit status where the registers are not known, or are not all that the host has


@dataclass(frozen=True)
class Unknown:
    """A decoder whose registers are not known, or with no number the words before a node's decoders, and why."""
    node: str
    decoder: Optional[int]
    why: str

    def as_dict(self) -> dict:
        return {"node": self.node, "decoder": self.decoder, "why": self.why}


@dataclass(frozen=True)
class Sources:
    """Where the registers of a host come from. `known` is the worst source of one of them: read from the hardware, told by Linux, or
    unknown. `told` counts the decoders that were told, of `decoders`."""
    known: str
    decoders: int = 0
    told: int = 0
    unknown: tuple = ()
    outside: tuple = ()  # what the host uses and the profile does not know, a text each
    left_out: tuple = ()  # what the host may use and the files do not hold, a text each

    @property
    def is_open(self) -> bool:
        """Whether nothing can be said of the host by its files alone."""
        return self.known == "unknown" or bool(self.outside or self.left_out)

    def verdict(self, of_files: str) -> str:
        """The verdict on the host, by that on its files, which is sound, breach or fault: also told, unknown and outside."""
        if self.outside:
            return "outside"
        if of_files == "fault":
            return of_files
        if self.is_open:
            return "unknown"
        return "told" if self.known == "told" and of_files == "sound" else of_files

    def lines(self, of_files: str = "") -> list:
        """What there is to say of them, a line each, beside the verdict on the files where one is told; none where all were read."""
        found = [f"Outside the profile: {text}" for text in self.outside] + [f"Not in the files: {text}" for text in self.left_out]
        found += [f"Not known: {place_words(it)}: {it.why}" for it in self.unknown]
        if len(found) > MOST_TOLD:
            found[MOST_TOLD:] = [f"{len(found) - MOST_TOLD} more such places stand in {FILE}."]
        if self.is_open and of_files == "breach":
            found.append("So the breach may be one of what is not known.")
        if self.known == "told":
            front = "Sound as" if self.verdict(of_files) == "told" else "As"
            ends = ", and Linux cannot see a reset or a failed release" if of_files else ""
            found.append(f"{front} Linux tells it: {self.told} of {self.decoders} decoders were not read{ends}.")
        return found

    def as_dict(self) -> dict:
        return {"known": self.known, "decoders": self.decoders, "told": self.told, "unknown": [it.as_dict() for it in self.unknown],
                "outside": list(self.outside), "left_out": list(self.left_out)}


def place_words(it: Unknown) -> str:
    return f"decoder {it.decoder} of {it.node}" if it.decoder is not None else f"the capability words of {it.node}"


def sources_of(folder: str) -> Optional[Sources]:
    """What the folder of a capture says; None where it says nothing, and where it cannot be read that nothing is known."""
    if not os.path.lexists(f"{folder}/{FILE}"):
        return None
    try:
        return read(json.loads(read_within(folder, FILE, MOST_SOURCES)))
    except BadFile as fault:
        return unreadable(fault.text)
    except (ValueError, KeyError, TypeError, RecursionError):
        return unreadable(f"{FILE} is none that cxl-capture wrote")


def unreadable(why: str) -> Sources:
    return Sources("unknown", left_out=(f"{printable(why)}, so it is not known where the registers come from",))


def read(said: Any) -> Sources:
    """The same of what was read; what is not of its form is an exception."""
    if said["schema"] != SCHEMA or said["known"] not in KINDS:
        raise ValueError
    unknown, decoders, told = [], 0, 0
    for node in said["nodes"]:
        name = text(node["node"])
        if node["source"] == "unknown":
            unknown.append(Unknown(name, None, text(node["why"])))
        for decoder in node["decoders"]:
            decoders += 1
            if decoder["source"] == "unknown":
                unknown.append(Unknown(name, whole(decoder["decoder"]), text(decoder["why"])))
            elif decoder["source"] == "told":
                told += 1
            elif decoder["source"] != "read":
                raise ValueError
    known = "unknown" if unknown else said["known"]
    return Sources(known, decoders, told, tuple(unknown), tuple(text(it["text"]) for it in said["outside"]),
                   tuple(text(it["text"]) for it in said["left_out"] if it["matters"]))


def text(said: Any) -> str:
    """A text on one line."""
    return printable(said.rstrip(".")) if isinstance(said, str) else "no reason is told"


def whole(said: Any) -> int:
    if not isinstance(said, int):
        raise TypeError
    return said
