"""What stood in the way, as exceptions: each has the program's exit status, a cause and a place in the program's words."""

from typing import Optional


class CxlError(Exception):
    """Why there is no answer. `text` is what the program said of it, without a line's end; `hint` what may be meant instead."""

    def __init__(self, text: str, status: int = 1, cause: str = "", place: str = "") -> None:
        super().__init__(text)
        self.text, self.status, self.cause, self.place, self.hint = text, status, cause, place, ""
        self.sources: dict = {}  # how the registers of the captures are known that it is about

    def as_dict(self) -> dict:
        said = {"error": type(self).__name__, "text": self.text, "status": self.status, "cause": self.cause, "place": self.place}
        return {**said, "hint": self.hint} if self.hint else said


class NoEngine(CxlError):
    """There is neither the library nor the program."""


class BadWords(CxlError):
    """Words that are no request: a number, a name or a line that cannot be read."""


class BadFile(CxlError):
    """A file that cannot be read, is too large, or is not to be written."""


class BadTable(CxlError):
    """Bytes that are no CEDT."""


class BadTopology(CxlError):
    """A text that is no topology."""


class BadImage(CxlError):
    """Bytes that are no image over the topology."""


class Breach(CxlError):
    """Registers that break a rule: the first rule that is broken, with the node and its decoder."""

    def __init__(self, text: str, rule: str, node: str, decoder: int) -> None:
        super().__init__(text, 8, rule, f"{node} {decoder}")
        self.rule, self.node, self.decoder = rule, node, decoder


class Refusal(CxlError):
    """A request that is refused. `reasons` tells for each window what is in the way, where a plan is refused for these."""

    def __init__(self, text: str, cause: str = "", place: str = "", reasons: Optional[list] = None) -> None:
        super().__init__(text, 8, cause, place)
        self.reasons = reasons or []

    def as_dict(self) -> dict:
        return {**super().as_dict(), "reasons": [reason.as_dict() for reason in self.reasons]}


class NoMemory(CxlError):
    """Memory ran out."""


class Broken(CxlError):
    """An answer that cannot be read, or a program that ended without one: a fault of this package or of its engine."""


# The error class and the words in front of the fault, by exit status.
BY_STATUS = {1: (BadWords, ""), 2: (BadFile, "error: "), 3: (BadTable, "error: table "),
             4: (BadTopology, "error: topology "), 5: (Broken, "error: "), 7: (Broken, "error: "),
             9: (NoMemory, ""), 10: (BadImage, "error: image "), 11: (BadWords, "error: "), 12: (BadFile, "error: ")}


def fault_of(status: int, text: str) -> CxlError:
    """The exception for what the program says with a status that is neither 0 nor 8."""
    kind, front = BY_STATUS.get(status, (Broken, ""))
    last = text.rstrip("\n").rsplit("\n", 1)[-1]
    said = last[len(front):] if last.startswith(front) else last
    cause, _, place = said.partition(" ")
    if status == 9:
        last, cause = "memory ran out", "memory"
    return kind(last or f"ended with status {status}", status, cause, place)
