"""Worked cases: what a file of a case says. README.md of this folder has the form."""

import re
import shlex
from pathlib import Path
from typing import NamedTuple, Optional

import texts

TOP = Path(__file__).resolve().parent
FILES = ("table", "topology", "image")
MARKER = re.compile(r"--- (?:(escaped|also|hex) )?(from|case|table|topology|image|fails|ask|answer|hint|leaves)(?: (.*))?")
WITH_REST = ("case", "fails", "ask", "answer")  # what may have words behind its name


class Bad(Exception):
    """A file that is no case, with its name and line."""


class Section(NamedTuple):
    line: int  # of its marker, from 1
    how: Optional[str]
    kind: str
    rest: str
    body: str


class Case(NamedTuple):
    name: str  # the file
    line: int  # of its first section
    title: str
    source: str
    files: dict  # the bytes of table, topology and image, as far as there are any
    words: list
    script: bytes
    fails: list  # the numbers of the register calls that fail, from 1, once the registers were read
    status: int
    answer: bytes
    answer_line: int  # where the expected text begins
    hint: Optional[str]
    hint_line: int
    leaves: Optional[dict]
    leaves_line: int

    def bench_words(self) -> Optional[list]:
        """The files that a session names, and none of another form, or where one of these is not there."""
        names = self.words[1:]
        is_session = self.words[:1] == ["run"] and len(names) in (2, 3) and all(name in self.files for name in names)
        return names if is_session else None


def case_files(subjects: list) -> list:
    """The files of the named subjects, or of all; a subject is a folder here, or a file."""
    found = []
    for subject in subjects or sorted(it.name for it in TOP.iterdir() if it.is_dir() and it.name[:1] not in "._"):
        here = next((it for it in (TOP / subject, Path(subject)) if it.exists()), None)
        if here is None:
            raise Bad(f"{subject}: there is no such subject and no such file")
        found += sorted(here.glob("**/*.case")) if here.is_dir() else [here]
    return found


def read_cases(path: Path) -> list:
    """The cases of a file."""
    name = shown(path)
    try:
        text = path.read_bytes().decode()
    except UnicodeDecodeError:
        raise Bad(f"{name}: no UTF-8") from None
    except OSError as error:
        raise Bad(f"{name}: {error.strerror}") from None
    head, sections = sections_of(name, text)
    title = head.strip().split("\n")[0].strip()
    if not title:
        raise Bad(f"{name}:1: the first line has to be a title")
    at = next((number for number, it in enumerate(sections) if it.kind == "case"), len(sections))
    if at == len(sections):
        return [case_of(name, title, sections)]
    bad = next((it for it in sections[:at] if it.kind not in (*FILES, "from")), None)
    if bad:
        raise Bad(f"{name}:{bad.line}: {bad.kind} stands before the first case, and behind others there is one")
    found, begins = [], [number for number, it in enumerate(sections) if it.kind == "case"]
    for begin, end in zip(begins, [*begins[1:], len(sections)]):
        found.append(case_of(name, sections[begin].rest, sections[:at] + sections[begin + 1:end], sections[begin].line))
    return found


def shown(path: Path) -> str:
    """A file's name, from where the cases lie."""
    try:
        return str(Path(TOP.name) / path.resolve().relative_to(TOP))
    except ValueError:
        return str(path)


def sections_of(name: str, text: str) -> tuple:
    """What stands before the first marker, and the sections. Blank lines at a section's end are not of it."""
    parts: list = [[0, None, "", "", []]]
    for number, line in enumerate(text.split("\n"), 1):
        if line.startswith("---"):
            found = MARKER.fullmatch(line.rstrip())
            if not found:
                raise Bad(f"{name}:{number}: {line[:60]!r} begins no section")
            how, kind, rest = found.groups()
            if rest and kind not in WITH_REST or kind == "case" and not rest:
                raise Bad(f"{name}:{number}: {'a case has a title' if kind == 'case' else f'nothing stands behind {kind}'}")
            parts.append([number, how, kind, rest or "", []])
        else:
            parts[-1][4].append(line)
    for part in parts:
        while part[4] and not part[4][-1].strip():
            part[4].pop()
    bodies = ["".join(line + "\n" for line in part[4]) for part in parts]
    return bodies[0], [Section(*part[:4], body) for part, body in zip(parts[1:], bodies[1:])]


def case_of(name: str, title: str, sections: list, line: int = 1) -> Case:
    """The case that sections say; of two of a kind the later one counts, but for what adds to the earlier."""
    held: dict = {}
    for it in sections:
        if it.how == "also":
            if it.kind not in ("table", "image") or it.kind not in held:
                raise Bad(f"{name}:{it.line}: also adds to the table or the image above, and here is none")
            held[it.kind] = [*held[it.kind], it]
        else:
            held[it.kind] = [it]
    for kind in ("from", "ask", "answer"):
        if kind not in held or kind == "from" and not held[kind][0].body.strip():
            raise Bad(f"{name}:{line}: the case has no {kind}")
    ask, answer = held["ask"][0], held["answer"][0]
    files = {kind: guarded(name, held[kind], lambda it, kind=kind: file_of(kind, it, held.get("topology"))) for kind in FILES if kind in held}
    status, text = answered(name, answer)
    hint, leaves = held.get("hint"), held.get("leaves")
    return Case(name, line, title, " ".join(held["from"][0].body.split()), files, words_of(name, ask),
                guarded(name, [ask], lambda it: raw(it[0])), fails_of(name, held.get("fails")), status, text, answer.line + 1,
                hint[0].body if hint else None, hint[0].line + 1 if hint else 0,
                guarded(name, leaves, lambda it: texts.decoders_in(topology_in(held.get("topology")), it[0].body)) if leaves else None,
                leaves[0].line + 1 if leaves else 0)


def guarded(name: str, sections: list, make):
    """What is made of sections; the line of a fault is the file's."""
    try:
        return make(sections)
    except texts.Fault as fault:
        lines = [it.line + 1 + number for it in sections for number in range(it.body.count("\n") or 1)]
        raise Bad(f"{name}:{lines[min(fault.line, len(lines) - 1)]}: {fault}") from None


def raw(section: Section) -> bytes:
    if section.how == "hex":
        return texts.bytes_of(0, "".join(re.sub("#.*", "", section.body).split()))
    if section.how == "escaped":
        return texts.unescaped(section.body)
    return section.body.encode()


def topology_in(sections: Optional[list]) -> str:
    if not sections:
        raise texts.Fault(0, "decoders want a topology")
    return raw(sections[0]).decode("utf-8", "replace")


def file_of(kind: str, sections: list, topology: Optional[list]) -> bytes:
    """A file's bytes: of a topology as they stand, of a table and an image by their text."""
    if kind == "topology" or sections[0].how == "hex":
        return raw(sections[0])
    text = "".join(raw(it).decode("utf-8", "replace") for it in sections)
    return texts.table_of(text) if kind == "table" else texts.image_of(topology_in(topology), text)


def words_of(name: str, ask: Section) -> list:
    try:
        return shlex.split(ask.rest)
    except ValueError:
        raise Bad(f"{name}:{ask.line}: a quote is not closed") from None


def answered(name: str, answer: Section) -> tuple:
    """The expected status and text. A text of the kind `table` is the table's bytes."""
    found = re.fullmatch("([0-9]{1,3})?(?: ?(table))?", answer.rest)
    if not found or int(found[1] or 0) > 255:
        raise Bad(f"{name}:{answer.line}: behind answer stand an exit status, or nothing for 0, and table where the text is one")
    text = guarded(name, [answer], lambda it: texts.table_of(raw(it[0]).decode()) if found[2] else raw(it[0]))
    return int(found[1] or 0), text


def fails_of(name: str, fails: Optional[list]) -> list:
    if not fails:
        return []
    return guarded(name, fails, lambda it: [texts.number_of(0, word) for word in it[0].rest.split()])
