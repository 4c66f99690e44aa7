"""What the sources say of themselves, for the scripts beside this file: each crate's public functions with their comments and
clauses, and its definitions with theirs."""
import os
import re

TOP = os.path.dirname(os.path.dirname(os.path.realpath(__file__)))
CRATES = f"{TOP}/crates"


def read(path):
    with open(path, encoding="utf-8") as file:
        return file.read()


def uses():
    """Each crate, in the order of crates.txt, with the libraries in its line."""
    lines = [line.partition("#")[0].partition(":") for line in read(f"{TOP}/crates.txt").split("\n")]
    return {head.split()[0]: rest.split() for head, colon, rest in lines if colon}


def files_below(folder, ending):
    for at, folders, names in os.walk(folder):
        folders[:] = sorted(it for it in folders if it != "out")
        for name in sorted(names):
            if name.endswith(ending):
                yield os.path.join(at, name)


def root_of(crate):
    """The file with which a crate begins."""
    return next(it for it in (f"{CRATES}/{crate}/src/lib.rt", f"{CRATES}/{crate}/src/main.rt") if os.path.exists(it))


def head_of(path, mark):
    """What a file says of itself before all else, in one line."""
    said = []
    for line in read(path).split("\n"):
        if not line.startswith(mark):
            break
        said.append(line[len(mark):].strip())
    return " ".join(said)


def purpose(crate):
    """The first sentence of what a crate says of itself."""
    return re.match(r".*?(?=\.(?: |$))", head_of(root_of(crate), "//!"))[0]


def shown_by(crate):
    """The names that a crate shows to others, declared in its root or passed on from its own files."""
    text = read(root_of(crate))
    names = set(re.findall(r"^pub (?:fn|struct|enum|trait|const|type) (\w+)", text, re.M))
    for group in re.findall(r"^pub use ([^;]+);", text, re.M):
        names |= set(re.findall(r"\w+", group))
    return names


class Call:
    """A public function: its comment, and its clauses, each with the comment that stands over it or over the ones before it."""

    def __init__(self, name, said):
        self.name, self.said, self.clauses = name, said, []

    def names(self):
        return {name for name, _ in self.clauses}


def calls(crate):
    """The public functions of a crate in the order of its files, each by its name, or by type and name."""
    shown, found = shown_by(crate), {}
    for path in files_below(f"{CRATES}/{crate}/src", ".rt"):
        owner, is_trait, call, said, over = None, False, None, [], []
        for line in read(path).split("\n"):
            bare = line.strip()
            head = re.match(r"(?:pub(?:\(crate\))? )?(impl|trait)\b(?:<[^>]*>+)? (?:[\w:<>, ]+ for )?(\w+)", line)
            start = re.match(r"\s*(pub )?(?:const )?(extern \"C\" )?fn (\w+)", line)
            clause = re.match(r"\s*ensures (?:(\w+) )?\{", line)
            if head:
                owner, is_trait = head[2], head[1] == "trait" or " for " in line
            elif line == "}":
                owner, call = None, None
            if start:
                # an export for C is open wherever it stands
                is_open = start[2] or (start[1] or is_trait) and (owner or start[3]) in shown
                name = f"{owner}::{start[3]}" if owner else start[3]
                call, over = (found.setdefault(name, Call(name, " ".join(said))) if is_open else None), []
            elif call and clause:
                call.clauses.append((clause[1] or "", " ".join(over)))
            elif call and re.fullmatch(r"\{\}?", bare):
                call = None
            elif call and bare.startswith("// "):
                over = (over if is_comment else []) + [bare[3:]]
            elif not bare:
                over = []
            is_comment = bare.startswith("// ")
            if bare.startswith("/// "):
                said = said + [bare[4:]]
            elif not bare.startswith("#["):
                said = []
    return found


DEFINES = re.compile(r"(?:(?:abbrev|opaque|unfoldable) )*pub (?:(?:abbrev|opaque|unfoldable) )*(?:(?:record|data|type|enum) )?(\S+) ")


def files_of_definitions(crate):
    """The files of a crate's public definitions, in the order in which its own list names them; those for inner calls and proofs
    alone are left out."""
    def below(folder, listing):
        for name in re.findall(r"^pub mod (\w+)", read(listing), re.M):
            if name == "inner":
                continue
            if os.path.exists(f"{folder}/{name}.antt") and not os.path.isdir(f"{folder}/{name}"):
                yield f"{folder}/{name}.antt"
            else:
                yield from below(f"{folder}/{name}", f"{folder}/{name}.antt")

    specs = f"{CRATES}/{crate}/specs"
    return below(specs, f"{specs}/Lib.antt") if os.path.exists(f"{specs}/Lib.antt") else iter(())


FIELD = re.compile(r"  (?:pub )?(\S+) : ")


class Definition:
    """A public definition: the comment over it, and its fields or cases, each with the comment that stands over it or over the ones
    before it."""

    def __init__(self, name, said):
        self.name, self.said, self.parts = name, said, []


def definitions(path):
    """The public definitions of a file in its order."""
    found, said, over, is_comment = [], [], [], False
    for line in read(path).split("\n"):
        defines, field = DEFINES.match(line), FIELD.match(line)
        if line.startswith("-- "):
            said = said + [line[3:]]
        elif defines and defines[1] not in ("mod", "use"):
            found.append(Definition(defines[1], " ".join(said)))
            over = []
        elif line.startswith("  -- ") and found:
            over = (over if is_comment else []) + [line[5:]]
        elif field and found:
            found[-1].parts.append((field[1], " ".join(over)))
        elif not line.strip():
            over = []
        is_comment = line.startswith("  -- ")
        if not line.startswith("-- "):
            said = []
    return found
