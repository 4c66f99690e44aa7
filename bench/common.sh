# What the measurements share; each of them sources it.
#
# top     the repository
# work    a folder for what a script makes, which is taken away when it ends
top="$(cd "$(dirname "${BASH_SOURCE[0]}")/.." && pwd)"
work="$(mktemp -d)"
trap 'rm -rf "$work"' EXIT

# with_program    the path of the program that the variable CXLPLAN names, or else of this repository's, in `cxlplan`
with_program() {
    [[ -n "${CXLPLAN:-}" ]] || "$top/cxlplan" --version >"$work/version"
    # shellcheck disable=SC2034 # for the script that sources this
    cxlplan="$(realpath "${CXLPLAN:-$top/crates/cxlplan/out/cxlplan}")"
}

# needs_valgrind    ends the script where there is no valgrind
needs_valgrind() {
    command -v valgrind >/dev/null || {
        echo "$(basename "$0"): valgrind is not there" >&2
        exit 2
    }
}

# is_number_of_runs WORD    ends the script where the word is none
is_number_of_runs() {
    [[ "$1" =~ ^[1-9][0-9]*$ ]] || {
        echo "$(basename "$0"): $1 is no number of runs" >&2
        exit 2
    }
}

# What scripts in Python share: tables, a host at the limit of decoders, and the time of a run.
cat >"$work/shared.py" <<'END'
import os
import struct

UNIT = 2**28
# A group of nodes: a bridge with two switches, and each of these with eight endpoints.
GROUP, SWITCHES, ENDPOINTS = 19, 2, 8
WAYS = SWITCHES * ENDPOINTS
SIZE = WAYS * UNIT
# Each group of a full host has ten regions of sixteen ways, one for each decoder, in a window of its own.
REGIONS = 10
WINDOW = REGIONS * SIZE
PORT, ENDPOINT = 0x385, 0x1B05


def put(path, made):
    with open(path, "wb") as it:
        it.write(made if isinstance(made, bytes) else made.encode())
    return path


def chbs(uid):
    return struct.pack("<BBHIIIQQ", 0, 0, 32, uid, 1, 0, 2**50 + uid * 2**16, 2**16)


def cedt(records):
    made = bytearray(struct.pack("<4sIBB26x", b"CEDT", 36 + len(records), 1, 0) + records)
    made[9] = -sum(made) % 256
    return bytes(made)


def window_over(base, size, uid, code=0):
    return struct.pack("<BBHIQQBBHIHHI", 1, 0, 40, 0, base, size, 0, 0, 0, code, 0x0E, 0, uid)


def table(bridges, windows):
    """The bridges, and windows of one way of this base, these bytes, the bridge of this UID, and this granularity code or 0."""
    return cedt(b"".join(chbs(uid) for uid in range(bridges)) + b"".join(window_over(*it) for it in windows))


def tree(bridges, switches, ends):
    lists = (("bridge", bridges), ("switch", switches), ("endpoint", ends))
    return "".join(f"{name} = [\n  {', '.join(nodes)}\n]\n" for name, nodes in lists)


def groups_of(nodes, memory):
    """As many groups as there is room for, with this memory of an endpoint by its group, and idle endpoints beside them."""
    groups = range(nodes // GROUP)
    bridges = [f'{{ name = "b{g}", uid = {g}, decoders = 10 }}' for g in groups]
    switches = [f'{{ name = "s{g}_{s}", parent = "b{g}", port = {s}, decoders = 10 }}' for g in groups for s in range(SWITCHES)]
    ends = [
        f'{{ name = "e{g}_{s}_{e}", parent = "s{g}_{s}", port = {e}, decoders = 10, {memory(g)} }}'
        for g in groups
        for s in range(SWITCHES)
        for e in range(ENDPOINTS)
    ]
    idle = range(nodes % GROUP)
    ends += [f'{{ name = "x{i}", parent = "b0", port = {SWITCHES + i}, decoders = 10, ram = {UNIT} }}' for i in idle]
    return tree(bridges, switches, ends)


def base_of(group, region):
    return (group + 1) * WINDOW + region * SIZE


def block(cap, group, control, tail):
    words = [cap, 2 * (cap == ENDPOINT), 0, 0]
    for r in range(REGIONS):
        base = base_of(group, r)
        words += [base & 0xF0000000, base >> 32, SIZE & 0xF0000000, SIZE >> 32, control, tail & 0xFFFFFFFF, tail >> 32, 0]
    return struct.pack(f"<{len(words)}I", *words)


def full_host(nodes):
    """A table, a topology and an image in which each decoder of each group is committed, and those of idle endpoints are not."""
    groups = range(nodes // GROUP)
    two, eight = (int.from_bytes(bytes(range(n)), "little") for n in (SWITCHES, ENDPOINTS))
    blocks = [block(PORT, g, 0x1610, two) for g in groups]
    blocks += [block(PORT, g, 0x1631, eight) for g in groups for _ in range(SWITCHES)]
    blocks += [block(ENDPOINT, g, 0x1640, 0) for g in groups for _ in range(WAYS)]
    blocks += [struct.pack("<I", ENDPOINT) + bytes(12 + 32 * REGIONS)] * (nodes % GROUP)
    image = struct.pack("<8sI", b"CXLHDM01", nodes) + b"".join(blocks)
    return table(len(groups), [(base_of(g, 0), WINDOW, g) for g in groups]), groups_of(nodes, lambda g: f"ram = {REGIONS * UNIT}"), image


def regions_of(nodes):
    """What `check` answers of a full host."""
    lines = []
    for g in range(nodes // GROUP):
        for r in range(REGIONS):
            lines.append(f"region {base_of(g, r):#x} size {SIZE:#x} window {g} gran 256 ways {WAYS} ram\n")
            lines += [f"slot {slot} e{g}_{slot % SWITCHES}_{slot // SWITCHES} {r * UNIT:#x}\n" for slot in range(WAYS)]
    return "".join(lines)


def with_control(nodes, image, control):
    """The image of a full host with another control word in the last decoder of the last group, and that decoder's name."""
    last = nodes // GROUP - 1
    at = 12 + (16 + 32 * REGIONS) * (last + 1) * GROUP - 16
    assert struct.unpack_from("<I", image, at)[0] == 0x1640
    return image[:at] + struct.pack("<I", control) + image[at + 4 :], f"e{last}_{SWITCHES - 1}_{ENDPOINTS - 1} {REGIONS - 1}"


def timed(words, out):
    """Status, text, and seconds of the processor, of one run that writes to the file."""
    child = os.fork()
    if child == 0:
        os.dup2(os.open(out, os.O_WRONLY | os.O_CREAT | os.O_TRUNC), 1)
        os.execv(words[0], words)
    _, status, used = os.wait4(child, 0)
    with open(out) as it:
        return (os.waitstatus_to_exitcode(status), it.read()), used.ru_utime + used.ru_stime
END

# begin_program NAME USES CRATE..    a program without code in the folder `program`, which uses the libraries in USES,
#                                    beside copies of these crates of the repository
begin_program() {
    local name="$1" uses="$2" crate part
    shift 2
    program="$work/crates/$name"
    mkdir -p "$program/src"
    touch "$program/stdin" "$program/stdout"
    cp "$top/HANDLES" "$work/"
    for crate in "$@"; do
        mkdir "$work/crates/$crate"
        for part in src specs proofs; do
            [[ ! -d "$top/crates/$crate/$part" ]] || cp -r "$top/crates/$crate/$part" "$work/crates/$crate/"
        done
        grep "^$crate:" "$top/crates.txt" >>"$work/crates.txt"
    done
    echo "$name: $uses" >>"$work/crates.txt"
}

# build_program WORD..    proves and builds the program, and runs it once with these words
build_program() {
    echo "$(basename "$0"): proving and building a program, which takes some minutes" >&2
    if ! (cd "$program" && rt run ${1+-- "$@"}) >"$work/log" 2>&1 </dev/null; then
        cat "$work/log" >&2
        exit 1
    fi
}
