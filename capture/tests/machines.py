"""What the tests know of the machines: their trees as folders, and what other programs say of them."""

import functools
import importlib.machinery
import importlib.util
import io
import json
import os
import re
import struct
import sys
import tarfile
import tempfile

sys.dont_write_bytecode = True  # leaves no compiled file beside the program
if os.access("/dev/shm", os.W_OK):
    tempfile.tempdir = "/dev/shm"  # a host as files has a thousand, which take a disk far longer than memory

HERE = os.path.dirname(os.path.abspath(__file__))
TOP = os.path.dirname(os.path.dirname(HERE))
TOOLS = os.path.dirname(HERE)
sys.path.insert(0, os.path.join(TOP, "python"))  # where the package cxlplan is
MACHINES = ["x2-hb", "x4-pass-switch", "ram-and-pmem", "single-rp", "x6", "odd-ids"]
HOLES = ["uncommitted-below", "destroyed-below", "destroy-failed"]  # hosts with a decoder released below others
NEWER = ["two-regions", "x4-hb-rp"]  # under a newer Linux
ODD = ["flr-k612", "fw-16k-k612"]  # of whose registers Linux knows less than there is
GIVEN_UP = "fw-empty-locked-k612"  # a host of whose bridge Linux shows no decoder
DEVICES = "sys/bus/cxl/devices"
TABLE = "sys/firmware/acpi/tables/CEDT"


def guide():
    """The text of the guide, chapter by chapter."""
    folder, text = os.path.join(TOP, "docs", "guide"), ""
    for name in sorted(os.listdir(folder)):
        with open(os.path.join(folder, name), encoding="utf-8") as chapter:
            text += chapter.read()
    return text


@functools.lru_cache(maxsize=None)
def load(tool):
    """A tool as a module, once; its file has no suffix."""
    loader = importlib.machinery.SourceFileLoader(tool.replace("-", "_"), os.path.join(TOOLS, tool))
    module = importlib.util.module_from_spec(importlib.util.spec_from_loader(loader.name, loader))
    sys.modules[loader.name] = module
    loader.exec_module(module)
    return module


def path_of(machine, file):
    return os.path.join(HERE, "data", machine, file)


def data_of(machine, file):
    with open(path_of(machine, file), "rb") as opened:
        return opened.read()


def tree_of(machine):
    """The machine's files as they stood below /, by path: a file's bytes, a link's target, None for a folder."""
    return dict(items_of(data_of(machine, "tree.tar.gz")), **{TABLE: data_of(machine, "cedt")})


def attributes_of(copy):
    """What a copy holds of the host's own files: neither its blocks, nor what it says of itself."""
    return {path: item for path, item in items_of(copy).items() if not path.startswith("cxl-capture/")}


def items_of(archive):
    items = {}
    with tarfile.open(fileobj=io.BytesIO(archive)) as opened:
        for member in opened:
            item = opened.extractfile(member).read() if member.isreg() else member.linkname or None
            items[member.name.rstrip("/")] = item
    return items


def live_tree(host):
    """What cxl-capture reads of one of HOLES, NEWER and ODD, as a tree. The copies of the first two are of an earlier
    cxl-capture, which read no regions: these are added as `cxl list` of the same moment shows them."""
    items = items_of(data_of(host, "copy.tar.gz"))
    for listed in objects_of(json.loads(data_of(host, "cxl-list.json"))):
        if "decoder" in listed and "position" not in listed and f"{DEVICES}/{listed['decoder']}" in items:
            folder = folder_of(items, listed["decoder"])
            if not re.match("decoder0", listed["decoder"]):
                items[f"{folder}/region"] = f"{listed.get('region', '')}\n".encode()
            for region in listed.get(f"regions:{listed['decoder']}", []):
                items[f"{DEVICES}/{region['region']}"] = f"../../../../{folder}/{region['region']}"
                commit = {"commit": b"1\n", "reset": b"0\n"}[region["decode_state"]]
                items[f"{folder}/{region['region']}/commit"] = commit
    return items


def folder_of(items, device):
    """Where the link to a device leads in a tree."""
    return os.path.normpath(os.path.join(DEVICES, items[f"{DEVICES}/{device}"]))


def objects_of(item):
    """Each object of a list of `cxl list`, parents first."""
    if isinstance(item, dict):
        yield item
    for part in item.values() if isinstance(item, dict) else item if isinstance(item, list) else []:
        yield from objects_of(part)


def pack(items):
    """A .tar.gz of a tree, as tar makes it."""
    packed = io.BytesIO()
    with tarfile.open(fileobj=packed, mode="w:gz", compresslevel=1) as archive:
        for path, item in items.items():
            member = tarfile.TarInfo(path)
            member.type = {bytes: tarfile.REGTYPE, str: tarfile.SYMTYPE}.get(type(item), tarfile.DIRTYPE)
            member.linkname = item if isinstance(item, str) else ""
            member.size = len(item) if isinstance(item, bytes) else 0
            archive.addfile(member, io.BytesIO(item) if isinstance(item, bytes) else None)
    return packed.getvalue()


def lay(items, folder):
    """A tree in a folder."""
    for path, item in items.items():
        place = os.path.join(folder, path)
        os.makedirs(place if item is None else os.path.dirname(place), exist_ok=True)
        if isinstance(item, str):
            os.symlink(item, place)
        elif item is not None:
            with open(place, "wb") as file:
                file.write(item)
    return folder


def save(data, file):
    with open(file, "wb") as opened:
        opened.write(data)
    return file


# ---- Files that were made.

def read_topology(text):
    """The nodes of a topo.toml that cxl-capture wrote, in order, each with its comment."""
    nodes, comment = [], ""
    for line in text.splitlines():
        if line.startswith("# "):
            comment = line[2:]
        elif line.startswith("[["):
            nodes.append({"kind": line.strip("[]"), "comment": comment})
        elif line:
            key, value = line.split(" = ")
            nodes[-1][key] = (value.strip('"') if value[0] == '"' else
                              value == "true" if value in ("true", "false") else int(value, 0))
    return nodes


def read_image(image, nodes):
    """The blocks of an image.bin, in node order: the words from offset 0, and those of each decoder."""
    assert image[:12] == b"CXLHDM01" + struct.pack("<I", len(nodes))
    at, blocks = 12, []
    for node in nodes:
        count = 1 if "passthrough" in node else node["decoders"]
        words = struct.unpack_from(f"<{4 + 8 * count}I", image, at)
        blocks.append((words[:4], [words[4 + 8 * i:12 + 8 * i] for i in range(count)]))
        at += 4 * len(words)
    assert at == len(image)
    return blocks


# ---- What other programs say.

def registers_of(machine):
    """The components of `regs`: by UID of a bridge, by PCI address of a switch, by serial of an endpoint. Each has its
    PCI path, address, header and capabilities, capability word of the decoders, global control, and the eight words of
    each decoder; no decoder where it has none."""
    components, current = {}, None
    for line in data_of(machine, "regs").decode().splitlines():
        said = dict(re.findall(r"(\S+)=(\S+)", line))
        if line.startswith("component"):
            key = ("endpoint", int(said["serial"])) if "serial" in said else (
                ("switch", said["pci"]) if "pci" in said else ("bridge", int(said["uid"])))
            current = components[key] = {"path": said.get("path", "").split("/"), "decoders": [],
                                         "address": int(said["registers"], 16)}
        elif "cap-header" in line:
            current["header"] = int(said["cap-header"], 16)
            current["capabilities"] = [tuple(int(part, 16) for part in pair.split("@"))
                                       for pair in said["capabilities"].split(",")]
        elif "hdm offset" in line:
            current["capability"], current["global"] = int(said["capability"], 16), int(said["global-control"], 16)
        elif "decoder " in line and "base" in said:
            words = []
            for pair in (said["base"], said["size"]):
                high, low = (int(word, 16) for word in pair.split(":"))
                words += [low, high]
            high, low = (int(word, 16) for word in said["list/skip"].split(":"))
            current["decoders"].append(tuple(words + [int(said["control"], 16), low, high, int(said["reserved"], 16)]))
    return components


def listed_nodes(machine):
    """The nodes that `cxl list` shows, as topo.toml has to have them; port numbers by the PCI paths of `regs`."""
    registers, nodes = registers_of(machine), {}

    def port_of(path, dports):
        return next(dport["id"] for dport in dports if dport["dport"] == path[-2])

    def walk(port, name, dports):
        for child in port.get(f"ports:{port['port']}", []):
            component = registers["switch", child["host"]]
            nodes[child["port"]] = {"kind": "switch", "parent": name, "port": port_of(component["path"], dports),
                                    "decoders": len(component["decoders"])}
            walk(child, child["port"], child["dports"])
        for child in port.get(f"endpoints:{port['port']}", []):
            memory = child["memdev"]
            component = registers["endpoint", memory["serial"]]
            nodes[memory["memdev"]] = {
                "kind": "endpoint", "parent": name, "port": port_of(component["path"], dports),
                "decoders": len(component["decoders"]), "ram": memory.get("ram_size", 0),
                "pmem": memory.get("pmem_size", 0)}

    root = json.loads(data_of(machine, "cxl-list.json"))[0]
    for bridge in root["ports:root0"]:
        uid = next(dport["id"] for dport in root["dports"] if dport["dport"] == bridge["host"])
        decoders = len(registers["bridge", uid]["decoders"])
        nodes[f"hb{uid}"] = {"kind": "bridge", "uid": uid}
        nodes[f"hb{uid}"].update({"decoders": decoders} if decoders else {"passthrough": True})
        walk(bridge, f"hb{uid}", bridge["dports"])
    return nodes


def slot_of(position, window_ways, ways):
    """The first chunk of a region that goes to the device at a position of Linux. Below a window of three ways Linux
    counts the first device of each bridge, then the second; but a bridge deals chunk s to entry s mod 2 of its list."""
    if window_ways != 3:
        return position
    bridge, entry = position % 3, position // 3
    return next(s for s in range(ways) if s % 3 == bridge and s % (ways // 3) == entry)


def listed_regions(machine):
    """The regions that `cxl list` shows, by base: their numbers, and their memory devices by slot."""
    root = json.loads(data_of(machine, "cxl-list.json"))[0]
    decoders = {}

    def walk(item):
        for key, value in item.items():
            for child in value if isinstance(value, list) else []:
                if key.startswith("decoders:endpoint"):
                    decoders[child["decoder"]] = child
                if isinstance(child, dict):
                    walk(child)

    walk(root)
    regions = []
    for window, decoder in enumerate(root["decoders:root0"]):
        targets = {target["id"]: target["position"] for target in decoder["targets"]}
        for region in decoder.get(f"regions:{decoder['decoder']}", []):
            ways = region["interleave_ways"]
            shares = sorted(region["mappings"], key=lambda share: slot_of(share["position"], len(targets), ways))
            regions.append({
                "window": window, "targets": targets, "base": region["resource"], "size": region["size"],
                "ways": ways, "gran": region["interleave_granularity"],
                "kind": decoders[shares[0]["decoder"]]["mode"],
                "slots": [(share["memdev"], decoders[share["decoder"]]["dpa_resource"]) for share in shares]})
    return sorted(regions, key=lambda region: region["base"])
