"""Hosts that nobody has: as large as a test asks for, and one whose hardware is a tree of files."""

import itertools
import json
import os
import posixpath
import re
import struct

import machines

ROOT = "sys/devices/platform/ACPI0017:00/root0"
DECODERS = 4  # of each node; the first of an endpoint's is committed
QUARTER = 0x10000000  # bytes, of which each endpoint has as many in volatile memory


def made_table(bridges):
    records = b"".join(struct.pack("<BBHIIIQQ", 0, 0, 32, uid, 1, 0, (uid << 16) + (1 << 32), 1 << 16)
                       for uid in range(bridges))
    table = bytearray(b"CEDT" + struct.pack("<I", 36 + len(records)) + b"\1" + bytes(27) + records)
    table[9] = -sum(table) % 256
    return bytes(table)


def made_tree(bridges, switches, endpoints):
    """The tree of a host with so many switches below each bridge, and so many endpoints below each switch."""
    items, numbers, memories = {machines.TABLE: made_table(bridges)}, itertools.count(1), itertools.count()

    def lead(path, target):
        items[path] = "../" * path.count("/") + target

    def device(name, folder, **attributes):
        lead(f"{machines.DEVICES}/{name}", folder)
        items.update({f"{folder}/{key}": f"{value}\n".encode() for key, value in attributes.items()})

    def port(kind, parent, dport, uport):
        number, committed = next(numbers), int(kind == "endpoint")
        folder = f"{parent}/{kind}{number}"
        device(f"{kind}{number}", folder, decoders_committed=committed)
        for link in (f"{parent}/dport{dport}", f"{folder}/parent_dport"):
            lead(link, f"{uport}/above")
        items[f"{uport}/above"] = None
        for i in range(DECODERS):
            size = QUARTER if i < committed else 0
            device(f"decoder{number}.{i}", f"{folder}/decoder{number}.{i}", start=number << 28, size=size,
                   interleave_ways=1, interleave_granularity=256, locked=0, target_type="expander", target_list="",
                   dpa_resource=0, dpa_size=size)
        return folder

    device("root0", ROOT)
    for b in range(bridges):
        bridge = port("port", ROOT, b, f"sys/devices/b{b}")
        lead(f"{bridge}/uport", f"sys/devices/b{b}/above")
        for s in range(switches):
            switch = port("port", bridge, s, f"sys/devices/b{b}s{s}")
            lead(f"{switch}/uport", f"sys/devices/b{b}s{s}/above")
            for e in range(endpoints):
                endpoint, memory = port("endpoint", switch, e, f"sys/devices/b{b}s{s}e{e}"), next(memories)
                lead(f"{endpoint}/uport", f"sys/devices/b{b}s{s}e{e}/mem{memory}")
                device(f"mem{memory}", f"sys/devices/b{b}s{s}e{e}/mem{memory}", **{
                    "serial": memory, "ram/size": QUARTER, "pmem/size": 0})
    return items


def made_list(bridges, switches, endpoints):
    """What `cxl list -vvv` would print of such a host."""
    numbers, memories = itertools.count(1), itertools.count()

    def port(kind, host, children):
        name = f"{kind}{next(numbers)}"
        below, dports = children() if children else ({}, [])
        decoders = [{"decoder": f"decoder{name[len(kind):]}.{i}", "interleave_ways": 1, "state": "disabled"}
                    for i in range(DECODERS)]
        if kind == "endpoint":
            decoders[0].update({"resource": int(name[8:]) << 28, "size": QUARTER, "region": f"region{name[8:]}",
                                "dpa_resource": 0, "dpa_size": QUARTER, "mode": "ram"})
        return {kind: name, "host": host, "dports": dports, f"decoders:{name}": decoders,
                **{f"{key}:{name}": value for key, value in below.items()}}

    def endpoint(b, s, e):
        memory = next(memories)
        return {"memdev": {"memdev": f"mem{memory}", "ram_size": QUARTER, "serial": memory,
                           "host": f"{b:04x}:{s + 1:02x}:{e >> 3:02x}.{e & 7}"},
                **port("endpoint", f"mem{memory}", None)}

    def below_switch(b, s):
        return {"endpoints": [endpoint(b, s, e) for e in range(endpoints)]}, [
            {"dport": f"{b:04x}:{s + 128:02x}:{e >> 3:02x}.{e & 7}", "id": e} for e in range(endpoints)]

    def below_bridge(b):
        return {"ports": [port("port", f"{b:04x}:{s + 64:02x}:00.0", lambda: below_switch(b, s))
                          for s in range(switches)]}, [
            {"dport": f"{b:04x}:00:{s:02x}.0", "id": s} for s in range(switches)]

    ports = [port("port", f"pci{b:04x}:00", lambda: below_bridge(b)) for b in range(bridges)]
    regions = [{"region": part["region"], "decode_state": "commit"} for part in machines.objects_of(ports)
               if "region" in part]
    return json.dumps([{
        "bus": "root0", "dports": [{"dport": f"pci{b:04x}:00", "id": b} for b in range(bridges)], "ports:root0": ports,
        "decoders:root0": [{"decoder": "decoder0.0", "regions:decoder0.0": regions}]}]).encode()


# ---- Hardware as files.

def lay_hardware(machine, host):
    """The registers of a machine as files below `host`, where its tree stands: /dev/mem for the bridges, and BAR 0 of
    each switch and endpoint, whose configuration space is the machine's own."""
    devices = pci_devices(host)
    os.makedirs(os.path.join(host, "dev"))
    for (kind, _), component in machines.registers_of(machine).items():
        if kind == "bridge":
            put_words(os.path.join(host, "dev", "mem"), component["address"], component_words(component))
        else:
            put_words(os.path.join(devices[component["path"][-1]], "resource0"), 0, component_words(component))


def lay_image(machine, host):
    """The registers of a machine of which there is an image, in the same files below `host`. The configuration space of
    an endpoint holds nothing but where its registers are."""
    folders = {posixpath.basename(folder): folder for folder, _, _ in os.walk(host)}
    nodes = machines.read_topology(machines.data_of(machine, "topo.toml").decode())
    table, bases, at = machines.data_of(machine, "cedt"), {}, 36
    while at < len(table):
        kind, length, uid = struct.unpack_from("<BxHI", table, at)
        bases.update({uid: struct.unpack_from("<Q", table, at + 16)[0]} if kind == 0 else {})
        at += length
    os.makedirs(os.path.join(host, "dev"))
    for node, (head, decoders) in zip(nodes, machines.read_image(machines.data_of(machine, "registers.bin"), nodes)):
        component = {"header": 1 << 24 | 0x10001, "capabilities": [(5, 0x128)], "capability": head[0],
                     "global": head[1], "decoders": decoders}
        if node["kind"] == "bridge":
            put_words(os.path.join(host, "dev", "mem"), bases[node["uid"]], component_words(component))
        else:
            device = folders[re.search("PCI ([^ ,]+)", node["comment"]).group(1)]
            put_words(os.path.join(device, "config"), 0x100, LOCATOR)
            put_words(os.path.join(device, "resource0"), 0, component_words(component))


# A register locator, the DVSEC 8 of CXL: component registers, 1, at offset 0 of BAR 0.
LOCATOR = [0x10023, 20 << 20 | 0x1e98, 8, 1 << 8, 0]


def pci_devices(host):
    """The folder of each PCI device by its address."""
    return {posixpath.basename(folder): folder for folder, _, files in os.walk(host) if "config" in files}


def put_words(file, at, words):
    """Words at a place of a file, which is sparse."""
    with open(os.open(file, os.O_RDWR | os.O_CREAT), "r+b") as opened:
        opened.truncate(max(os.path.getsize(file), at + (1 << 16)))
        opened.seek(at)
        opened.write(struct.pack(f"<{len(words)}I", *words))


def component_words(component):
    """The first words of the component registers: at 0x1000 their header with the capabilities, in which 5 is that of
    HDM decoders."""
    words = [0] * 0x400 + [component["header"]] + [0] * 0x3ff
    for i, (kind, place) in enumerate(component["capabilities"]):
        words[0x401 + i] = place << 20 | 1 << 16 | kind
        if kind == 5:
            at = 0x400 + place // 4
            block = [component["capability"], component["global"], 0, 0]
            block += [word for decoder in component["decoders"] for word in decoder]
            words[at:at + len(block)] = block
    return words
