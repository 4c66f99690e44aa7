"""The hosts of the worked cases, and what cxlplan says of them; and hosts as lists of numbers, as files that it reads."""

import os
import struct
import sys

import machines

sys.path.insert(0, os.path.join(machines.TOP, "worked"))
import cases  # noqa: E402 pylint: disable=wrong-import-position
import texts  # noqa: E402 pylint: disable=wrong-import-position

# ---- The hosts of worked/.


def hosts():
    """The table, the topology and the image of each host of a case, once; where a case of a plan has no image, that after reset."""
    found = {}
    for path in cases.case_files([]):
        for case in cases.read_cases(path):
            table, topology, image = (case.files.get(name, b"") for name in cases.FILES)
            if not image and os.path.basename(os.path.dirname(path)) in PLANNED:
                image = reset_image(topology)
            if table[:4] == b"CEDT" and image[:8] == b"CXLHDM01":
                found[table, topology, image] = None
    return list(found)


# The subjects whose hosts are those of plans, mostly without an image.
PLANNED = ("plans", "picks")


def reset_image(topology):
    """The registers after reset, of a topology that worked/ reads itself, and else nothing."""
    try:
        return texts.reset_image(texts.nodes_of(topology.decode()))
    except (texts.Fault, UnicodeDecodeError):
        return b""


def is_plain(image, count):
    """Whether each decoder of an image is as after reset, or is committed for the host alone and not locked."""
    try:
        blocks = blocks_of(image, count)
    except (struct.error, IndexError):
        return False
    return all(not any(words) or words[4] & 0x1f00 == 0x1600 for block in blocks for words in block)


# ---- Hosts as lists of numbers. A node: its capability word, where that of a placeholder is a bridge's that forwards; the number of its
# parent and the port there, where it has one; and its bytes of ram and of pmem, where it is an endpoint. A window: base, size, granularity
# code, 1 for XOR arithmetic, restrictions, and the bridges that it lists.


def name_of(number):
    return f"n{number}"


COUNTS = (1, 2, 4, 6, 8, 10)


def topology_of(nodes):
    text = ""
    for number, node in enumerate(nodes):
        kind = {1: "bridge", 3: "switch", 5: "endpoint"}[len(node)]
        text += f'[[{kind}]]\nname = "{name_of(number)}"\n'
        text += f'parent = "{name_of(node[1])}"\nport = {node[2]}\n' if len(node) > 1 else f"uid = {number}\n"
        if node[0] == 0x10:
            text += "passthrough = true\n"
            continue
        bits = {"low": 8, "high": 9, **({"ways3": 11, "ways16": 12} if len(node) == 5 else {})}
        text += f"decoders = {COUNTS[node[0] & 15]}\n"
        text += "".join(f"{key} = {'true' if node[0] >> bit & 1 else 'false'}\n" for key, bit in bits.items())
        text += f"ram = {node[3]:#x}\npmem = {node[4]:#x}\n" if len(node) == 5 else f"targets = {node[0] >> 4 & 15}\n"
    return text.encode()


def table_of(nodes, windows):
    codes = {1: 0, 2: 1, 4: 2, 8: 3, 16: 4, 3: 8, 6: 9, 12: 10}
    records = b"".join(struct.pack("<BBHIIIQQ", 0, 0, 32, uid, 1, 0, 0x80000000, 0x10000)
                       for uid in range(sum(len(node) == 1 for node in nodes)))
    for base, size, gran, xor, restrict, *targets in windows:
        records += struct.pack("<BBHIQQBBHIHH", 1, 0, 36 + 4 * len(targets), 0, base, size, codes[len(targets)], xor, 0,
                               gran, restrict, 0) + struct.pack(f"<{len(targets)}I", *targets)
    records += struct.pack("<BBHHBBQ", 2, 0, 16, 0, 0, 1, 0x404100)
    table = bytearray(b"CEDT" + struct.pack("<IBB", 36 + len(records), 1, 0) + bytes(26) + records)
    table[9] = -sum(table) % 256
    return bytes(table)


def shown(checked, image, names):
    """What a `show` of each region says that `check` has found in this image, over nodes of these names: how `show`
    prints them is the guide's."""
    text, blocks = "", blocks_of(image, len(names))
    for number, part in enumerate(checked.split("region ")[1:]):
        line, slots = part.split("\n", 1)
        base, _, size, _, window, _, gran, _, ways, kind = line.split(" ")
        text += f"region r{number} {kind} window {window} base {base} size {size} gran {gran} ways {ways}\n"
        for node, decoders in enumerate(blocks):
            for decoder, words in enumerate(decoders):
                if words[4] & 0x400 and words[0] + (words[1] << 32) == int(base, 16):
                    text += f"node {names[node]} {decoder} " + " ".join(f"{word:08x}" for word in words[:7]) + "\n"
        text += slots
    return text


def blocks_of(image, count):
    """The words of each node's decoders."""
    at, blocks = 12, []
    for _ in range(count):
        decoders = COUNTS[struct.unpack_from("<I", image, at)[0] & 15]
        blocks.append([struct.unpack_from("<8I", image, at + 16 + 32 * i) for i in range(decoders)])
        at += 16 + 32 * decoders
    return blocks
