#!/usr/bin/env python3
"""Registers for cxlbench, at the other end of its two pipes: a plain model of HDM decoders, to be copied and changed.

    mkfifo to from
    registers.py --reset examples/four-endpoints.image to from &
    cxlbench examples/four-endpoints.cedt examples/four-endpoints.toml to from < SCRIPT

The registers are those of the image; with --reset they are as after reset, and the image says only which nodes there are.
Accesses are numbered from 1, reads and writes together. docs/guide/registers.md has the protocol.

It rests on nothing of this project but the form of an image file. What a write does is written here once more from the
same rules, so that the two can be held against each other."""

import argparse
import struct
import sys
from typing import Optional

HEAD = 0x10  # bytes before the first decoder: the capability, the global control, and two words that are reserved
SIZE = 0x20  # bytes of a decoder
BASE_LOW, BASE_HIGH, SIZE_LOW, SIZE_HIGH, CONTROL, TAIL_LOW, TAIL_HIGH, RESERVED = range(8)
TOP = 0xf0000000  # the bits of a low word that count: all is a multiple of 256 MiB
LOCK, COMMIT, COMMITTED, ERROR, HOST_ONLY = (1 << bit for bit in range(8, 13))
WAYS = {0: 1, 1: 2, 2: 4, 3: 8, 4: 16, 8: 3, 9: 6, 10: 12}


def has(word: int, bit: int) -> bool:
    return word >> bit & 1 == 1


class Block:
    """The decoder registers of one node."""

    def __init__(self, words: list):
        self.capability = words[0]
        # only an endpoint's capability says that it has no targets
        self.is_endpoint = self.capability >> 4 & 0xf == 0
        self.enabled = not self.is_endpoint or has(words[1], 1)
        self.decoders = [[self.counted(place, word) for place, word in enumerate(words[at:at + 8])]
                         for at in range(4, len(words), 8)]

    def counted(self, place: int, word: int) -> int:
        """What a word holds of a value: the bits that count."""
        if place in (BASE_LOW, SIZE_LOW) or place == TAIL_LOW and self.is_endpoint:
            return word & TOP
        return {CONTROL: word & 0x1fff, RESERVED: 0}.get(place, word)

    def reset(self) -> None:
        self.enabled = not self.is_endpoint
        self.decoders = [[0] * 8 for _ in self.decoders]

    def read(self, off: int) -> int:
        if off < HEAD:
            return [self.capability, 2 if self.is_endpoint and self.enabled else 0, 0, 0][off // 4]
        return self.decoders[(off - HEAD) // SIZE][(off - HEAD) % SIZE // 4]

    def write(self, off: int, value: int) -> None:
        """The first rule that fits says what becomes of it. A value that is dropped changes nothing."""
        if off < HEAD:
            if off == 4 and self.is_endpoint and (has(value, 1) or not self.has_committed(0)):
                self.enabled = has(value, 1)
            return
        number, place = (off - HEAD) // SIZE, (off - HEAD) % SIZE // 4
        decoder = self.decoders[number]
        committed = decoder[CONTROL] & COMMITTED
        if place == CONTROL and committed:
            # decoders are released from the last one down, and a locked one never
            if not decoder[CONTROL] & LOCK and not value & COMMIT and not self.has_committed(number + 1):
                decoder[CONTROL] &= ~(COMMIT | COMMITTED)
        elif place == CONTROL:
            decoder[CONTROL] = value & (0xff | LOCK | HOST_ONLY)
            if value & COMMIT:
                decoder[CONTROL] |= COMMIT | (COMMITTED if self.can_commit(number) else ERROR)
        elif not committed:
            decoder[place] = self.counted(place, value)

    def has_committed(self, first: int) -> bool:
        return any(it[CONTROL] & COMMITTED for it in self.decoders[first:])

    def can_commit(self, number: int) -> bool:
        decoder = self.decoders[number]
        if not self.enabled or length_of(decoder) == 0:
            return False
        if number > 0:
            below = self.decoders[number - 1]
            if not below[CONTROL] & COMMITTED or base_of(decoder) < base_of(below) + length_of(below):
                return False
        granularity, ways = decoder[CONTROL] & 0xf, WAYS.get(decoder[CONTROL] >> 4 & 0xf)
        if granularity > 6 or ways is None or not self.has_ways(ways):
            return False
        # ways of t * 2 ^ k select by k address bits, of which 8 to 11 and 12 to 14 are capabilities
        bits = range(8 + granularity, 8 + granularity + (ways & -ways).bit_length() - 1)
        return all(bit <= 14 and has(self.capability, 8 if bit <= 11 else 9) for bit in bits)

    def has_ways(self, ways: int) -> bool:
        if not self.is_endpoint:
            return ways in (1, 2, 4, 8) and ways <= self.capability >> 4 & 0xf
        return ways <= 8 and ways % 3 != 0 or has(self.capability, 12 if ways == 16 else 11)


def base_of(decoder: list) -> int:
    return decoder[BASE_HIGH] << 32 | decoder[BASE_LOW]


def length_of(decoder: list) -> int:
    return decoder[SIZE_HIGH] << 32 | decoder[SIZE_LOW]


def blocks_of(image: bytes) -> list:
    """The blocks of an image file, whose form docs/guide/files.md has."""
    if image[:8] != b"CXLHDM01":
        raise ValueError("no image file")
    words, blocks = struct.unpack_from(f"<{(len(image) - 12) // 4}I", image, 12), []
    for _ in range(struct.unpack_from("<I", image, 8)[0]):
        decoders = 2 * (words[0] & 0xf) or 1
        count = 4 + 8 * decoders
        blocks.append(Block(list(words[:count])))
        words = words[count:]
    return blocks


class Registers:
    """Answers the lines of the program, and keeps count of them."""

    def __init__(self, blocks: list, fails: frozenset = frozenset(), flips: Optional[dict] = None):
        self.blocks, self.fails, self.flips, self.count = blocks, fails, flips or {}, 0

    def answer(self, line: str) -> str:
        self.count += 1
        if self.count in self.fails:
            return "failed"
        verb, node, off, *value = line.split()
        block, off = self.blocks[int(node)], int(off, 16)
        if verb == "w":
            block.write(off, int(value[0], 16))
            return "ok"
        word = block.read(off)
        if self.count in self.flips:
            word ^= 1 << self.flips[self.count]
        return f"0x{word:08x}"


def serve(answer, to: str, back: str) -> None:
    """Answers each line that comes over the one pipe on the other, until the program has closed it."""
    with open(to, encoding="ascii") as lines, open(back, "w", encoding="ascii", buffering=1) as answers:
        try:
            for line in lines:
                answers.write(answer(line) + "\n")
        except BrokenPipeError:
            pass  # the program ended before it read this answer


def main() -> int:
    parser = argparse.ArgumentParser(prog="registers.py", description="Registers for cxlbench, over two pipes.")
    parser.add_argument("--reset", action="store_true", help="registers as after reset")
    parser.add_argument("--fail", type=int, action="append", default=[], metavar="N", help="access N is answered `failed`")
    parser.add_argument("--flip", type=int, nargs=2, action="append", default=[], metavar=("N", "BIT"),
                        help="access N, a read, tells the word with this bit turned")
    parser.add_argument("image", metavar="IMAGE", help="the nodes, and without --reset their registers")
    parser.add_argument("to", metavar="TO", help="the pipe from which questions are read")
    parser.add_argument("back", metavar="FROM", help="the pipe to which answers are written")
    options = parser.parse_args()
    with open(options.image, "rb") as file:
        blocks = blocks_of(file.read())
    if options.reset:
        for block in blocks:
            block.reset()
    serve(Registers(blocks, frozenset(options.fail), dict(options.flip)).answer, options.to, options.back)
    return 0


if __name__ == "__main__":
    sys.exit(main())
