"""Odd images: registers that no plan made. What `check` accepts loses no byte in QEMU, and of what
it refuses some do lose bytes there, so that the look for them is known to see it."""

import os
import random
import re
import struct

import program
from checks import COMMIT, COMMITTED, CONTROL, ENABLE, GLOBAL, Trial
from peer import Peer, image_of
from program import Said, Session

FIRST, STEP = 0x10, 0x20  # of a block's decoders
LOCK = 1 << 8
MARKS = COMMIT | COMMITTED | 1 << 11  # what a decoder that is not in use has clear
GRAIN = 256 << 20
CHUNKS, STORES = 48, 12  # chunks in a row that are tried of a range, and stores of an accepted region


class Odd:
    """The registers of a machine with its regions, to be changed."""

    def __init__(self, peer: Peer, words: dict, regions: dict, dice: random.Random):
        self.peer, self.words, self.regions, self.dice = peer, dict(words), regions, dice
        self.ends = {node.name for node in peer.nodes if node.kind == "endpoint"}

    def at(self, decoder: tuple, place: int) -> tuple:
        return decoder[0], FIRST + STEP * decoder[1] + place

    def decoders(self) -> list:
        """All decoders, by node and number."""
        return [(node.name, number) for node in self.peer.nodes if node.block for number in range(node.decoders)]

    def committed(self) -> list:
        return [it for it in self.decoders() if self.words[self.at(it, CONTROL)] & COMMITTED]

    def add(self, decoders: list, place: int, change: int) -> None:
        for decoder in decoders:
            at = self.at(decoder, place)
            self.words[at] = (self.words[at] + change) % (1 << 32)

    # ---- One change each.

    def change(self) -> None:
        region = self.regions[self.dice.choice(list(self.regions))]
        one = [self.dice.choice(region)]
        some = self.dice.choice([region, region, region, one])  # a region as a whole more often
        self.dice.choice([self.idle, self.idle, self.lock, self.forward, self.move, self.resize, self.gran, self.ways,
                          self.targets, self.skip, self.release, self.swap])(some)

    def idle(self, _) -> None:
        """Whatever a decoder that is not committed may hold."""
        for decoder in self.decoders():
            if decoder not in self.committed():
                for place in (0x0, 0x4, 0x8, 0xc, 0x14, 0x18):
                    self.words[self.at(decoder, place)] = self.dice.getrandbits(32) & self.kept(decoder, place)
                self.words[self.at(decoder, CONTROL)] = self.dice.getrandbits(13) & ~MARKS

    def kept(self, decoder: tuple, place: int) -> int:
        """The bits of a word that registers keep."""
        return 0xf0000000 if place in (0x0, 0x8) or place == 0x14 and decoder[0] in self.ends else 0xffffffff

    def lock(self, decoders: list) -> None:
        for decoder in decoders:
            self.words[self.at(decoder, CONTROL)] |= LOCK

    def forward(self, _) -> None:
        """The enable bit of bridges and switches, which means nothing, or once of an endpoint."""
        name = self.dice.choice([it.name for it in self.peer.nodes if it.block])
        self.words[name, GLOBAL] ^= ENABLE

    def move(self, decoders: list) -> None:
        self.add(decoders, 0x0, self.dice.choice([1, 2, 3, 4, 6, 8]) * GRAIN)

    def resize(self, decoders: list) -> None:
        self.add(decoders, 0x8, self.dice.choice([-2, -1, 1, 2, 4]) * GRAIN)

    def gran(self, decoders: list) -> None:
        self.add(decoders, CONTROL, self.dice.choice([-1, 1]))

    def ways(self, decoders: list) -> None:
        self.add(decoders, CONTROL, self.dice.choice([-16, 16]))

    def targets(self, _) -> None:
        """Two entries of a target list change places, or one is another port."""
        ports = [it for it in self.committed() if it[0] not in self.ends]
        if ports:
            at = self.at(self.dice.choice(ports), 0x14)
            entries = bytearray(self.words[at].to_bytes(4, "little"))
            one, other = self.dice.sample(range(4), 2)
            if self.dice.random() < 0.7:
                entries[one], entries[other] = entries[other], entries[one]
            else:
                entries[one] = self.dice.randrange(8)
            self.words[at] = int.from_bytes(entries, "little")

    def skip(self, decoders: list) -> None:
        self.add([it for it in decoders if it[0] in self.ends], 0x14, self.dice.choice([-1, 1, 1, 2]) * GRAIN)

    def release(self, decoders: list) -> None:
        for decoder in decoders:
            self.words[self.at(decoder, CONTROL)] &= ~(COMMIT | COMMITTED)

    def swap(self, _) -> None:
        """Two decoders of a node change places."""
        name = self.dice.choice([it.name for it in self.peer.nodes if it.block and it.decoders > 1])
        for place in range(0, STEP, 4):
            one, other = self.at((name, 0), place), self.at((name, 1), place)
            self.words[one], self.words[other] = self.words[other], self.words[one]

    # ---- What QEMU can be given.

    def can_be_tried(self) -> bool:
        """QEMU ends itself where a port has a ways code above 3, or an endpoint one that stands for
        no ways."""
        codes = [(it[0] in self.ends, self.words[self.at(it, CONTROL)] >> 4 & 15) for it in self.committed()]
        return all(code in (0, 1, 2, 3, *((4, 8, 9, 10) if is_end else ())) for is_end, code in codes)


def put(peer: Peer, words: dict) -> None:
    """An image into QEMU's registers: nothing is committed while words are set."""
    controls = {at: word for at, word in words.items() if at[1] >= FIRST and (at[1] - FIRST) % STEP == CONTROL}
    peer.write(dict.fromkeys(controls, 0))
    peer.write({at: word for at, word in words.items() if at not in controls})
    peer.write({at: word & ~COMMITTED for at, word in controls.items()})


def try_images(trial: Trial, start: dict, regions: dict, count: int) -> None:
    """So many images, made of registers with these regions, each judged by `check` and tried in
    QEMU."""
    peer = trial.peer
    for number in range(count):
        odd = Odd(peer, start, regions, trial.random)
        for _ in range(trial.random.choice([1, 1, 2, 3])):
            odd.change()
        image = peer.save("odd.image", image_of(peer, odd.words))
        status, said = program.answer("check", peer.table, peer.topology, image)
        if status not in (0, 8) or status == 8 and not said.startswith("breach K"):
            raise Said(f"check of an odd image: {status} {said}")
        if status and not odd.can_be_tried():
            trial.tally.refused += 1
            continue
        put(peer, odd.words)
        trial.clear_memory()
        if status:
            trial.tally.refused += 1
            trial.tally.losing += loses(trial, odd)
        else:
            trial.tally.odd += 1
            keep(trial, odd, image, f"odd image {number}")


def keep(trial: Trial, odd: Odd, image: str, name: str) -> None:
    """An image that `check` accepts: QEMU has its registers, and each store is found where the
    program says."""
    trial.expected = {at: word for at, word in odd.words.items()}
    trial.compare_registers(name)
    trial.session.__exit__()
    trial.session = Session(trial.peer.table, trial.peer.topology, image)
    for line in program.answer("check", trial.peer.table, trial.peer.topology, image)[1].splitlines():
        if match := re.match("region 0x([0-9a-f]+) size 0x([0-9a-f]+) window [0-9]+ gran ([0-9]+) ways", line):
            begin, size, gran = int(match[1], 16), int(match[2], 16), int(match[3])
            region = trial.session.ask(f"down {begin:#x}")[0].split(" ")[3]
            for address in chunks_of(trial, begin, size, gran, STORES):
                trial.store(region, address, trial.bytes_of(4))
    trial.compare_memory(name)


def chunks_of(trial: Trial, begin: int, size: int, gran: int, count: int) -> list:
    """A place in each of so many chunks in a row, somewhere in a range."""
    room = max(size // gran - count, 1)
    first = begin + gran * trial.random.randrange(room)
    return [first + gran * number + 8 for number in range(min(count, size // gran))]


def loses(trial: Trial, odd: Odd) -> bool:
    """Whether QEMU loses bytes of the ranges that endpoints decode: two host addresses have one
    byte, or one has none."""
    stored = {}
    for decoder in odd.committed():
        if decoder[0] in odd.ends:
            low, high, size_low, size_high = (odd.words[odd.at(decoder, place)] for place in (0x0, 0x4, 0x8, 0xc))
            gran = 256 << min(odd.words[odd.at(decoder, CONTROL)] & 15, 6)
            begin, size = low + (high << 32), size_low + (size_high << 32)
            for address in chunks_of(trial, begin, size, gran, CHUNKS) if size else []:
                if any(window[0] <= address < window[0] + window[1] for window in trial.windows):
                    stored[address] = trial.bytes_of(4)
    for address, data in stored.items():
        trial.peer.store(address, data)
    return any(trial.peer.load(address, len(data)) != data for address, data in stored.items())


def try_examples(trial: Trial) -> None:
    """Two images of examples/ over this machine: in one four devices make a region, and in the
    other one of them deals by another granularity, so that QEMU loses bytes."""
    for file, status, lost in (("four-endpoints.image", 0, False), ("lost-bytes.image", 8, True)):
        with open(os.path.join(program.TOP, "examples", file), "rb") as opened:
            odd = Odd(trial.peer, words_in(trial.peer, opened.read()), {}, trial.random)
        image = trial.peer.save("example.image", image_of(trial.peer, odd.words))
        if program.answer("check", trial.peer.table, trial.peer.topology, image)[0] != status:
            trial.tally.fault(f"examples/{file}: check does not end with {status}")
        put(trial.peer, odd.words)
        if loses(trial, odd) != lost:
            trial.tally.fault(f"examples/{file}: QEMU {'keeps' if lost else 'loses'} bytes")


def words_in(peer: Peer, image: bytes) -> dict:
    """The words of an image file over the peer's nodes."""
    words, at = {}, 12
    for node in peer.nodes:
        for off in range(4, node.length, 4):
            words[node.name, off], = struct.unpack_from("<I", image, at + off)
        at += node.length
    return words
