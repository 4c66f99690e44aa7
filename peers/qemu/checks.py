"""One machine under the program and in QEMU side by side: the words of its regions, its stores, and
a session between two words. What differs is counted: where QEMU is known to behave so, by the name
of that, and else as a fault."""

import random
from collections import Counter
from dataclasses import dataclass, field

import program
from peer import Peer
from program import Said, Session, Word

ENABLE, GLOBAL, CONTROL, COMMIT, COMMITTED = 2, 0x4, 0x10, 1 << 9, 1 << 10
MULTIPLE = 768 << 20  # bytes: at its multiples a remainder by three is the same from the base on and from 0 on
MOST_FAULTS = 20  # that are told of one machine

# How QEMU is known to differ; README.md has each with its cause. The first two are of early models, which release no
# decoder.
COMMIT_READS_0 = "commit reads 0"
STAYS_COMMITTED = "stays committed"
MODULO_3 = "modulo 3"
ONE_SWITCH = "one switch"


@dataclass
class Tally:
    """What was compared, and what differed."""
    words: int = 0  # of registers, against the program's
    stores: int = 0
    between: int = 0  # register words that were written one by one, with all registers compared behind each
    odd: int = 0  # images that `check` accepts
    refused: int = 0  # images that it refuses
    losing: int = 0  # those of them with which QEMU loses bytes
    piped: int = 0  # words that the program sent over the pipe
    known: Counter = field(default_factory=Counter)
    faults: list = field(default_factory=list)

    def fault(self, text: str) -> None:
        self.faults.append(text)


def windows_in(text: str) -> list:
    """Base, size, granularity and ways of each window, as `list` prints them."""
    lines = [line.split(" ") for line in text.splitlines()]
    return [(int(it[3], 16), int(it[5], 16), int(it[9]), int(it[7])) for it in lines if it[0] == "window"]


class Trial:
    """Use it in a `with`, around an open peer. The session is the program's, from reset or from an
    image."""

    def __init__(self, peer: Peer, tally: Tally, seed: int):
        self.peer, self.tally, self.random = peer, tally, random.Random(f"{seed} {peer.machine.name}")
        self.session = Session(peer.table, peer.topology)
        self.windows = windows_in(program.answer("list", peer.table)[1])
        self.expected = dict.fromkeys(peer.registers(), 0)  # as after reset
        self.filled: dict = {}  # the bytes of all devices that are not zero, by device and device address
        self.compare_registers("after reset")

    def __enter__(self):
        return self

    def __exit__(self, *_):
        self.session.__exit__()

    # ---- Registers.

    def send(self, word: Word) -> None:
        """One word into QEMU's registers, and read back."""
        self.peer.write({(word.node, word.off): word.value})
        self.expected[word.node, word.off] = word.reads
        self.compare_word(word.node, word.off, self.peer.read(word.node, word.off), "read back")

    def compare_word(self, node: str, off: int, theirs: int, when: str) -> None:
        ours = self.expected[node, off]
        self.tally.words += 1
        if ours == theirs:
            return
        is_early = not self.peer.releases and off >= 0x10 and (off - 0x10) % 0x20 == CONTROL
        if is_early and ours & COMMITTED and theirs == ours & ~COMMIT:
            self.tally.known[COMMIT_READS_0] += 1
        elif is_early and not ours & COMMIT and theirs == ours | COMMITTED:
            self.tally.known[STAYS_COMMITTED] += 1
        else:
            self.tally.fault(f"{when}: {node} {off:#06x} is {ours:#010x} in the program, {theirs:#010x} in QEMU")

    def compare_registers(self, when: str) -> None:
        """All registers of QEMU."""
        for (node, off), theirs in self.peer.registers().items():
            self.compare_word(node, off, theirs, when)

    def compare_show(self, regions: list) -> None:
        """What the program shows of its registers is what they are expected to be."""
        for region in regions:
            shown = program.shown_words(self.session.show(region))
            if not shown or any(self.expected[at] != word for at, word in shown.items()):
                self.tally.fault(f"show {region} has other words than were written")

    def enable(self) -> None:
        """A session lets the endpoints decode before its first line."""
        for node in self.peer.nodes:
            if node.kind == "endpoint":
                self.send(Word(node.name, GLOBAL, ENABLE, ENABLE))

    # ---- Stores.

    def place_in_qemu(self, address: int, device: str, dpa: int) -> tuple:
        """Where QEMU puts a byte, by what is known of it: three ways are dealt by the whole
        address, not from the window's base on, so it goes to the device of a chunk some chunks on,
        by the same device address."""
        window = next((it for it in self.windows if it[0] <= address < it[0] + it[1]), None)
        if not window or window[3] % 3 or window[0] % MULTIPLE == 0:
            return device, dpa
        base, _, gran, ways = window
        chunk = (address - base) // gran
        other = chunk - chunk % ways + address // gran % ways
        return self.session.extents(base + other * gran, 1)[0][2], dpa

    def store(self, region: str, address: int, data: bytes) -> None:
        """A store by the program and in QEMU. It is found at the device bytes that `down` and
        `range` name, `up` leads back, and a load gives it again."""
        ask, at = self.session.ask, f"{address:#x}"
        extents = self.session.extents(address, len(data))
        down = ask(f"down {at}")[0].split(" ")
        if down[:4] != ["down", at, "region", region]:
            raise Said(f"down {at}: {' '.join(down)}")
        self.session.wants(f"store {at} {data.hex()}", f"stored {len(data)}")
        self.peer.store(address, data)
        self.tally.stores += 1
        if (down[-3], int(down[-1], 16)) != extents[0][2:]:
            self.tally.fault(f"down {at} and range {at} differ")
        for host, length, device, dpa in extents:
            piece = data[host - address:host - address + length]
            if ask(f"up {device} {dpa:#x}") != [f"host {host:#x} region {region}"]:
                self.tally.fault(f"up {device} {dpa:#x} does not lead back to {host:#x}")
            self.compare_piece(host, device, dpa, piece)
            if self.peer.load(host, length) != (bytes(length) if self.is_beyond(device) else piece):
                self.tally.fault(f"QEMU loads other bytes from {host:#x} than {piece.hex()}")
        if ask(f"load {at} {len(data)}") != [f"bytes {data.hex()}"]:
            self.tally.fault(f"load {at}: {data.hex()} was stored")

    def is_beyond(self, device: str) -> bool:
        """Whether a device is where QEMU carries nothing, below a second switch."""
        return len(self.peer.places[device]) > 3

    def compare_piece(self, host: int, device: str, dpa: int, piece: bytes) -> None:
        if self.is_beyond(device):  # that nothing changed is seen when the memory is compared
            self.tally.known[ONE_SWITCH] += 1
            return
        found = device, dpa
        if self.peer.memory.bytes_at(device, dpa, len(piece)) != piece:
            found = self.place_in_qemu(host, device, dpa)
            if found == (device, dpa) or self.peer.memory.bytes_at(*found, len(piece)) != piece:
                self.tally.fault(f"a store to {host:#x} is not in {device} at {dpa:#x}")
                return
            self.tally.known[MODULO_3] += 1
        self.filled.update({(found[0], found[1] + at): value for at, value in enumerate(piece)})

    def compare_memory(self, when: str) -> None:
        """Nothing else changed."""
        theirs = self.peer.memory.filled()
        for at in [at for at in {**theirs, **self.filled} if theirs.get(at) != self.filled.get(at)][:MOST_FAULTS]:
            self.tally.fault(f"{when}: the byte {at[1]:#x} of {at[0]} is {theirs.get(at, 0):#x} in QEMU, and not "
                             f"{self.filled.get(at, 0):#x}")

    def clear_memory(self) -> None:
        self.peer.memory.clear()
        self.filled = {}

    def bytes_of(self, length: int) -> bytes:
        """Some that are not zero, so that a store is seen."""
        return bytes(self.random.randrange(1, 256) for _ in range(length))

    def addresses(self, begin: int, size: int, gran: int, count: int):
        """Host addresses of a region to try, with lengths: its ends, edges of its chunks, and
        any."""
        yield from [(begin, 1), (begin + size - 1, 1), (begin + size - 16, 16)][:count]
        for number in range(count - 3):
            length = self.random.randrange(1, 17)
            address = begin + self.random.randrange(size - 2 * gran - length)
            if number % 2:
                address += gran - address % gran - self.random.randrange(length + 1)
            yield address, length

    def try_stores(self, created: list, count: int) -> None:
        """Stores to a region, by the words of the reply that it was created."""
        name, begin, size, gran = created[1], int(created[5], 16), int(created[7], 16), int(created[9])
        for address, length in self.addresses(begin, size, gran, count):
            self.store(name, address, self.bytes_of(length))


# ---- The checks.

def words_for(trial: Trial, lines: list) -> list:
    """The words that make the last of these regions: those that a session shows that makes them all
    at once. After reset they are the plan's."""
    files = trial.peer.table, trial.peer.topology
    with Session(*files) as other:
        names = [other.wants(line, "created")[1] for line in lines]
        words = program.words_of(*files, "".join(other.show(name) for name in names))[names[-1]]
    if len(lines) == 1:
        _, text = program.answer("plan", *files, lines[0])
        if program.words_of(*files, text) != {names[0]: words}:
            trial.tally.fault(f"plan {lines[0]} has other words than show")
    return words


def make_regions(trial: Trial, lines: list) -> list:
    """Each region by its words. What the replies said of each is given back, as words."""
    made: list = []
    for line in lines:
        words = words_for(trial, lines[:len(made) + 1])
        made.append(trial.session.wants(line, "created"))
        for word in words:
            trial.send(word)
        trial.compare_registers(f"behind {line}")
        trial.compare_show([words[1] for words in made])
    return made


class Job:
    """A job word by word, by the program and in QEMU. What takes a word back is given, or else it
    is the word before."""

    def __init__(self, trial: Trial, words: list, backs: list):
        self.trial, self.words, self.backs = trial, words, backs
        self.sent: list = []

    def step(self) -> list:
        """What the program said of the step."""
        number = len(self.sent)
        word = self.words[number]
        before = self.trial.expected[word.node, word.off]
        reply = self.trial.session.ask("step 1")
        self.trial.send(word)
        self.sent.append(self.backs[number] if self.backs else Word(word.node, word.off, before, before))
        return reply

    def abort(self) -> None:
        self.trial.session.wants("abort", "aborted")
        for word in reversed(self.sent):
            self.trial.send(word)


def step_through(trial: Trial, begin: str, words: list, live: list, backs: tuple = ()) -> list:
    """A job that is begun, taken back behind some of its words, and at last carried out, each time
    word by word. What the last step was answered is given back."""
    total, name = len(words), begin.split(" ")[2]
    stops = {1, total // 2, total - 1, trial.random.randrange(total)} if trial.peer.releases else set()
    for stop in [*sorted(stops - {0, total}), total]:
        job = Job(trial, words, backs)
        trial.session.wants(begin, f"begun {name} writes {total}")
        for step in range(1, stop + 1):
            reply = job.step()
            if step < total and reply != [f"stepped {step} of {total}"]:
                raise Said(f"step 1: {' / '.join(reply)}")
            trial.tally.between += 1
            trial.compare_registers(f"{begin}, behind word {step}")
            trial.compare_show([created[1] for created in live])
            touch(trial, live, step)
        if stop < total:
            job.abort()
            trial.compare_registers(f"{begin}, taken back from word {stop}")
    return reply[0].split(" ")


def touch(trial: Trial, live: list, step: int) -> None:
    """A live region answers."""
    if live:
        created = live[step % len(live)]
        begin, size = int(created[5], 16), int(created[7], 16)
        trial.store(created[1], begin + trial.random.randrange(size - 4), trial.bytes_of(4))


def make_by_steps(trial: Trial, lines: list, live: list) -> list:
    """The last of these regions, made word by word while the others live."""
    created = step_through(trial, f"begin {lines[-1]}", words_for(trial, lines), live)
    if created[0] != "created":
        raise Said(f"{lines[-1]}: {' '.join(created)}")
    trial.compare_show([words[1] for words in [*live, created]])
    return created


def decoders_of(trial: Trial, made: list) -> dict:
    """The decoders of each region, by node and number, as the session shows them."""
    shown = {words[1]: program.shown_words(trial.session.show(words[1])) for words in made}
    return {name: sorted({(node, (off - 0x10) // 0x20) for node, off in words}) for name, words in shown.items()}


def end_by_steps(trial: Trial, created: list, live: list) -> None:
    """A region that is ended word by word: the control words that its making sent before each
    commit, from the bridges down."""
    name = created[1]
    shown = "".join(trial.session.show(words[1]) for words in [*live, created])
    words = program.words_of(trial.peer.table, trial.peer.topology, shown)[name][::-1]
    commits = [number for number, word in enumerate(words) if word.value != word.reads]
    reply = step_through(trial, f"begin destroy {name}", [words[number + 1] for number in commits], live,
                         [words[number] for number in commits])
    if reply != ["destroyed", name]:
        raise Said(f"destroy {name}: {' '.join(reply)}")
    trial.compare_show([words[1] for words in live])
