"""libcxlplan by ctypes: one function a call of the library, which answers (status, bytes).

The library is the one that the variable CXLPLAN_LIBRARY names, or else the one beside this file, as a wheel has it, or the one that
./prove --library built in the checkout around this file, or the one that ./install put below the prefix that this file was installed
under, or the system's. Bytes go in as
bytes, bytearray or memoryview, text as str, which is passed as UTF-8. Where the room is too small for an answer (status 6) the call
is made again with a larger one. The calls are proved (cxlplan.h says what of them); this module is not."""
import ctypes
import os
import threading

_NAME = "libcxlplan.so.1"
_HERE = os.path.dirname(os.path.realpath(__file__))
# Rooms that are tried one after the other, in bytes: each is freed before the next is taken.
_FIRST_ROOM, _LAST_ROOM = 1 << 16, 1 << 31
_kept = threading.local()

# What the functions answer as status.
DONE, USAGE, FETCH_FAULT, BAD_TABLE, BAD_TOPO, READ_FAULT, WRITE_FAULT = range(7)
BUS_FAULT, REFUSED, NO_MEMORY, BAD_IMAGE, TOO_MUCH, TOO_LARGE = range(7, 13)
# Why a command of a session is refused.
NO_ENDPOINT, FULL, UNMAPPED, CROSSES_END = 5, 7, 10, 11


class Word(ctypes.Structure):
    """A register word that a session sent: the number of its node, where it stands in the node's block in bytes, and its value."""
    _fields_ = [("node", ctypes.c_uint32), ("offset", ctypes.c_uint32), ("value", ctypes.c_uint32)]


class Name(ctypes.Structure):
    """A name: so many bytes from the front, and zeros behind them."""
    _fields_ = [("len", ctypes.c_uint8), ("bytes", ctypes.c_uint8 * 15)]

    def __str__(self):
        return bytes(self.bytes[:self.len]).decode()


class Via(ctypes.Structure):
    """A port on an address's way: the number of its node, its decoder, and the place in the decoder's target list."""
    _fields_ = [("node", ctypes.c_uint32), ("decoder", ctypes.c_uint16), ("entry", ctypes.c_uint16)]


class Place(ctypes.Structure):
    """Where a host address goes: the device address, the number of the endpoint's node, the slot of the region, the position among the
    window's targets, and the ports on its way."""
    _fields_ = [("dpa", ctypes.c_uint64), ("endpoint", ctypes.c_uint32), ("slot", ctypes.c_uint32), ("position", ctypes.c_uint32),
                ("via_count", ctypes.c_uint32), ("via", Via * 5), ("region", Name)]


class HostByte(ctypes.Structure):
    """The host address that goes to a byte of a device, and its region."""
    _fields_ = [("hpa", ctypes.c_uint64), ("region", Name)]


class Refusal(ctypes.Structure):
    """Why a command was refused: one of the numbers below, and the numbers that the reply tells, none or two."""
    _fields_ = [("kind", ctypes.c_uint32), ("count", ctypes.c_uint32), ("first", ctypes.c_uint64), ("second", ctypes.c_uint64)]


class _Handle(ctypes.Structure):
    """A session's handle, which begins null."""
    _fields_ = [("held", ctypes.c_void_p)]


_BYTES = [ctypes.c_void_p, ctypes.c_size_t]
_ROOM = [ctypes.c_void_p, ctypes.c_size_t, ctypes.POINTER(ctypes.c_size_t)]
_ROWS = [ctypes.POINTER(Word), ctypes.c_size_t, ctypes.POINTER(ctypes.c_size_t)]
_SESSION = ctypes.POINTER(_Handle)
_PLACE, _HOST_BYTE, _REFUSAL = map(ctypes.POINTER, (Place, HostByte, Refusal))
_FILLED = _BYTES
# What each function of the header takes before the room.
_TAKES = {
    "route": [*_BYTES, ctypes.c_uint64],
    "list": _BYTES,
    "normal": _BYTES,
    "check": _BYTES * 3,
    "plan": _BYTES * 3,
    "run": _BYTES * 4,
    "words": _BYTES * 4,
    "image": _BYTES * 4,
    "tree": _BYTES,
    "decoders": _BYTES * 2,
    "breaches": _BYTES * 3,
    "windows": _BYTES * 2,
    "gen": [ctypes.c_uint32],
    "version": [],
}
# What each function on a session takes, in all.
_ON_SESSION = {
    "session_open": [_SESSION, *_BYTES, *_BYTES, *_BYTES, *_ROOM],
    "session_act": [_SESSION, *_BYTES, *_ROOM],
    "session_words": [_SESSION, *_ROWS],
    "session_image": [_SESSION, *_ROOM],
    "session_close": [_SESSION],
    "session_down": [_SESSION, ctypes.c_uint64, _PLACE, _REFUSAL],
    "session_up": [_SESSION, *_BYTES, ctypes.c_uint64, _HOST_BYTE, _REFUSAL],
    "session_load": [_SESSION, ctypes.c_uint64, *_FILLED, _REFUSAL],
    "session_store": [_SESSION, ctypes.c_uint64, *_BYTES, _REFUSAL],
}


class LibraryMissing(OSError):
    """There is no libcxlplan where it is looked for, or it lacks a call."""


def places():
    """Where the library is looked for, in this order; the last is a name for the system's loader."""
    named = os.environ.get("CXLPLAN_LIBRARY")
    if named:
        return [named]
    top, folders = os.path.dirname(_HERE), []
    if top.endswith("/share/cxlplan/python"):  # of an install
        folders = [top[:-len("/share/cxlplan/python")] + "/lib"]
    elif top.endswith("/python") and os.path.isfile(f"{os.path.dirname(top)}/crates.txt"):  # of a checkout, which has the crate
        folders = [f"{os.path.dirname(top)}/crates/cxl_c/out"]
    # of a wheel it stands beside this file
    return [f"{_HERE}/{_NAME}", *(f"{folder}/{_NAME}" for folder in folders), _NAME]


def _load():
    said = []
    for place in places():
        if "/" in place and not os.path.exists(place):
            continue
        try:
            found = ctypes.CDLL(place)
        except OSError as fault:
            said.append(str(fault))
            continue
        for name, takes in {**{name: [*takes, *_ROOM] for name, takes in _TAKES.items()}, **_ON_SESSION}.items():
            try:
                call = getattr(found, f"cxlplan_{name}")
            except AttributeError:
                raise LibraryMissing(f"{place} has no cxlplan_{name}") from None
            call.argtypes, call.restype = takes, ctypes.c_int
        return found
    raise LibraryMissing("; ".join(said) or f"there is no {_NAME} at {', '.join(places())}")


_LOADED = []


def library():
    """The library, loaded at the first call."""
    if not _LOADED:
        _LOADED.append(_load())
    return _LOADED[0]


def _passed(data):
    """Bytes, of which ctypes passes the address, and their number."""
    if data is None:
        return None, 0
    if isinstance(data, str):
        data = data.encode()
    if not isinstance(data, bytes):
        data = bytes(data)
    return data, len(data)


def _answer(call, words):
    """What a call answers with a room that is large enough, or with the largest that is tried."""
    room, written = _FIRST_ROOM, ctypes.c_size_t(0)
    out = getattr(_kept, "room", None)
    if out is None:
        out = _kept.room = ctypes.create_string_buffer(room)  # each thread's own, kept from call to call
    while True:
        status = call(*words, out, room, ctypes.byref(written))
        if status != WRITE_FAULT or room >= _LAST_ROOM:
            return status, ctypes.string_at(out, written.value)
        del out
        room *= 8
        out = ctypes.create_string_buffer(room)


def _call(name, *data, more=()):
    words = [word for it in data for word in _passed(it)]  # which hold the bytes until the call is over
    return _answer(getattr(library(), f"cxlplan_{name}"), [*words, *more])


def _number(number, bits):
    """A number that fits, since ctypes would cut off what does not."""
    if not 0 <= number < 1 << bits:
        raise ValueError(f"{number} is no number of {bits} bits")
    return number


def route(cedt, address):
    """Where a host address goes: its window, position and host bridge."""
    return _call("route", cedt, more=[_number(address, 64)])


def list_(cedt):
    """A line for each record of a table."""
    return _call("list", cedt)


def normal(cedt):
    """The table's bytes with its reserved fields zero."""
    return _call("normal", cedt)


def check(cedt, topo, image):
    """The regions of a register image, or the first rule that it breaks (status 8)."""
    return _call("check", cedt, topo, image)


def plan(cedt, topo, line):
    """The registers that make the region of a create line after reset, or why there is none (status 8)."""
    return _call("plan", cedt, topo, line)


def run(cedt, topo, script, image=None):
    """What the lines of a script are answered, on the host after reset, or with the registers of an image."""
    return _call("run", cedt, topo, image, script)


def words(cedt, topo, script, image=None):
    """The register words that the last line of a script sends, a line each: `w NODE OFFSET VALUE`."""
    return _call("words", cedt, topo, image, script)


def image(cedt, topo, script, image=None):  # pylint: disable=redefined-outer-name
    """The register image behind a script, as the bytes of its file."""
    return _call("image", cedt, topo, image, script)


def tree(topo):
    """A topology as lines: its frames and each node, also with what the file leaves to a default."""
    return _call("tree", topo)


def decoders(topo, image):
    """The decoder blocks of any image as lines, also of one that breaks a rule."""
    return _call("decoders", topo, image)


def breaches(cedt, topo, image):
    """All places that break the first broken rule of an image (status 8); no text where none is broken."""
    return _call("breaches", cedt, topo, image)


def windows(cedt, topo):
    """The windows of a table as lines, each with its verdict by the bridges of a topology."""
    return _call("windows", cedt, topo)


def gen(number):
    """The generated system of 4 * number endpoints, for a number from 1 to 32, carried out."""
    return _call("gen", more=[_number(number, 32)])


def version():
    """The version, as a line."""
    return _call("version")


class Unopened(Exception):
    """No session opens over these files. `status` and `text` say why, as `run` does."""

    def __init__(self, status, text):
        super().__init__(text.decode(errors="replace").strip() or f"status {status}")
        self.status, self.text = status, text


class Refused(Exception):
    """A command of a session was refused, or, with another status than 8, not asked. `refusal` says why."""

    def __init__(self, status, refusal):
        super().__init__(f"refusal {refusal.kind}" if status == REFUSED else f"status {status}")
        self.status, self.refusal = status, refusal


class Session:
    """A session that is opened once and asked often, on the host after reset, or with the registers of an image. It closes at the end
    of a `with`, or by `close`. One call at a time may use it, from any thread."""

    def __init__(self, cedt, topo, image=None, room=1 << 20):  # pylint: disable=redefined-outer-name
        """`room` is how many bytes the answer to one call of `act` may have."""
        self._handle, self._room, self._size = _Handle(None), ctypes.create_string_buffer(room), room
        status, text = self._answer("session_open", *(word for it in (cedt, topo, image) for word in _passed(it)))
        if status != DONE:
            raise Unopened(status, text)

    def __enter__(self):
        return self

    def __exit__(self, *_):
        self.close()

    def _answer(self, name, *words):
        written = ctypes.c_size_t(0)
        status = getattr(library(), f"cxlplan_{name}")(ctypes.byref(self._handle), *words, self._room, self._size, ctypes.byref(written))
        return status, self._room[:written.value]

    def act(self, lines):
        """What lines are answered, one or more, as `run` answers them. With status 6 the lines up to the answer that is cut are carried
        out, and none behind it."""
        return self._answer("session_act", *_passed(lines))

    def words(self):
        """The register words that the last call of `act` sent, or opening it where there was none, in their order."""
        count = ctypes.c_size_t(0)
        library().cxlplan_session_words(ctypes.byref(self._handle), None, 0, ctypes.byref(count))
        rows = (Word * count.value)()
        library().cxlplan_session_words(ctypes.byref(self._handle), rows, count.value, ctypes.byref(count))
        return [(it.node, it.offset, it.value) for it in rows]

    def image(self):
        """The register image as it is, as the bytes of its file."""
        return self._answer("session_image")

    def _ask(self, name, *words):
        refusal = Refusal()
        status = getattr(library(), f"cxlplan_{name}")(ctypes.byref(self._handle), *words, ctypes.byref(refusal))
        if status != DONE:
            raise Refused(status, refusal)

    def down(self, address):
        """Where a host address goes, as a `Place`."""
        place = Place()
        self._ask("session_down", _number(address, 64), ctypes.byref(place))
        return place

    def up(self, endpoint, address):
        """Which host address goes to a byte of an endpoint's device, as a `HostByte`."""
        byte = HostByte()
        self._ask("session_up", *_passed(endpoint), _number(address, 64), ctypes.byref(byte))
        return byte

    def load(self, address, count):
        """The bytes from a host address on, 1 to 256 of them."""
        room = ctypes.create_string_buffer(_number(count, 16) or 1)
        self._ask("session_load", _number(address, 64), room, count)
        return room.raw

    def store(self, address, data):
        """Puts bytes from a host address on, 1 to 256 of them."""
        self._ask("session_store", _number(address, 64), *_passed(data))

    def close(self):
        """Closes it. A call behind that answers status 1."""
        library().cxlplan_session_close(ctypes.byref(self._handle))
