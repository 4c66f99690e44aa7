"""The library in this process. Sessions are the program's, with writes and images of the library."""

from functools import cached_property
from typing import Optional

from . import texts
from .errors import NoEngine, fault_of


def told(pair: tuple) -> str:
    """The text of a read-only call; its fault is raised."""
    status, data = pair
    text = data.decode("ascii", "replace")
    if status:
        raise fault_of(status, text)
    return text


class LibraryEngine:
    """The forms of the program as calls, through the module `_library`."""

    kind = "library"

    def __init__(self, library, find_program=lambda: None) -> None:
        self.library, self.find_program = library, find_program

    @cached_property
    def program(self):
        """The engine over the program, which is looked for where a session is asked for."""
        return self.find_program()

    def route(self, cedt: bytes, hpa: int) -> tuple:
        return self.library.route(cedt, hpa)

    def listing(self, cedt: bytes) -> tuple:
        return self.library.list_(cedt)

    def normal(self, cedt: bytes) -> tuple:
        return self.library.normal(cedt)

    def check(self, cedt: bytes, topo: bytes, image: bytes) -> tuple:
        return self.library.check(cedt, topo, image)

    def plan(self, cedt: bytes, topo: bytes, line: str) -> tuple:
        return self.library.plan(cedt, topo, line)

    def run(self, cedt: bytes, topo: bytes, image: Optional[bytes], script: bytes) -> tuple:
        return self.library.run(cedt, topo, script, image)

    def gen(self, count: int) -> tuple:
        return self.library.gen(count)

    def version(self) -> str:
        return self.library.version()[1].decode("ascii", "backslashreplace").strip()

    # ---- Read-only calls.

    def tree(self, cedt: bytes, topo: bytes) -> list:
        return texts.tree(told(self.library.tree(topo)))

    def windows(self, cedt: bytes, topo: bytes) -> list:
        return texts.windows(told(self.library.windows(cedt, topo)))

    def decoders(self, cedt: bytes, topo: bytes, image: bytes, only_used: bool = False) -> list:
        return texts.decoders(told(self.library.decoders(topo, image)), only_used)

    def controls(self, cedt: bytes, topo: bytes, image: bytes) -> dict:
        """The global control of each node."""
        return texts.controls(told(self.library.decoders(topo, image)))

    def breaches(self, cedt: bytes, topo: bytes, image: bytes) -> list:
        status, data = self.library.breaches(cedt, topo, image)
        return texts.places(told((0 if status == 8 else status, data)))

    # ---- Behind a script.

    def words(self, cedt: bytes, topo: bytes, image: Optional[bytes], script: bytes) -> list:
        """The register writes that the last line of a script sends."""
        return texts.writes(told(self.library.words(cedt, topo, script, image)), self.tree(cedt, topo))

    def image(self, cedt: bytes, topo: bytes, image: Optional[bytes], script: bytes) -> bytes:
        """The register image behind a script."""
        status, data = self.library.image(cedt, topo, script, image)
        return data if status == 0 else told((status, data)).encode()

    def session(self, cedt: bytes, topo: bytes, image: Optional[bytes]):
        """A run of the program: the library keeps no sessions."""
        if self.program is None:
            raise NoEngine("libcxlplan.so keeps no sessions: name the program in CXLPLAN, or put it on the search path")
        return self.program.session(cedt, topo, image, self)
