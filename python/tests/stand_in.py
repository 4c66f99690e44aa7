"""cxldesk over an engine that stands in for the proved calls, for tests of what is around them: an image says itself what is to be told
of it. Run as a program it is cxldesk over this engine."""

import os
import sys
import time

sys.dont_write_bytecode = True
sys.path.insert(0, os.path.dirname(os.path.dirname(os.path.abspath(__file__))))

from cxlplan import _engine, texts  # noqa: E402 pylint: disable=wrong-import-position
from cxlplan.desk.main import main  # noqa: E402 pylint: disable=wrong-import-position

SOUND, BROKEN, DEAD, SLOW = b"sound", b"broken", b"dead", b"slow"
REGION = b"region 0x110000000 size 0x40000000 window 0 gran 256 ways 1 pmem\nslot 0 d1 0x0\n"
ONES = ("decoder d1 0 base 0xfffffffff0000000 size 0xfffffffff0000000 ways 1 gran 256 codes 0 0 lock 1 commit 1 committed 1 error 1 "
        "host-only 1 skip 0xffffffffffffffff words " + " ".join(["ffffffff"] * 8) + "\n")


class StandIn:
    """An engine by what stands in the image."""

    kind = "stand-in"

    @staticmethod
    def check(_table, _topology, image):
        if image == SLOW:
            time.sleep(0.05)
        if image in (SOUND, SLOW):
            return 0, REGION
        return (8, b"breach K12 d4 0\n") if image in (BROKEN, DEAD) else (10, b"error: image cut 3\n")

    @staticmethod
    def breaches(_table, _topology, _image):
        return texts.places("breach K12 d4 0\n")

    @staticmethod
    def decoders(_table, _topology, image, only_used=False):
        return texts.decoders(ONES, only_used) if image == DEAD else []


def use() -> None:
    """Has the package ask this engine."""
    _engine.use(StandIn())


if __name__ == "__main__":
    use()
    sys.exit(main())
