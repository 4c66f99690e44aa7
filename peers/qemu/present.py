"""Whether what the peers want is there: QEMU, the proved program, and its library, which the desk asks."""

import os
import shutil
import sys

import peer
import program

STATUS = 3  # of a run that lacks something, which is no failure
PACKAGE = os.path.join(program.TOP, "python")


class Lacks(Exception):
    """What is not there, and how it is had."""


def look() -> None:
    """The first that is not there is raised."""
    for file, how in ((program.CXLPLAN, "./prove builds it"), (peer.PROGRAM, "the package is qemu-system-x86")):
        if not shutil.which(file):
            raise Lacks(f"there is no program {file}; {how}")
    if PACKAGE not in sys.path:
        sys.path.append(PACKAGE)
    from cxlplan import _library
    try:
        _library.library()
    except OSError as fault:
        raise Lacks(f"the desk has no library: {fault}; ./prove --library builds it") from None


def versions() -> str:
    return f"{peer.version()}; {program.answer('--version')[1].strip()}"
