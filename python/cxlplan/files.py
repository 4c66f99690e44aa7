"""Files that are written whole or not at all, and never over another file. Nothing is left beside them, whenever the work is stopped."""

import os
from typing import Any

from .errors import BadFile
from .incoming import why_not


def write_new(file: str, data: bytes) -> None:
    """Makes a file: without a name at first, and it gets its name when it is whole."""
    if os.path.lexists(file):
        raise there_already(file)
    try:
        with Nameless(os.path.dirname(os.path.abspath(file))) as made:
            write_all(made.end, data)
            made.name(file)
    except FileExistsError:
        raise there_already(file) from None
    except (OSError, ValueError) as fault:
        raise BadFile(f"{file}: {why_not(fault)}", 1, "cannot write", file) from None


def write_beside(file: str, data: bytes) -> None:
    """The same; a folder that is not there is named."""
    beside = os.path.dirname(os.path.abspath(file))
    if not os.path.isdir(beside):
        raise BadFile(f"{file}: there is no folder {beside}", 1, "no folder", file)
    write_new(file, data)


def there_already(file: str) -> BadFile:
    return BadFile(f"{file}: " + ("is a folder" if os.path.isdir(file) else "there already"), 1, "there already", file)


def write_all(end: int, data: bytes) -> None:
    """Writes all bytes to an open file."""
    view = memoryview(data)
    while view:
        view = view[os.write(end, view):]


class Nameless:
    """An open file in a folder that has no name yet. Where the system has none such, it has a name of its own until it gets another."""

    def __init__(self, folder: str) -> None:
        self.named: Any = None
        try:
            self.end = os.open(folder, os.O_TMPFILE | os.O_RDWR | os.O_CLOEXEC, 0o666)
        except (AttributeError, OSError):
            from tempfile import NamedTemporaryFile
            self.named = NamedTemporaryFile(prefix=".cxlplan-", dir=folder)  # pylint: disable=consider-using-with
            self.end = os.dup(self.named.fileno())
            os.fchmod(self.end, 0o666 & ~mask())

    def __enter__(self) -> "Nameless":
        return self

    def __exit__(self, *_) -> None:
        os.close(self.end)
        if self.named:
            self.named.close()

    def name(self, file: str) -> None:
        """Gives it a name that no other file has."""
        if self.named:
            os.link(self.named.name, file)
            return
        opened = os.open("/proc/self/fd", os.O_PATH | os.O_CLOEXEC)  # by a folder, since links of a bare path are not followed
        try:
            os.link(str(self.end), file, src_dir_fd=opened, follow_symlinks=True)
        finally:
            os.close(opened)

    def put_over(self, file: str) -> None:
        """Gives it the name of another file, whose place it takes."""
        beside = f"{file}.{os.getpid()}.new"
        self.name(beside)
        os.rename(beside, file)


def mask() -> int:
    """The mask with which files are made."""
    was = os.umask(0o077)
    os.umask(was)
    return was
