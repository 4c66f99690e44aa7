"""The one way to the proved calls: the library where it is found, else the program as a process.

An engine answers each form of the program over bytes as (status, text), and opens sessions, which are the program's. Trees, windows,
decoders and all places of a broken rule the library alone tells, as facts. Nothing here works out what a form answers."""

import os
import shutil
import threading
from typing import Optional

from .errors import NoEngine

HOW = ("neither libcxlplan.so nor the program cxlplan is found: run ./prove in the repository, or ./install, or name one in "
       "CXLPLAN_LIBRARY or CXLPLAN; CXLPLAN=$(./unproved) names one without a proof")
HERE = os.path.dirname(os.path.realpath(__file__))
_kept = threading.local()


def places(name: str, variable: str, folders: list) -> list:
    """Where a file may be: what the variable names, alone, or else these folders."""
    if os.environ.get(variable):
        return [os.environ[variable]]
    return [os.path.join(folder, name) for folder in folders]


def above(*folders: str) -> Optional[str]:
    """The folder above these, where the package stands in them."""
    behind = os.path.join(os.sep, *folders, "cxlplan")
    return HERE[:-len(behind)] or os.sep if HERE.endswith(behind) else None


def homes(built: str, installed: str) -> list:
    """The folders of a built file: that of an install, where the package stands in share/cxlplan/python, or that of the checkout around it.
    Nothing else that is found by going up is taken, since others may write there."""
    prefix, top = above("share", "cxlplan", "python"), above("python")
    if prefix is not None:
        return [os.path.join(prefix, installed)]
    return [os.path.join(top, built)] if top is not None and os.path.isfile(os.path.join(top, "crates.txt")) else []


def library():
    """The module over libcxlplan.so, where that is found."""
    try:
        from . import _library
        _library.library()
    except (ImportError, OSError):
        return None
    return _library


def program_file(name: str = "cxlplan", variable: str = "CXLPLAN") -> Optional[str]:
    """The proved program of a repository, of an install, or on the search path."""
    found = next((file for file in places(name, variable, homes(f"crates/{name}/out", "bin")) if os.path.isfile(file) and os.access(file, os.X_OK)), None)
    return found or (None if os.environ.get(variable) else shutil.which(name))


def engine():
    """The engine of this thread, found once."""
    if getattr(_kept, "engine", None) is None:
        _kept.engine = find()
    return _kept.engine


def use(found) -> None:
    """Has this thread use an engine, or with None look for one anew."""
    _kept.engine = found


def find():
    """The library, else the program. CXLPLAN_ENGINE=program passes over the library."""
    found = library() if os.environ.get("CXLPLAN_ENGINE") != "program" else None
    if found:
        from ._by_library import LibraryEngine
        return LibraryEngine(found, program)
    made = program()
    if made is None:
        raise NoEngine(HOW)
    return made


def program():
    """The engine over the program, or None where that is not found."""
    name = program_file()
    if name is None:
        return None
    from ._by_program import ProgramEngine
    return ProgramEngine(name)
