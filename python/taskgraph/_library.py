"""Finds the shared library, and keeps the one in use."""
from __future__ import annotations

import ctypes
import os

from . import _interface

VARIABLE = "TASKGRAPH_LIBRARY"
INSTALLED = ("libtaskgraph.so.5", "libtaskgraph.so")
HOW = f"""\
Build one in the repository of the task graph:
    scripts/install PREFIX
and name PREFIX/lib/libtaskgraph.so in the environment variable {VARIABLE}, or by taskgraph.load(PATH)."""


class LibraryError(OSError):
    """There is no shared library, or it is not the task graph's."""


def find(path: str | os.PathLike[str] | None = None) -> ctypes.CDLL:
    """The library at the path, else the one that the environment names, else an installed one."""
    named = os.environ.get(VARIABLE) or None if path is None else path
    # made absolute, since a name without a slash is looked for among the installed libraries
    names = INSTALLED if named is None else (os.path.abspath(named),)
    reasons = []
    for name in names:
        try:
            return _bound(name)
        except OSError as error:
            reasons.append(str(error))
    raise LibraryError(f"The shared library of the task graph cannot be loaded: {'; '.join(reasons)}.\n{HOW}")


def _bound(name: str) -> ctypes.CDLL:
    library = ctypes.CDLL(name)
    missing = _interface.bind(library)
    if missing:
        raise OSError(f"{name}: it has no function {missing}")
    return library


_current: ctypes.CDLL | None = None


def load(path: str | os.PathLike[str] | None = None) -> None:
    """Takes this library from now on. Without this call, the first use of the package finds one."""
    global _current
    _current = find(path)


def library() -> ctypes.CDLL:
    """The library in use."""
    if _current is None:
        load()
    assert _current is not None
    return _current


def loaded() -> ctypes.CDLL | None:
    """The library in use, if one was used yet."""
    return _current
