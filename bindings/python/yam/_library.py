"""Finds and opens libyam.so, the proved library as a shared one."""

from __future__ import annotations

import ctypes
import os
import pathlib

VARIABLE = "YAM_LIBRARY"
BUILD = "bindings/python/build"
CALLS = (
    "yam_read",
    "yam_write",
    "yam_reset",
    "yam_step",
    "yam_run",
    "yam_check",
    "yam_text",
    "yam_list",
    "yam_assemble",
    "yam_load",
    "yam_store",
)
_TREE = pathlib.Path(__file__).resolve().parent.parent.parent.parent
_BUILT = _TREE / "target" / "python" / "libyam.so"


def open_library() -> ctypes.PyDLL:
    """The library that YAM_LIBRARY names, else the one that bindings/python/build makes.

    A PyDLL keeps the interpreter's lock in a call, so that threads which call on the same lists
    take turns: the lists of a call must not change beneath it.

    Raises ImportError, with what to run, where there is none.
    """
    named = os.environ.get(VARIABLE)
    place = named or str(_BUILT)
    if not os.path.isfile(place):
        said = f", which {VARIABLE} names" if named else ""
        raise ImportError(
            f"yam: there is no library {place}{said}: run {BUILD} in the project's tree, and for a"
            f" package outside of it set {VARIABLE} to that tree's target/python/libyam.so"
        )
    try:
        library = ctypes.PyDLL(place)
        for call in CALLS:
            getattr(library, call).restype = ctypes.c_uint32
    except (OSError, AttributeError) as error:
        raise ImportError(f"yam: {place} is not the library of {BUILD}: {error}") from error
    return library


LIBRARY = open_library()
