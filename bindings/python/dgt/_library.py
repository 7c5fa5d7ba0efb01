"""Loads the shared library, and declares the calls of dgt.h."""

import ctypes
import os
import sys
from pathlib import Path

from ._c import CALLS, SIZES
from ._version import SONAME


def _place() -> str:
    """Returns the first of these libraries: the one that DGT_LIBRARY names, the one in this folder,
    the source tree's, the system's."""
    here = Path(__file__).resolve().parent
    places = [here / "libdgt.so", here.parents[1] / "c" / "out" / "libdgt.so"]
    found = [str(place) for place in places if place.exists()]
    return os.environ.get("DGT_LIBRARY") or (found + [SONAME])[0]


def _load() -> ctypes.CDLL:
    """Loads the library. `ImportError` if it is missing or another library, or if Python isn't
    CPython: the package needs the address of an object's bytes."""
    if sys.implementation.name != "cpython":
        raise ImportError(f"the package dgt needs CPython: this is {sys.implementation.name}")
    place = _place()
    try:
        library = ctypes.CDLL(place)
    except OSError as fault:
        raise ImportError(f"the library of the package dgt can't be loaded: {fault}. Make it with "
                          "bindings/c/build, or name it in DGT_LIBRARY") from fault
    another = f"{place} is another library, not that of this package dgt"
    try:
        _declare(library)
    except AttributeError as fault:
        raise ImportError(f"{another}: {fault}") from fault
    sizes = {prefix: getattr(library, f"{prefix}_size")() for prefix in SIZES}
    if sizes != SIZES:
        raise ImportError(f"{another}: its sizes are {sizes} instead of {SIZES}")
    return library


def _declare(library: ctypes.CDLL) -> None:
    for name, (result, *parameters) in CALLS.items():
        function = getattr(library, name)
        function.restype, function.argtypes = result, parameters


dgt = _load()
is_proved = not hasattr(dgt, "dgt_unproved")
