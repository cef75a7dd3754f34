"""The shared library of the proved calls, and how words are lent to it."""

from __future__ import annotations

import ctypes
import functools
import os
import pathlib
from array import array
from typing import Any, Sequence, Union

PLACE = pathlib.Path(__file__).resolve().parents[3] / "target" / "native" / "libcordbasin.so"

Words = Union[Sequence[int], "array[int]"]

_SIZE, _WORD, _NUMBERS, _BYTES = ctypes.c_size_t, ctypes.c_int32, ctypes.c_void_p, ctypes.c_void_p
_LENT = [_NUMBERS, _SIZE]
_STATE = 4 * _LENT
_CALLS = {
    "cordbasin_read": [_BYTES, _SIZE] + 3 * _LENT + [_NUMBERS],
    "cordbasin_run": _STATE + _LENT + [_WORD, _NUMBERS],
    "cordbasin_assign": _STATE + 2 * _LENT + [_WORD, _NUMBERS],
    "cordbasin_ask": _STATE + [_WORD] + 2 * _LENT + [_NUMBERS],
    "cordbasin_write": _LENT + [_BYTES, _SIZE] + _LENT + [_BYTES, _SIZE, _NUMBERS],
}


class LibraryMissing(OSError):
    """The shared library is not there, or is not Cordbasin's."""


@functools.lru_cache(maxsize=None)
def library() -> ctypes.CDLL:
    """The library, with the types of its calls. CORDBASIN_LIBRARY names another file than the one that tools/native writes."""
    place = os.environ.get("CORDBASIN_LIBRARY", str(PLACE))
    if not os.path.isfile(place):
        raise LibraryMissing(f"{place} is missing: tools/native --shared cordbasin writes it")
    try:
        loaded = ctypes.CDLL(place)
        for name, kinds in _CALLS.items():
            call = getattr(loaded, name)
            call.argtypes, call.restype = kinds, _SIZE
    except (OSError, AttributeError) as fault:
        raise LibraryMissing(f"{place} is no library of Cordbasin's: {fault}") from fault
    return loaded


def words_of(numbers: Words) -> "array[int]":
    """The numbers as 32-bit words of their own; OverflowError where one does not fit."""
    return array("i", numbers)


def call(name: str, *lent: Any) -> int:
    """Makes a call. Words and bytes are lent in place, each with its count; numbers are handed over as they are."""
    handed = []
    held = []  # the views that keep what is lent where it is while the call runs
    for piece in lent:
        if isinstance(piece, int):
            handed.append(piece)
            continue
        view = (ctypes.c_char * (len(piece) * (4 if isinstance(piece, array) else 1))).from_buffer(piece)
        held.append(view)
        handed += [ctypes.addressof(view), len(piece)]
    handed.pop()  # the answer stands last, and has no count
    return int(getattr(library(), name)(*handed))
