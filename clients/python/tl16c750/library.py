"""The calls of the library, libtl16c750.so."""
from __future__ import annotations

import ctypes
import os
import re
from ctypes import POINTER, c_char_p, c_size_t, c_uint8, c_uint32
from pathlib import Path
from typing import Any

from .structs import (
    Answer,
    Expected,
    ExpectProgress,
    Forecasted,
    Jumped,
    JumpRan,
    Leveled,
    Looked,
    Picked,
    Progress,
    Ran,
    Replayed,
    Sizes,
    State,
    Struct,
    Versions,
)

LAYOUT = 6
"""The layout of the structs that this package is written for."""

_CALLS: dict[str, tuple[Any, ...]] = {
    "version": (Versions,),
    "fresh": (State,),
    "reset": (Answer, State),
    "read": (Answer, State, c_uint8),
    "write": (Answer, State, c_uint8, c_uint8),
    "set_sin": (Answer, State, c_uint8),
    "set_modem": (Answer, State, c_uint8),
    "tick": (Answer, State),
    "ticks": (Answer, State, c_uint32),
    "pins": (Looked, State),
    "forecast": (Forecasted, State),
    "level": (Leveled, State, c_uint32),
    "run": (Ran, State, c_uint32),
    "jump": (Jumped, State, c_uint32),
    "jump_run": (JumpRan, State, c_uint32),
    "divisor_for": (Picked, c_uint32, c_uint32),
    "replay": (Replayed, State, c_uint32, POINTER(c_uint32), c_size_t),
    "replay_begin": (Progress, c_char_p, c_size_t),
    "replay_more": (Progress, Progress, c_char_p, c_size_t),
    "replay_end": (Replayed, Progress, c_char_p, c_size_t),
    "expect": (Expected, State, c_uint32, POINTER(c_uint32), c_size_t, POINTER(c_uint32), c_size_t),
    "expect_begin": (ExpectProgress, c_char_p, c_size_t),
    "expect_more": (ExpectProgress, ExpectProgress, POINTER(c_uint8), c_size_t),
    "expect_end": (ExpectProgress, ExpectProgress, POINTER(c_uint8), c_size_t),
    "sizes_of_structs": (Sizes,),
}

MEASURED: tuple[type[Struct], ...] = (
    State,
    Answer,
    Looked,
    Forecasted,
    Leveled,
    Ran,
    Replayed,
    Progress,
    Picked,
    Expected,
    ExpectProgress,
    Jumped,
    JumpRan,
)
"""The structs of which the library tells the size and has a specimen."""


def name_of(struct: type[Struct]) -> str:
    """The name of a struct in the library's calls."""
    return re.sub("(?<=[a-z])(?=[A-Z])", "_", struct.__name__).lower()


_CALLS.update(("specimen_" + name_of(struct), (struct,)) for struct in MEASURED)


def _path() -> Path:
    """The library that UART_LIBRARY names, or the one beside this file, or the repository's."""
    named = os.environ.get("UART_LIBRARY")
    if named:
        return Path(named)
    here = Path(__file__).resolve().parent
    beside = here / "libtl16c750.so"
    return beside if beside.exists() else here.parents[2] / "target" / "clients" / "libtl16c750.so"


def _load() -> ctypes.CDLL:
    """The library, with the types of its calls."""
    path = _path()
    try:
        library = ctypes.CDLL(os.fspath(path))
        for name, (result, *parameters) in _CALLS.items():
            call = getattr(library, "uart_" + name)
            call.restype = result
            call.argtypes = parameters
    except (OSError, AttributeError) as error:
        raise ImportError(
            f"{error}\nThe UART's library is made by `make library` at the top of its repository;"
            " the variable UART_LIBRARY names another one."
        ) from None
    layout = library.uart_version().layout
    if layout != LAYOUT:
        raise ImportError(
            f"{path} has its structs in layout {layout}, and this package in layout {LAYOUT}:"
            " make both from one repository by `make library`."
        )
    return library


library = _load()
