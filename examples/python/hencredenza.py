"""Hencredenza for Python: where a formula wants one value and where it wants many.

One file over ctypes. Requests, formulas and answers are what `json` makes of the forms in docs/REQUEST.md.

    import hencredenza
    hencredenza.answer(request)["imported"]
    hencredenza.import_formula(["call", "SIN", node])["imported"]

The library is build/libhencredenza.so of this repository, or what the environment's HENCREDENZA_LIBRARY names.
"""

import ctypes
import json
import os
import pathlib

__all__ = ["HencredenzaError", "answer", "import_formula"]

DONE = 0
NO_ROOM = 1
FIRST_ROOM = 65536  # bytes, more than most lines take

_BUILT = pathlib.Path(__file__).resolve().parents[2] / "build" / "libhencredenza.so"
_library = ctypes.CDLL(os.environ.get("HENCREDENZA_LIBRARY", str(_BUILT)))
_bytes, _length = ctypes.c_char_p, ctypes.c_size_t
_room = [_bytes, _length, ctypes.POINTER(_length)]
_library.hencredenza_run.argtypes = [_bytes, _length, _bytes, _length, *_room]
_library.hencredenza_run.restype = ctypes.c_uint32
_library.hencredenza_formula.argtypes = [_bytes, _length, ctypes.c_bool, *_room]
_library.hencredenza_formula.restype = ctypes.c_uint32


class HencredenzaError(Exception):
    """A refusal. `status` is its number, one of those in include/hencredenza.h; the text is its line."""

    def __init__(self, status, line):
        super().__init__(line)
        self.status = status


def answer(request: dict) -> dict:
    """The answer to a request: an object with the keys `exported`, `given_shape`, `imported` and so on."""
    text = _text_of(request)
    return json.loads(_line(_library.hencredenza_run, b"answer", 6, text, len(text)))


def import_formula(node, every_scalar: bool = False) -> dict:
    """A formula alone, as a tree: an object with the keys `imported` and `exported`.

    `every_scalar` asks for the rule `every-scalar` in place of `as-crate`.
    """
    text = _text_of(node)
    return json.loads(_line(_library.hencredenza_formula, text, len(text), every_scalar))


def _text_of(value) -> bytes:
    return json.dumps(value, ensure_ascii=False).encode()


def _line(call, *arguments) -> str:
    """The line of a call, in a room that grows until the line fits."""
    length = _length(FIRST_ROOM)
    status = NO_ROOM
    while status == NO_ROOM:
        room = ctypes.create_string_buffer(length.value)
        status = call(*arguments, room, len(room), ctypes.byref(length))
    line = room.raw[: length.value].decode()
    if status != DONE:
        raise HencredenzaError(status, line.rstrip("\n"))
    return line
