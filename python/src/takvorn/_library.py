"""Calls of the C library, by ctypes."""
import ctypes
import os
from pathlib import Path
from typing import Any, Sequence, Union

DONE, FINDINGS, BAD_INPUT, NO_MEMORY = 0, 1, 2, 4

Input = Union[bool, bytes, Sequence[bytes]]


class _Text(ctypes.Structure):
    _fields_ = [("bytes", ctypes.c_char_p), ("length", ctypes.c_size_t)]


def _path() -> str:
    """The library that the environment names as TAKVORN_LIBRARY, or that lies in the package, or that the system finds."""
    named = os.environ.get("TAKVORN_LIBRARY")
    if named:
        return named
    beside = Path(__file__).with_name("libtakvorn.so.1")
    return str(beside) if beside.exists() else "libtakvorn.so.1"


library = ctypes.CDLL(_path())


def _words(given: Input) -> "list[Any]":
    """An input as the words of a call in C."""
    if isinstance(given, bool):
        return [ctypes.c_bool(given)]
    if isinstance(given, bytes):
        return [ctypes.c_char_p(given), ctypes.c_size_t(len(given))]
    texts = (_Text * max(len(given), 1))(*[_Text(text, len(text)) for text in given])
    return [texts, ctypes.c_size_t(len(given))]


def call(name: str, *inputs: Input) -> "tuple[int, bytes]":
    """The status and the whole text of the function takvorn_NAME. Where memory was refused MemoryError is raised."""
    words = [word for given in inputs for word in _words(given)]
    function = getattr(library, "takvorn_" + name)
    function.restype = ctypes.c_int32
    room = 4096
    while True:
        out = ctypes.create_string_buffer(room)
        needed = ctypes.c_size_t()
        status: int = function(*words, out, ctypes.c_size_t(room), ctypes.byref(needed))
        if status == NO_MEMORY:
            raise MemoryError("takvorn_" + name)
        if needed.value <= room:
            return status, out.raw[: needed.value]
        room = needed.value
