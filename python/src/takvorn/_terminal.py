"""A terminal that is kept."""
import ctypes
import threading
import weakref
from dataclasses import dataclass
from typing import Optional, Tuple

from ._commands import LayoutLike, Pressed, check
from ._finding import Finding
from ._library import BAD_INPUT, NO_MEMORY, library
from ._refused import Refused
from ._screen import Screen, show

Size = Tuple[int, int]
"""Rows and columns."""

_KEYBOARDS = ("free", "waiting", "error")
DID = ("done", "inhibited", "ignored", "sent")
_ASKED = ("shown", "read buffer", "read modified", "read modified all", "no operation")
_KINDS = ("character", "alternate", "attribute")
_KEYS = {
    name: (at + 1, 0)
    for at, name in enumerate(
        ("left", "right", "up", "down", "tab", "backtab", "newline", "home", "eraseeof", "eraseinput", "delete", "reset")
    )
}
_AIDS = {
    "enter": 0x7D,
    "clear": 0x6D,
    "pa1": 0x6C,
    "pa2": 0x6E,
    "pa3": 0x6B,
    **{f"pf{n}": aid for n, aid in enumerate(bytes.fromhex("F1F2F3F4F5F6F7F8F97A7B7CC1C2C3C4C5C6C7C8C94A4B4C"), 1)},
}

# What stands before the record that draws the screen, and where its length stands.
_HEADER, _LENGTH = 11, slice(8, 11)


class HeldTerminal(ctypes.Structure):
    """A terminal that the library holds."""

    _fields_ = [("terminal", ctypes.c_void_p)]


class _Effect(ctypes.Structure):
    _fields_ = [
        ("kind", ctypes.c_uint8),
        ("alarm", ctypes.c_bool),
        ("restored", ctypes.c_bool),
        ("letter", ctypes.c_uint8),
        ("number", ctypes.c_uint8),
        ("at", ctypes.c_size_t),
    ]


class _Field(ctypes.Structure):
    _fields_ = [
        ("attribute", ctypes.c_uint32),
        ("first", ctypes.c_uint32),
        ("length", ctypes.c_uint32),
        ("bits", ctypes.c_uint8),
    ]


class _Status(ctypes.Structure):
    _fields_ = [
        ("rows", ctypes.c_uint16),
        ("columns", ctypes.c_uint16),
        ("cursor", ctypes.c_uint32),
        ("lock", ctypes.c_uint8),
        ("aid", ctypes.c_uint8),
    ]


@dataclass(frozen=True)
class Effect:
    """What becomes of a record: `did` is "shown", with whether it sounds the alarm and restores the keyboard; "read buffer", "read
    modified" or "read modified all", which `buffer` and `answer` answer; or "no operation"."""

    did: str
    alarm: bool
    restored: bool


@dataclass(frozen=True)
class Status:
    """The size in use, the cursor's position, counted from 0 row by row, the keyboard (free, waiting or error), and the attention identifier
    of the last key that sent, 0x60 where there is none."""

    rows: int
    columns: int
    cursor: int
    keyboard: str
    aid: int


@dataclass(frozen=True)
class Cell:
    """What stands at a position: `kind` is "character", "alternate" (of the alternate set) or "attribute", with its code, an attribute's six bits."""

    kind: str
    code: int


@dataclass(frozen=True)
class Span:
    """A field as it stands: the position of its attribute, the position after that (0 after the last one), how many positions it governs, and the
    attribute's six bits. Positions count from 0 row by row."""

    attribute: int
    first: int
    length: int
    bits: int


def numbers_of(key: str) -> "tuple[int, int]":
    """The numbers of a key by its word, as `press` takes it."""
    if key in _AIDS:
        return 13, _AIDS[key]
    if key in _KEYS:
        return _KEYS[key]
    word, _, digits = key.partition(" ")
    if word != "type" or len(digits) != 2:
        raise ValueError(f"no key: {key}")
    return 0, int(digits, 16)


def _free(held: HeldTerminal) -> None:
    library.takvorn_held_free(ctypes.byref(held))


class Terminal:
    """A terminal: it takes records and keys, and tells its cells, its fields, its screen and what it sends. `state` is all of it, as bytes: two
    terminals that show and keep the same have equal states, and `Terminal.of` makes a terminal of them again. Threads may share it."""

    def __init__(self, default: Size = (24, 80), alternate: Optional[Size] = None, wide: bool = False) -> None:
        """A new terminal of a default and an alternate size, which without one is the default; with `wide` its addresses are of 16 bits. Its
        keyboard waits for a record. ValueError where no terminal has these sizes: 1 to 255 rows, 2 to 255 columns."""
        sizes = (*default, *(alternate or default))
        if not all(0 <= number < 65536 for number in sizes):
            raise ValueError(f"no terminal has these sizes: {sizes}")
        self._hold(HeldTerminal())
        numbers = [*map(ctypes.c_uint16, sizes), ctypes.c_bool(wide)]
        if self._call("new", *numbers, held_last=True) == BAD_INPUT:
            raise ValueError(f"no terminal has these sizes: {sizes}")

    def _hold(self, held: HeldTerminal) -> None:
        """Keeps a handle, which is freed with this object; calls with it come one at a time."""
        self._held, self._lock = held, threading.Lock()
        weakref.finalize(self, _free, held)

    def _call(self, name: str, *words: object, held_last: bool = False) -> int:
        held = ctypes.byref(self._held)
        function = getattr(library, "takvorn_held_" + name)
        function.restype = ctypes.c_int32
        with self._lock:
            status: int = function(*words, held) if held_last else function(held, *words)
        if status == NO_MEMORY:
            raise MemoryError("takvorn_held_" + name)
        return status

    def _bytes(self, name: str, *words: object) -> bytes:
        room, needed = 8192, ctypes.c_size_t()
        while True:
            out = ctypes.create_string_buffer(room)
            self._call(name, *words, out, ctypes.c_size_t(room), ctypes.byref(needed))
            if needed.value <= room:
                return out.raw[: needed.value]
            room = needed.value

    @classmethod
    def _of_handle(cls, held: HeldTerminal) -> "Terminal":
        """The terminal of a handle that the library filled."""
        made = cls.__new__(cls)
        made._hold(held)
        return made

    @classmethod
    def of(cls, state: bytes) -> "Terminal":
        """The terminal whose state these bytes are. ValueError where they are no state."""
        made = cls._of_handle(HeldTerminal())
        if made._call("load", ctypes.c_char_p(state), ctypes.c_size_t(len(state))) == BAD_INPUT:
            raise ValueError("the bytes are no state of a terminal")
        return made

    @property
    def state(self) -> bytes:
        """All of the terminal, as bytes."""
        return self._bytes("save")

    def copy(self) -> "Terminal":
        """Another terminal that shows and keeps the same."""
        return Terminal.of(self.state)

    def __eq__(self, other: object) -> bool:
        return isinstance(other, Terminal) and self.state == other.state

    __hash__ = None  # type: ignore[assignment]

    def apply(self, record: bytes) -> Effect:
        """Applies a record. Refused, with number and byte, where it is refused; then the terminal is as it was."""
        told = _Effect()
        self._call("apply", ctypes.c_char_p(record), ctypes.c_size_t(len(record)), ctypes.byref(told))
        if told.kind == 5:
            raise Refused.at_byte(told.letter, told.number, told.at)
        return Effect(_ASKED[told.kind], told.alarm, told.restored)

    def press(self, key: str) -> Pressed:
        """Presses a key, named as `takvorn.press` names it: "type C1", "tab", "enter", .. ; what it does, with the cursor's position, or the
        bytes that the terminal sends. ValueError where there is no such key."""
        kind, code = numbers_of(key)
        told = ctypes.c_uint8()
        if self._call("press", ctypes.c_uint8(kind), ctypes.c_uint8(code), ctypes.byref(told)) == BAD_INPUT:
            raise ValueError(f"no key: {key}")
        did = DID[told.value]
        return Pressed(did, sent=self.answer()) if did == "sent" else Pressed(did, cursor=self.status.cursor)

    def answer(self, all: bool = False) -> bytes:
        """The answer to Read Modified, with `all` to Read Modified All."""
        return self._bytes("answer", ctypes.c_bool(all))

    def buffer(self) -> bytes:
        """The answer to Read Buffer."""
        return self._bytes("buffer")

    @property
    def cells(self) -> "tuple[Cell, ...]":
        """The cells of the size in use, row by row."""
        pairs = self._bytes("cells")
        return tuple(Cell(_KINDS[pairs[at]], pairs[at + 1]) for at in range(0, len(pairs), 2))

    @property
    def fields(self) -> "tuple[Span, ...]":
        """The fields, in rising order of their attributes."""
        room, needed = 64, ctypes.c_size_t()
        while True:
            fields = (_Field * room)()
            self._call("fields", fields, ctypes.c_size_t(room), ctypes.byref(needed))
            if needed.value <= room:
                return tuple(Span(it.attribute, it.first, it.length, it.bits) for it in fields[: needed.value])
            room = needed.value

    @property
    def status(self) -> Status:
        told = _Status()
        self._call("status", ctypes.byref(told))
        return Status(told.rows, told.columns, told.cursor, _KEYBOARDS[told.lock], told.aid)

    def _drawn(self) -> str:
        """The sizes, and the record that draws the screen, as a text of records."""
        state = self.state
        rows, columns, other_rows, other_columns = state[2:6]
        length = int.from_bytes(state[_LENGTH], "big")
        wide = " 16" if state[1] else ""
        drawing = state[_HEADER : _HEADER + length].hex().upper()
        return f"size {rows}x{columns} {other_rows}x{other_columns}{wide}\n{drawing}\n"

    @property
    def screen(self) -> Screen:
        """The screen as it stands: its fields, and its rows as an operator sees them."""
        drawn, status = show(self._drawn()), self.status
        return Screen(drawn.rows, drawn.columns, drawn.cursor, status.keyboard, drawn.fields, drawn.text)

    def check(self, layout: LayoutLike) -> "list[Finding]":
        """What stands against the screen as it stands and a layout: nothing where it conforms. Refused where the layout is refused."""
        return check(layout, self._drawn().split("\n", 1)[1])
