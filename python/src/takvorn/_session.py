"""A terminal's session with a host."""
import ctypes
import threading
import weakref
from dataclasses import dataclass
from typing import Optional

from ._commands import Pressed
from ._library import BAD_INPUT, FINDINGS, NO_MEMORY, library
from ._screen import Screen
from ._terminal import DID, HeldTerminal, Terminal, numbers_of


class _HeldSession(ctypes.Structure):
    _fields_ = [("session", ctypes.c_void_p)]


class _Agreed(ctypes.Structure):
    _fields_ = [
        ("ready", ctypes.c_bool),
        ("enhanced", ctypes.c_bool),
        ("responses", ctypes.c_bool),
        ("takes_input", ctypes.c_bool),
        ("extended", ctypes.c_bool),
        ("model", ctypes.c_uint8),
    ]


@dataclass(frozen=True)
class Agreed:
    """What a session agreed on: whether it is `enhanced`, that is TN3270E, and with `responses`; and the device's model, 2 to 5, and whether it is
    `extended`."""

    enhanced: bool
    responses: bool
    extended: bool
    model: int


class SessionFailed(Exception):
    """The host's bytes, or their record, are no session's. `fault` is the fault's number, as `N1` (docs/SESSIONS.md tells them), and `due` what was due to
    the host before; the session takes nothing more."""

    def __init__(self, fault: str, due: bytes) -> None:
        super().__init__(f"the session failed: {fault}")
        self.fault, self.due = fault, due


def _free(held: _HeldSession) -> None:
    library.takvorn_session_free(ctypes.byref(held))


class Session:
    """A terminal's session with a host, by TN3270E or classic TN3270. It reads and writes nothing: `take` takes the bytes that the host sent, in pieces of
    any length, and gives the bytes to send. Threads may share it."""

    def __init__(self, device: str = "IBM-3278-2-E", enhanced: bool = True, responses: bool = True, tolerant: bool = True) -> None:
        """A session at its beginning, of a device by its name: `IBM-3278-` or `IBM-3279-`, a model 2 to 5, and `-E` or not. `enhanced` says whether it
        takes TN3270E, `responses` whether it asks for RESPONSES there, and `tolerant` whether it gets through where a strict one fails. ValueError where no
        device has this name."""
        name = device.encode()
        self._held, self._lock = _HeldSession(), threading.Lock()
        weakref.finalize(self, _free, self._held)
        flags = [ctypes.c_bool(it) for it in (enhanced, responses, tolerant)]
        function = library.takvorn_session_new
        function.restype = ctypes.c_int32
        status: int = function(ctypes.c_char_p(name), ctypes.c_size_t(len(name)), *flags, ctypes.byref(self._held))
        if status == BAD_INPUT:
            raise ValueError(f"no device: {device}")
        if status == NO_MEMORY:
            raise MemoryError("takvorn_session_new")

    def _call(self, name: str, *words: object) -> int:
        function = getattr(library, "takvorn_session_" + name)
        function.restype = ctypes.c_int32
        with self._lock:
            status: int = function(ctypes.byref(self._held), *words)
        if status == NO_MEMORY:
            raise MemoryError("takvorn_session_" + name)
        return status

    def _text(self, name: str) -> bytes:
        room, needed = 4096, ctypes.c_size_t()
        while True:
            out = ctypes.create_string_buffer(room)
            self._call(name, out, ctypes.c_size_t(room), ctypes.byref(needed))
            if needed.value <= room:
                return out.raw[: needed.value]
            room = needed.value

    def _due(self) -> bytes:
        return self._text("due")

    def _failed(self, due: bytes) -> SessionFailed:
        return SessionFailed(self._text("fault").decode(), due)

    def take(self, data: bytes) -> bytes:
        """Takes bytes that the host sent, and gives those that are due to it: replies, RESPONSES, and answers to reads. SessionFailed where the session
        fails, and each time after."""
        status = self._call("take", ctypes.c_char_p(data), ctypes.c_size_t(len(data)))
        due = self._due()
        if status == FINDINGS:
            raise self._failed(due)
        return due

    def press(self, key: str) -> Pressed:
        """Presses a key, named as `takvorn.press` names it; what it does, with the cursor's position, or the bytes to send to the host. Before the session
        is ready a key is ignored. ValueError where there is no such key, SessionFailed after the session failed."""
        kind, code = numbers_of(key)
        told = ctypes.c_uint8()
        status = self._call("press", ctypes.c_uint8(kind), ctypes.c_uint8(code), ctypes.byref(told))
        if status == BAD_INPUT:
            raise ValueError(f"no key: {key}")
        if status == FINDINGS:
            raise self._failed(self._due())
        did = DID[told.value]
        return Pressed(did, sent=self._due()) if did == "sent" else Pressed(did, cursor=self.terminal.status.cursor)

    def _told(self) -> _Agreed:
        told = _Agreed()
        self._call("agreed", ctypes.byref(told))
        return told

    @property
    def agreed(self) -> Optional[Agreed]:
        """What the session agreed on; None before it is ready, and after it failed."""
        told = self._told()
        return Agreed(told.enhanced, told.responses, told.extended, told.model) if told.ready else None

    @property
    def takes_input(self) -> bool:
        """Whether the screen takes input: the session is ready, the screen has a field, the keyboard doesn't wait, and the cursor isn't at 0."""
        return bool(self._told().takes_input)

    @property
    def terminal(self) -> Terminal:
        """A copy of the session's terminal, as it stands."""
        held = HeldTerminal()
        self._call("screen", ctypes.byref(held))
        return Terminal._of_handle(held)

    @property
    def screen(self) -> Screen:
        """The screen as it stands."""
        return self.terminal.screen
