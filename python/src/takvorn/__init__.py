"""3270 screens: shown, checked against layouts, drafted, typed into, and answers read back into fields.

A record is `bytes`, several are a sequence of them, and a `str` is a text with a record in hexadecimal a line. What is refused raises
Refused, with the refusal's number and its place."""
from ._commands import (
    Answer,
    Layout,
    LayoutLike,
    Pressed,
    bind,
    check,
    check_map,
    convert,
    convert_back,
    draft,
    map_layout,
    map_records,
    press,
    records,
    talk,
)
from ._finding import Finding
from ._records import Records
from ._refused import Refused
from ._screen import Field, Screen, drawing, show
from ._session import Agreed, Session, SessionFailed
from ._suite import Case, suite
from ._terminal import Cell, Effect, Span, Status, Terminal

__all__ = [
    "Agreed",
    "Answer",
    "Case",
    "Cell",
    "Effect",
    "Field",
    "Finding",
    "Layout",
    "LayoutLike",
    "Pressed",
    "Records",
    "Refused",
    "Screen",
    "Session",
    "SessionFailed",
    "Span",
    "Status",
    "Terminal",
    "bind",
    "check",
    "check_map",
    "convert",
    "convert_back",
    "draft",
    "drawing",
    "map_layout",
    "map_records",
    "press",
    "records",
    "show",
    "suite",
    "talk",
]
