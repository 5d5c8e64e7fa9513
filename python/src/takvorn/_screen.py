"""The screen that records leave."""
import json
from dataclasses import dataclass
from typing import Any, Iterator, Mapping, Optional

from ._library import BAD_INPUT, call
from ._records import Records, hexadecimal
from ._refused import Refused


@dataclass(frozen=True)
class Field:
    """A field: where its attribute and its first character stand, counted from 0, how many cells it has, what its attribute says, and
    its characters, a hidden field's too, as text and as codes of the host."""

    at: int
    place: int
    length: int
    protected: bool
    numeric: bool
    hidden: bool
    intensified: bool
    modified: bool
    characters: str
    codes: bytes


@dataclass(frozen=True)
class Screen:
    """A screen: its size, the cursor's position and those of the fields, counted from 0 row by row, the keyboard (free, waiting or
    error), and its rows as an operator sees them: nulls, attributes and hidden characters are spaces."""

    rows: int
    columns: int
    cursor: int
    keyboard: str
    fields: "tuple[Field, ...]"
    text: "tuple[str, ...]"

    def __str__(self) -> str:
        return "\n".join(self.text)

    def field_at(self, row: int, column: int) -> Field:
        """The field whose first character stands at this row and column, counted from 1. KeyError where none does."""
        place = (row - 1) * self.columns + column - 1
        for field in self.fields:
            if field.place == place:
                return field
        raise KeyError((row, column))

    def marked(self, marks: Mapping[int, str]) -> str:
        """The rows between bars, and below a row with positions that have a mark another with these marks."""
        lines = []
        for number, row in enumerate(self.text):
            lines.append(f"|{row}|")
            first = number * self.columns
            here = "".join(marks.get(first + column, " ") for column in range(self.columns)).rstrip()
            if here:
                lines.append(" " + here)
        return "\n".join(lines)


def _field_of(told: "dict[str, Any]") -> Field:
    known = {name: told[name] for name in Field.__dataclass_fields__ if name != "codes"}
    return Field(codes=bytes.fromhex(told["codes"]), **known)


def _hidden(told: "dict[str, Any]") -> Iterator[int]:
    """The positions of characters that are not shown."""
    cells = told["rows"] * told["columns"]
    for field in told["fields"]:
        if field["hidden"]:
            for step in range(field["length"]):
                yield (field["place"] + step) % cells


def _screen_of(text: bytes) -> Screen:
    told = json.loads(text)
    columns = told["columns"]
    unseen = set(_hidden(told))
    rows = []
    for number, (shown, codes) in enumerate(zip(told["text"], told["codes"])):
        cells = zip(shown, bytes.fromhex(codes))
        row = (" " if code in (0x00, 0x1D) or number * columns + column in unseen else letter for column, (letter, code) in enumerate(cells))
        rows.append("".join(row))
    return Screen(
        rows=told["rows"],
        columns=columns,
        cursor=told["cursor"],
        keyboard=told["keyboard"],
        fields=tuple(map(_field_of, told["fields"])),
        text=tuple(rows),
    )


def show(records: Records, keys: Optional[str] = None) -> Screen:
    """The screen that records leave, or that keys leave, one a line, which are pressed on it. Refused where an input is refused."""
    if keys is None:
        status, text = call("show_json", hexadecimal(records))
    else:
        status, text = call("show_pressed", hexadecimal(records), keys.encode(), True)
    if status == BAD_INPUT:
        raise Refused(text.decode().strip())
    return _screen_of(text)


def drawing(records: Records, form: str = "svg") -> str:
    """The screen as a drawing: `svg`, or a page with one, `html`. Refused where an input is refused."""
    if form not in ("svg", "html"):
        raise ValueError(f"no form of a drawing: {form}")
    status, text = call("show_" + form, hexadecimal(records))
    if status == BAD_INPUT:
        raise Refused(text.decode().strip())
    return text.decode()
