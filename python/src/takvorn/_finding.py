"""What stands against a screen."""
from dataclasses import dataclass, fields
from typing import Any, Optional


@dataclass(frozen=True, repr=False)
class Finding:
    """A finding: its number and its name, the words that the program prints, and of the others those that apply. Rows and columns
    count from 1, places, records and bytes from 0, lines of the records from 1. `help` mends it, `keys` show it, and `sends` is
    what a terminal sends once they were pressed."""

    number: int
    name: str
    words: str
    help: Optional[str] = None
    row: Optional[int] = None
    column: Optional[int] = None
    place: Optional[int] = None
    entry: Optional[str] = None
    declared: Optional[int] = None
    length: Optional[int] = None
    record: Optional[int] = None
    line: Optional[int] = None
    byte: Optional[int] = None
    end: "Optional[dict[str, int]]" = None
    size: Any = None
    layout: Any = None
    keys: "tuple[dict[str, Any], ...]" = ()
    sends: Optional[bytes] = None
    turn: Optional[int] = None

    def __repr__(self) -> str:
        told = (f"{it.name}={getattr(self, it.name)!r}" for it in fields(self) if getattr(self, it.name) not in (None, ()))
        return f"Finding({', '.join(told)})"

    def __str__(self) -> str:
        return self.words if self.help is None else f"{self.words}\n  mend: {self.help}"


_NAMES = {field.name for field in fields(Finding)}


def finding_of(told: "dict[str, Any]") -> Finding:
    """The finding that a line of JSON tells; docs/FINDINGS.md has its keys."""
    known = {name: value for name, value in told.items() if name in _NAMES}
    if "sends" in known:
        known["sends"] = bytes.fromhex(known["sends"])
    known["keys"] = tuple(known.get("keys", ()))
    return Finding(**known)
