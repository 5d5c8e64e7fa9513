"""What is raised where an input is refused."""
import re
from typing import Optional

_NUMBER = re.compile(r"\b([A-Z][0-9]+) [A-Z][A-Za-z0-9]*\b")
_PLACES = {
    "line": re.compile(r"\bline ([0-9]+) refused"),
    "record": re.compile(r"\brecord ([0-9]+) "),
    "byte": re.compile(r"\brefused at ([0-9]+):"),
    "layout": re.compile(r"\blayout ([0-9]+) "),
}


class Refused(ValueError):
    """An input is refused. `words` are those that the program prints, `number` is the refusal's, as "A1" or "L7", and of `line`
    (counted from 1, of records in hexadecimal), `record`, `byte` and `layout` (counted from 0) those that apply."""

    def __init__(self, words: str) -> None:
        super().__init__(words)
        self.words = words
        found = _NUMBER.search(words)
        self.number: Optional[str] = found[1] if found else None
        places = {name: pattern.search(words) for name, pattern in _PLACES.items()}
        at = {name: int(place[1]) for name, place in places.items() if place}
        self.line: Optional[int] = at.get("line")
        self.record: Optional[int] = at.get("record")
        self.byte: Optional[int] = at.get("byte")
        self.layout: Optional[int] = at.get("layout")

    @classmethod
    def at_byte(cls, letter: int, number: int, at: int) -> "Refused":
        """A record is refused: the letter and the number of the refusal, and its byte."""
        return cls(f"refused at {at}: {chr(letter)}{number} {_RECORD_NAMES[letter, number]}")


_RECORD_NAMES = {
    **{
        (ord("O"), at): name
        for at, name in enumerate(
            "Empty UnknownCommand StructuredField NoWcc UnknownOrder Truncated ReservedAddress BadType BadCharacter Trailing".split(), 1
        )
    },
    **{(ord("A"), at): name for at, name in enumerate("AddressOutside NoFieldHere NotAWrite".split(), 1)},
}
