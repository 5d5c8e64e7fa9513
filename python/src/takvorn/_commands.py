"""The commands that take a text and give a text."""
import json
import re
from dataclasses import dataclass
from pathlib import Path
from typing import Optional, Sequence, Union

from ._finding import Finding, finding_of
from ._library import DONE, Input, call
from ._records import Records, hexadecimal, turns_of
from ._refused import Refused


class Layout:
    """A layout, from the text of its TOML (docs/LAYOUTS.md)."""

    def __init__(self, text: Union[str, bytes]) -> None:
        self.text = text if isinstance(text, bytes) else text.encode()

    @classmethod
    def read(cls, path: "Union[str, Path]") -> "Layout":
        """The layout of a file."""
        return cls(Path(path).read_bytes())

    def __repr__(self) -> str:
        return f"Layout({self.text!r})"


LayoutLike = Union[Layout, str, bytes]

_UNBOUND = re.compile(r"answer [0-9]+ (?:refused at [0-9]+|unbound): ")


def _text_of(layout: LayoutLike) -> bytes:
    return layout.text if isinstance(layout, Layout) else Layout(layout).text


def _told(name: str, *inputs: Input) -> str:
    """The text of a command whose inputs are taken; else Refused."""
    status, text = call(name, *inputs)
    if status != DONE:
        raise Refused(text.decode(errors="replace").strip())
    return text.decode()


def _bytes_in(text: str) -> "list[bytes]":
    """The records of lines of hexadecimal, without their comments."""
    return [bytes.fromhex(line) for line in text.splitlines() if line and line[0] not in "#s"]


def check(layout: LayoutLike, records: Records) -> "list[Finding]":
    """What stands against the screen of these records; nothing where it can be trusted. Refused where an input is refused."""
    _, text = call("check_json", _text_of(layout), hexadecimal(records))
    *findings, verdict = map(json.loads, text.splitlines())
    if verdict["verdict"] == "refused":
        raise Refused(verdict["words"])
    return list(map(finding_of, findings))


def talk(layouts: Sequence[LayoutLike], turns: Sequence[Records]) -> "list[str]":
    """What stands against a dialogue, each turn's records with its layout: the lines of the first turn that has findings, the line
    `turn K` first; nothing where all can be trusted. Refused where an input is refused."""
    status, text = call("talk", [_text_of(layout) for layout in layouts], turns_of(turns))
    if status == DONE:
        return []
    if status != 1:
        raise Refused(text.decode().strip())
    return text.decode().splitlines()


def draft(records: Records) -> str:
    """A layout, as TOML, of the fields that the screen of these records sends. Refused where no layout fits it."""
    return _told("draft", hexadecimal(records))


@dataclass(frozen=True)
class Answer:
    """What a terminal sent: the attention identifier, the cursor's position, counted from 0, and each field by its entry's name, as
    text and as codes of the host."""

    aid: int
    cursor: Optional[int]
    text: "dict[str, str]"
    codes: "dict[str, bytes]"


def _answer_of(lines: "list[str]", raw: "list[str]") -> Answer:
    words = raw[0].split()
    named = {words[at]: words[at + 1] for at in range(0, len(words), 2)}
    texts = [line.partition(" ") for line in lines[1:]]
    codes = [line.partition(" ") for line in raw[1:]]
    return Answer(
        aid=int(named["aid"], 16),
        cursor=int(named["cursor"]) if "cursor" in named else None,
        text={name: text for name, _, text in texts},
        codes={name: bytes.fromhex(digits) for name, _, digits in codes},
    )


def _heads(raw: "list[str]") -> "list[int]":
    """Where the lines of each answer begin, and their end: a line of a field has two words, one of an answer more."""
    return [at for at, line in enumerate(raw) if line.count(" ") > 1] + [len(raw)]


def bind(layout: LayoutLike, answers: Records) -> "list[Answer]":
    """The answers of terminals, read back into the layout's fields. Refused at the first that is no answer of its screen."""
    inputs = _text_of(layout), hexadecimal(answers)
    status, text = call("bind", *inputs, False)
    raw = text.decode().split("\n")[:-1]
    if status != DONE:
        told = [line for line in raw if _UNBOUND.match(line)]
        raise Refused((told or raw)[0])
    lines = _told("bind", *inputs, True).split("\n")
    heads = _heads(raw)
    return [_answer_of(lines[first:end], raw[first:end]) for first, end in zip(heads, heads[1:])]


@dataclass(frozen=True)
class Pressed:
    """What a key did: `done`, `inhibited`, `ignored` or `sent`; the cursor's position, or the bytes that the terminal sends."""

    did: str
    cursor: Optional[int] = None
    sent: Optional[bytes] = None


def _pressed_of(line: str) -> Pressed:
    did, _, what = line.partition(" ")
    return Pressed(did, sent=bytes.fromhex(what)) if did == "sent" else Pressed(did, cursor=int(what))


def press(records: Records, keys: str) -> "list[Pressed]":
    """What each key does, one a line, pressed in turn on the screen of these records. Refused where an input is refused."""
    return [_pressed_of(line) for line in _told("press", hexadecimal(records), keys.encode()).splitlines()]


def convert(records: Records) -> str:
    """Records as lines: a command, an order a line, an empty line. Refused where a record is refused."""
    return _told("convert", hexadecimal(records))


def convert_back(lines: str) -> "list[bytes]":
    """The records of such lines. Refused where a line is refused or a record can't be written."""
    return _bytes_in(_told("convert_back", lines.encode()))


def records(trace: Union[str, bytes], stream: bool = False, answers: bool = False) -> "list[bytes]":
    """The records in a trace of x3270, s3270 or c3270, or in a captured stream in hexadecimal; or the terminal's answers. Refused at a
    line that is refused and at a fault of the session."""
    text = trace if isinstance(trace, bytes) else trace.encode()
    return _bytes_in(_told("records", text, stream, answers))


def _source(source: Union[str, bytes]) -> bytes:
    return source if isinstance(source, bytes) else source.encode()


def map_records(source: Union[str, bytes], name: str = "", freekb: bool = False, frset: bool = False) -> "list[bytes]":
    """The records of BMS maps, or of the one of this name, as SEND MAP MAPONLY ERASE sends them. Refused where the source is."""
    return _bytes_in(_told("map", _source(source), name.encode(), False, freekb, frset))


def map_layout(source: Union[str, bytes], name: str = "", freekb: bool = False, frset: bool = False) -> Layout:
    """The layout of a BMS map. Refused where the source is."""
    return Layout(_told("map", _source(source), name.encode(), True, freekb, frset))


def check_map(source: Union[str, bytes], name: str = "", freekb: bool = False, frset: bool = False) -> "list[str]":
    """What stands against BMS maps, a line each, by the map, the field and the line of its macro; nothing where all can be trusted.
    Refused where the source is."""
    status, text = call("check_map", _source(source), name.encode(), freekb, frset)
    lines = text.decode(errors="replace").splitlines()
    if status not in (DONE, 1):
        raise Refused((lines or [""])[0])
    return [line for line in lines if not line.endswith(": yes")]
