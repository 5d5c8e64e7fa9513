"""Checks records drawn at random, with the pen, and does what the help of each finding says: then that finding is gone.

    python3 tests/helps.py PROGRAM [COUNT [SEED]]

A change of the screen is a further order at the end of the last record; a change of the layout is made in its text. The last
line is 'N passed, M failed'.
"""
import json
import pathlib
import random
import re
import subprocess
import sys
import tempfile

from origins import CELLS, COLUMNS, SPELLED, layout, record

FIELD = re.compile(r"field (\d+) attr (..) place (\d+) length (\d+)")


def changed_table(text, name, key, value):
    """The layout with another value of a key in the table of this name."""
    head, *tables = text.split("[[field]]\n")
    tables = [set_key(it, key, value) if f'name = "{name}"\n' in it else it for it in tables]
    return "[[field]]\n".join([head, *tables])


def set_key(table, key, value):
    line = f"{key} = {value}\n"
    return re.sub(rf"^{key} = .*\n", line, table, flags=re.M) if re.search(rf"^{key} = ", table, re.M) else table + line


def with_orders(records, place, orders):
    """The records, the last of which writes these orders at a place, too."""
    return [*records[:-1], records[-1] + bytes([0x11, 0x40, SPELLED[place % CELLS]]) + orders]


def with_attribute(records, place, bits):
    """The same with a field attribute of these bits, whose other bits make it a graphic character."""
    return with_orders(records, place, bytes([0x1D, SPELLED_BITS[bits & 0x3F]]))


# Six bits as GA23-0059 spells them.
SPELLED_BITS = bytes.fromhex(
    "40C1C2C3C4C5C6C7C8C94A4B4C4D4E4F50D1D2D3D4D5D6D7D8D95A5B5C5D5E5F6061E2E3E4E5E6E7E8E96A6B6C6D6E6FF0F1F2F3F4F5F6F7F8F97A7B7C7D7E7F"
)


class Screen:
    """The fields of a screen as `show` prints them, by their attributes' positions."""

    def __init__(self, printed):
        self.fields = {int(it[1]): (int(it[2], 16), int(it[3]), int(it[4])) for it in FIELD.finditer(printed)}

    def bits(self, place):
        return self.fields[place][0]

    def length(self, place):
        return next(length for _, at, length in self.fields.values() if at == place and length)


def ways(finding, records, text, screen):
    """Each change that the help names, as records and a layout."""
    said, place = finding["help"], finding["place"]
    if found := re.search(r'declare it by \[\[field\]\], name = "([^"]*)", row = (\d+), col = (\d+)(, kind = "fixed")?', said):
        name, row, column, fixed = found.groups()
        assert f'name = "{name}"\n' not in text, f"{name} is taken"
        table = f'[[field]]\nname = "{name}"\nrow = {row}\ncol = {column}\nlength = {screen.length(place)}\n'
        yield records, text + table + ('kind = "fixed"\n' if fixed else "")
    if "or protect it" in said:
        at = (place - 1) % CELLS
        yield with_attribute(records, at, screen.bits(at) | 0x20), text
    if found := re.search(r"reset bit 01, the modified data tag, of the attribute at (\d+)", said):
        yield with_attribute(records, int(found[1]), screen.bits(int(found[1])) & ~1), text
    if found := re.search(r"reset bits 0C, display, of the attribute at (\d+)", said):
        yield with_attribute(records, int(found[1]), screen.bits(int(found[1])) & ~0x0C), text
        assert "begin the field with another character" in said
        yield with_orders(records, place, b"\xC1"), text
    if found := re.search(r"write an attribute at (\d+), by Set Buffer Address 11(....)", said):
        assert bytes.fromhex(found[2]) == bytes([0x40, SPELLED[int(found[1])]])
        assert int(found[1]) not in screen.fields, "an attribute stands there"
        assert "and a character after it" in said
        yield with_orders(records, int(found[1]), bytes([0x1D, 0x60, 0xC1])), text
    if found := re.search(r"write a character in place of the attribute at (\d+)", said):
        assert int(found[1]) in screen.fields, "no attribute stands there"
        yield with_orders(records, int(found[1]), b"\xC1"), text
    if found := re.search(r"declare length = (\d+) for (\S+), or end the field by an attribute after (\d+) cells", said):
        yield records, changed_table(text, found[2], "length", found[1])
        yield with_attribute(records, place + int(found[3]), 0x20), text
    if found := re.search(r"declare (\S+) as kind = (\S+), or (re)?set bit 20, protected, of the attribute at (\d+)", said):
        yield records, changed_table(text, found[1], "kind", found[2])
        bits = screen.bits(int(found[4]))
        yield with_attribute(records, int(found[4]), bits & ~0x20 if found[3] else bits | 0x20), text


class Room:
    """A program, and a folder for its inputs."""

    def __init__(self, program, folder):
        self.program, self.folder = program, pathlib.Path(folder)

    def check(self, records, text):
        (self.folder / "layout").write_text(text)
        words = [self.program, "check", "--pen", "--format", "json", str(self.folder / "layout")]
        return [json.loads(it) for it in self.run(words, records).splitlines()][:-1]

    def show(self, records):
        return Screen(self.run([self.program, "show"], records, f"size 2x{COLUMNS}\n"))

    def run(self, words, records, before=""):
        lines = before + "".join(f"{it.hex()}\n" for it in records)
        return subprocess.run(words, input=lines, capture_output=True, text=True).stdout


def same(finding, other):
    """Whether both say that the same is wrong: what the length is may differ."""
    keys = ("number", "place", "entry")
    return [finding.get(it) for it in keys] == [other.get(it) for it in keys]


def failures(room, draw):
    """What stays after its help, and how many ways were tried."""
    records = [record(draw, index == 0) for index in range(draw.randrange(1, 4))]
    text = layout(draw).replace("at-", draw.choice(["at-", "field-"]))
    screen = room.show(records)
    for finding in room.check(records, text):
        if "place" not in finding:
            continue
        tried = 0
        for others, changed in ways(finding, records, text, screen):
            tried += 1
            if any(same(finding, it) for it in room.check(others, changed)):
                yield f"{finding['words']} stays: {finding['help']}", records, text
        if not tried:
            yield f"{finding['words']} has no help that is understood: {finding['help']}", records, text


def main(program, count=300, seed=1):
    draw, passed, failed = random.Random(int(seed)), 0, 0
    with tempfile.TemporaryDirectory() as folder:
        for _ in range(int(count)):
            try:
                found = list(failures(Room(program, folder), draw))
            except AssertionError as error:
                found = [(str(error), [], "")]
            passed, failed = passed + (not found), failed + bool(found)
            for said, records, text in found:
                print(said, *[it.hex() for it in records], text, sep="\n")
    print(f"{passed} passed, {failed} failed")
    return failed != 0


if __name__ == "__main__":
    sys.exit(main(*sys.argv[1:]))
