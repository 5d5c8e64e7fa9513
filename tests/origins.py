"""Checks records drawn at random, and compares where each finding comes from with a reading of the records of its own.

    python3 tests/origins.py PROGRAM [COUNT [SEED]]

Each position keeps the order that wrote there last, and whether an attribute stands there; a finding's `record`, `line` and
`byte` are those of the position before its `place`, its `end` those of the next attribute after that. A log has the same
lines, and the columns of these bytes. The last line is 'N passed, M failed'.
"""
import json
import pathlib
import random
import re
import subprocess
import sys
import tempfile

ROWS, COLUMNS = 2, 10
CELLS = ROWS * COLUMNS
SPELLED = bytes.fromhex("40C1C2C3C4C5C6C7C8C94A4B4C4D4E4F50D1D2D3")
ATTRIBUTES = bytes.fromhex("406061C1F0F14CC4E4E8")
CHARACTERS = bytes.fromhex("C1C240F100")


def set_address(draw):
    return bytes([0x11, 0x40, SPELLED[draw.randrange(CELLS)]])


def order(draw):
    kind = draw.randrange(20)
    if kind < 7:
        return bytes([0x1D, draw.choice(ATTRIBUTES)])
    if kind < 9:
        return bytes([0x29, 2, 0xC0, draw.choice(ATTRIBUTES), 0x42, 0xF2])
    if kind < 13:
        return set_address(draw)
    if kind < 14:
        return b"\x13"
    if kind < 16:
        return b"\x3C" + set_address(draw)[1:] + bytes([draw.choice(CHARACTERS)])
    return bytes(draw.choice(CHARACTERS) for _ in range(draw.randrange(1, 5)))


def record(draw, is_first):
    command = 0xF5 if is_first or draw.random() < 0.2 else 0xF1
    orders = b"".join(order(draw) for _ in range(draw.randrange(1, 8)))
    return bytes([command, draw.choice([0xC2, 0xC3, 0x42])]) + set_address(draw) + orders


def lines_of(draw, records):
    for one in records:
        if draw.random() < 0.4:
            yield draw.choice(["# a comment", "", "   "])
        digits = one.hex().upper()
        yield re.sub("(..)", r" \1", digits) if draw.random() < 0.4 else digits


def layout(draw):
    text = 'default = "2x10"\n'
    for place in sorted(draw.sample(range(CELLS), draw.randrange(4))):
        row, column = place // COLUMNS + 1, place % COLUMNS + 1
        text += f'[[field]]\nname = "at-{place}"\nrow = {row}\ncol = {column}\nlength = 1\n'
        text += 'kind = "fixed"\n' if draw.random() < 0.3 else ""
    return text


def is_character(byte):
    return byte == 0 or byte >= 0x40


class Buffer:
    """Where each position was written last, and where attributes stand."""

    def __init__(self, records):
        self.last, self.attributes, self.address = {}, set(), 0
        for index, one in enumerate(records):
            self.take(index, one)

    def store(self, index, at, is_attribute=False):
        self.last[self.address] = (index, at)
        (self.attributes.add if is_attribute else self.attributes.discard)(self.address)
        self.address = (self.address + 1) % CELLS

    def take(self, index, one):
        if one[0] == 0xF5:
            self.attributes.clear()
        at = 2
        while at < len(one):
            at += self.take_order(index, at, one)

    def take_order(self, index, at, one):
        code = one[at]
        if code in (0x1D, 0x29):
            self.store(index, at, is_attribute=True)
            return 2 if code == 0x1D else 2 + 2 * one[at + 1]
        if code == 0x11:
            self.address = SPELLED.index(one[at + 2])
            return 3
        if code == 0x13:
            return 1
        if code == 0x3C:
            self.repeat(index, at, SPELLED.index(one[at + 2]))
            return 4
        end = next((k for k in range(at, len(one)) if not is_character(one[k])), len(one))
        for _ in range(at, end):
            self.store(index, at)
        return end - at

    def repeat(self, index, at, stop):
        self.store(index, at)
        while self.address != stop:
            self.store(index, at)

    def origin(self, place):
        return self.last.get((place - 1) % CELLS)

    def end(self, place):
        if (place - 1) % CELLS not in self.attributes:
            return None
        return self.last[next(p % CELLS for p in range(place, place + CELLS) if p % CELLS in self.attributes)]


def told(spot, lines):
    """A place as JSON tells it: lines are the numbers and the texts of those that have a record."""
    return spot and {"record": spot[0], "line": lines[spot[0]][0], "byte": spot[1]}


def region(spot, lines):
    """The same as a log tells it."""
    if not spot:
        return {"startLine": 1}
    number, text = lines[spot[0]]
    columns = [column for column, digit in enumerate(text, 1) if digit != " "]
    first, second = columns[2 * spot[1]:2 * spot[1] + 2]
    return {"startLine": number, "startColumn": first, "endColumn": second + 1}


def differences(program, folder, draw):
    records = [record(draw, index == 0) for index in range(draw.randrange(1, 4))]
    text = list(lines_of(draw, records))
    lines = [(number, line) for number, line in enumerate(text, 1) if line.strip() and not line.startswith("#")]
    (folder / "records").write_text("\n".join(text) + "\n")
    (folder / "layout").write_text(layout(draw))
    asked = [program, "check", "--records", str(folder / "records"), str(folder / "layout"), "--format"]
    printed = [subprocess.run([*asked, form], capture_output=True, text=True).stdout for form in ("json", "sarif")]
    buffer = Buffer(records)
    for finding, result in zip(map(json.loads, printed[0].splitlines()[:-1]), json.loads(printed[1])["runs"][0]["results"], strict=True):
        if "place" not in finding:
            continue
        origin, end = buffer.origin(finding["place"]), buffer.end(finding["place"])
        if ({key: finding[key] for key in ("record", "line", "byte") if key in finding} or None) != told(origin, lines):
            yield f"{finding['words']}: not from {origin}"
        if finding.get("end") != told(end, lines):
            yield f"{finding['words']}: doesn't end at {end}"
        regions = [it["physicalLocation"]["region"] for it in result["locations"] + result.get("relatedLocations", [])]
        if regions != [region(origin, lines)] + ([region(end, lines)] if end else []):
            yield f"{finding['words']}: in the log at {regions}"


def main(program, count=300, seed=1):
    draw, passed, failed = random.Random(int(seed)), 0, 0
    with tempfile.TemporaryDirectory() as folder:
        for _ in range(int(count)):
            found = list(differences(program, pathlib.Path(folder), draw))
            passed, failed = passed + (not found), failed + bool(found)
            if found:
                print("\n".join(found), (pathlib.Path(folder) / "records").read_text(), sep="\n")
    print(f"{passed} passed, {failed} failed")
    return failed != 0


if __name__ == "__main__":
    sys.exit(main(*sys.argv[1:]))
