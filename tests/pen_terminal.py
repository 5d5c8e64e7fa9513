"""Sees that Cursor Select changes on s3270 what `check --pen` tells of, and does to a field what the definition says.

    python3 tests/pen_terminal.py PROGRAM [COUNT [SEED]]

Each list of actions (moves and Cursor Select, and typing between them) begins on a formatted screen of its own, with designators
and display bits of every kind. After each Cursor Select the buffer is compared with what selecting does by the definition that the
proof uses (`cells_selected` in crates/scr_check/specs/Pen). After the list, protected fields, and the tags of fields without cells,
have changed only where `check --pen` told F15 of the screen; and Enter's answer has the modified fields. Then each of those fields is
selected on a screen of its own, and has changed. A list that breaks this is printed with its screen, shortened as far as it still does.
The last lines are what was counted, and 'N passed, M failed'.
"""
import os
import random
import re
import select
import subprocess
import sys
import tempfile

from any_terminal import BITS, CELLS, CODES, COLUMNS, MODIFIED, PROTECTED, Trial, attributes, breaks, drawn_screen, is_attribute, shortened, span

QUESTION, GREATER, AMPERSAND, SPACE, NULL = 0x6F, 0x6E, 0x50, 0x40, 0x00
DESIGNATORS = [QUESTION, GREATER, AMPERSAND, SPACE, NULL]
SELECTABLE_BITS = [*BITS, 0x04, 0x05, 0x08, 0x24, 0x24, 0x25, 0x28, 0x28, 0x29, 0x34, 0x38]
FREED = bytes([0xF1, 0xC2])
SELECT = "CursorSelect()"


def moved(place):
    return f"MoveCursor({place // COLUMNS},{place % COLUMNS})"


def attribute_before(cells, place):
    return next(at for at in ((place - steps) % CELLS for steps in range(CELLS)) if is_attribute(cells[at]))


def selected(cells, place):
    """What selecting the field of the attribute at a place leaves; an attribute is read as a null."""
    bits, after = cells[place][0], (place + 1) % CELLS
    code = NULL if is_attribute(cells[after]) else cells[after]
    if bits & 0x0C not in (0x04, 0x08) or code not in DESIGNATORS:
        return cells
    left = [*cells]
    left[after] = {QUESTION: GREATER, GREATER: QUESTION}.get(code, cells[after])
    left[place] = (bits & ~MODIFIED if code == GREATER else bits | MODIFIED,)
    return left


def drawn_actions(draw):
    for _ in range(draw.randrange(1, 10)):
        yield moved(draw.randrange(CELLS)) if draw.random() < 0.3 else "Tab()"
        yield from draw.choice([[SELECT], [SELECT], [SELECT, SELECT], ['String("A?")'], ["EraseEOF()"], ["Right()", SELECT], ["Left()", "Left()", SELECT]])
        yield "Reset()"


class Selected(Trial):
    """A terminal at a host, beside the program."""

    def __init__(self, program, work):
        super().__init__()
        self.program, self.layout = program, os.path.join(work, "layout.toml")
        self.named, self.selections, self.changes = [], 0, 0
        with open(self.layout, "w", encoding="ascii") as file:
            file.write('default = "24x80"\n[[field]]\nname = "any"\nrow = 1\ncol = 2\nlength = 1\n')

    def told(self, record):
        """The attributes of the fields of which `check --pen` tells F15."""
        run = subprocess.run([self.program, "check", "--pen", self.layout], input=record.hex(), capture_output=True, text=True, check=False)
        return [(int(it) - 1) % CELLS for it in re.findall(r"^F15 selectable at (\d+)$", run.stdout, re.MULTILINE)]

    def do(self, action):
        """Does an action; the host frees the keyboard where it sends."""
        self.terminal.write(action)
        ready, _, _ = select.select([self.host.line, self.terminal.answers], [], [], 10)
        if self.host.line in ready:
            self.host.answer()
            self.host.send(FREED)
        self.terminal.told()

    def differs(self):
        """What selecting at the cursor does otherwise, or None."""
        before, place = self.terminal.buffer(), self.cursor()
        self.do(SELECT)
        after, wanted = self.terminal.buffer(), selected(before, attribute_before(before, place))
        self.selections += 1
        self.changes += before != after
        return next((f"selected at {place}: {at} is {after[at]}, wanted {wanted[at]}" for at in range(CELLS) if after[at] != wanted[at]), None)

    def run(self, record, actions):
        """What differs, or None."""
        before, self.named = self.show(record), self.told(record)
        wrong = None
        for action in actions:
            if action == SELECT:
                wrong = wrong or self.differs()
            else:
                self.do(action)
        after = self.terminal.buffer()
        answer = self.answered(after)
        # What may change in the fields that are named is their tags and designators.
        for place in self.named:
            first = (place + 1) % CELLS
            after[place], after[first] = before[place], before[first]
        return wrong or breaks(before, after) or answer

    def stay(self, record, named):
        """What differs once each of these fields was selected, one after the other, or one that stays as it was; or None."""
        cells, wrong = self.show(record), None
        for place in named:
            first = (place + 1) % CELLS
            self.do(moved(first if span(cells, place) else place))
            wrong, before = wrong or self.differs(), cells
            cells = self.terminal.buffer()
            # A tag that is set isn't set again.
            is_set = before[place][0] & MODIFIED and before[first] not in (QUESTION, GREATER)
            wrong = wrong or (None if is_set or cells != before else f"the field of the attribute at {place} stays")
        answer = self.answered(cells)
        return wrong or answer


def main(program, count=200, seed=1):
    draw, passed, failed, found = random.Random(int(seed)), 0, 0, 0
    with tempfile.TemporaryDirectory() as work:
        trial = Selected(os.path.abspath(program), work)
        for _ in range(int(count)):
            record, actions = drawn_screen(draw, SELECTABLE_BITS, [*CODES, *DESIGNATORS]), [*drawn_actions(draw)]
            broken = trial.run(record, actions)
            named, found = trial.named, found + len(trial.named)
            wrong = broken or trial.stay(record, named)
            passed, failed = passed + (not wrong), failed + bool(wrong)
            if wrong:
                print(wrong, record.hex().upper(), *(shortened(trial, record, actions) if broken else []), sep="\n  ", flush=True)
        trial.terminal.close()
    print(f"{trial.selections} selections, {trial.changes} changed something; {found} fields with F15, each selected")
    print(f"{passed} passed, {failed} failed")
    return failed != 0


if __name__ == "__main__":
    sys.exit(main(*sys.argv[1:]))
