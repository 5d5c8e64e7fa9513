"""Sees that `press --strokes` does what s3270 does, on screens and lists of strokes drawn at random.

    python3 tests/strokes_terminal.py PROGRAM [COUNT [SEED]]

Each list of strokes (characters, insert mode, duplicate, field mark, and the keys that move and erase) begins on a formatted screen
of its own. After each stroke the cursor is compared, and whether the keyboard is in error; at the end Enter's answer. What the
program ignores after an error isn't done at s3270, whose moves free the keyboard, and three rules of keys that are the project's own
are left out: the end of Delete, where Erase Input puts the cursor, and Home where a field goes round the screen's end
(docs/PROFILE.md). Its option to fill with blanks is off. A list that
differs is printed with its screen, shortened as far as it still does; those that differ by the fault of s3270 that
docs/TERMINALS.md tells are counted apart. The last line is 'N passed, M failed'.
"""
import os
import random
import subprocess
import sys
import tempfile

from any_terminal import CELLS, PROTECTED, Trial, attributes, drawn_screen, shortened, span

CHARACTERS = {0xC1: "A", 0xC2: "B", 0xC3: "C", 0xF1: "1", 0x40: "space", 0x60: "minus"}
ACTIONS = {
    "insert": "Insert()", "dup": "Dup()", "fieldmark": "FieldMark()", "left": "Left()", "right": "Right()", "up": "Up()", "down": "Down()",
    "tab": "Tab()", "backtab": "BackTab()", "newline": "Newline()", "home": "Home()", "eraseeof": "EraseEOF()", "reset": "Reset()",
}
MOVES = ["left", "right", "up", "down", "tab", "backtab", "newline"]


def action(stroke):
    if stroke.startswith("type "):
        return f"Key({CHARACTERS[int(stroke[5:], 16)]})"
    return ACTIONS[stroke]


def drawn_stroke(draw):
    kind = draw.random()
    if kind < 0.45:
        return f"type {draw.choice([*CHARACTERS]):02X}"
    if kind < 0.60:
        return "insert"
    if kind < 0.72:
        return draw.choice(["dup", "fieldmark"])
    if kind < 0.88:
        return draw.choice(MOVES)
    return draw.choice(["reset", "reset", "eraseeof", "home"])


def goes_round(cells):
    """Whether an unprotected field goes round the screen's end."""
    return any({0, CELLS - 1} <= {*span(cells, it)} for it in attributes(cells) if not cells[it][0] & PROTECTED)


def pressed(program, work, record, strokes):
    """What `press --strokes` prints, a line a stroke."""
    keys = os.path.join(work, "strokes")
    with open(keys, "w", encoding="ascii") as file:
        file.write("".join(f"{it}\n" for it in strokes))
    run = subprocess.run([program, "press", "--strokes", keys], input=record.hex(), capture_output=True, text=True, check=True)
    return run.stdout.splitlines()


class Compared(Trial):
    """A terminal at a host, beside the program."""

    def __init__(self, program, work):
        super().__init__()
        self.program, self.work = program, work

    def run(self, record, strokes):
        """What differs, or None."""
        self.host.send(record)
        if self.waits:
            self.terminal.told()
        self.terminal.act("Wait(10,3270Mode)", "Wait(10,Unlock)", "Toggle(blankFill,clear)", "Toggle(insertMode,clear)", "Reset()")
        self.before = self.terminal.buffer()
        strokes = [it for it in strokes if it != "home" or not goes_round(self.before)] + ["reset", "enter"]
        lines = pressed(self.program, self.work, record, strokes)
        differs = None
        for stroke, line in zip(strokes[:-1], lines):
            word, place = line.split()
            if word == "ignored":
                continue
            told = self.terminal.act(action(stroke))[0]
            found = f"{'inhibited' if 'Keyboard locked' in told else 'done'} {self.cursor()}"
            if differs is None and found != f"{word} {place}":
                differs = f"{stroke}: s3270 {found}, the program {line}"
        self.terminal.act("Toggle(insertMode,clear)", "Reset()")
        self.terminal.write("Enter()")
        self.waits = True
        sent = f"sent {self.host.answer().hex().upper()}"
        return differs or (None if sent == lines[-1] else f"s3270 {sent}, the program {lines[-1]}")

    def is_known(self, record, strokes):
        """Insert mode in a field that goes round the screen's end: s3270 moves its characters by a row."""
        return goes_round(self.before) and not self.run(record, [it for it in strokes if it != "insert"])


def main(program, count=200, seed=1):
    draw, passed, failed, known = random.Random(int(seed)), 0, 0, 0
    with tempfile.TemporaryDirectory() as work:
        compared = Compared(os.path.abspath(program), work)
        for _ in range(int(count)):
            record, strokes = drawn_screen(draw), [drawn_stroke(draw) for _ in range(draw.randrange(1, 30))]
            differs = compared.run(record, strokes)
            if differs and compared.is_known(record, strokes):
                known += 1
                continue
            passed, failed = passed + (not differs), failed + bool(differs)
            if differs:
                print(differs, record.hex().upper(), *shortened(compared, record, strokes), sep="\n  ", flush=True)
        compared.terminal.close()
    print(f"{known} differ by the known fault of insert mode")
    print(f"{passed} passed, {failed} failed")
    return failed != 0


if __name__ == "__main__":
    sys.exit(main(*sys.argv[1:]))
