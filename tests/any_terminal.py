"""Sees that a terminal leaves what a yes premises, and answers as it promises: s3270, or c3270 in tmux, on screens drawn at random.

    python3 tests/any_terminal.py [COUNT [SEED [TERMINAL]]]

Each list of actions of the terminal (typing, insert mode, duplicate, field mark, erased words and fields, moves, pasted text) begins on a
formatted screen of its own. The buffer is read before and after it: attributes stand where they stood, protected ones and the
characters that they govern as they were, others but for their modified data tag, and no tag came to a field without cells. Then
Enter's answer is compared with the fields that are modified. A list that breaks this is printed with its screen, shortened as far
as it still does; those that break it by the fault that docs/TERMINALS.md tells are counted apart. The last line is
'N passed, M failed'.
"""
import os
import random
import re
import socket
import subprocess
import sys
import time

sys.path.insert(0, os.path.join(os.path.dirname(os.path.abspath(__file__)), "..", "vectors"))

from parts import host  # noqa: E402
from parts.codes import SIX_BITS  # noqa: E402

ROWS, COLUMNS = 24, 80
CELLS = ROWS * COLUMNS
MODIFIED, PROTECTED = 0x01, 0x20
BITS = [0x00, 0x01, 0x10, 0x20, 0x21, 0x30, 0x31, 0x0C, 0x2C, 0x08, 0x28, 0x04]
CODES = [0xC1, 0xC2, 0xF1, 0x40, 0x60]
PLAIN = ["Dup()", "FieldMark()", "DeleteWord()", "DeleteField()", "EraseEOF()", "EraseInput()", "FieldEnd()", "Tab()", "BackTab()", "Up()",
         "Down()", "Left()", "Right()", "Home()", "Newline()", "Delete()", "Erase()", "BackSpace()", "NextWord()", "PreviousWord()", "Reset()"]


def spelled(place):
    return bytes([0x11, SIX_BITS[place >> 6], SIX_BITS[place & 63]])


class Host(host.Host):
    """A host of a session without TN3270E."""

    def accept(self):
        super().accept()
        self.classic()

    def answer(self):
        return self.until(bytes([host.IAC, host.EOR])).replace(b"\xFF\xFF", b"\xFF")


class Terminal:
    """s3270, to which actions are written line by line."""

    def __init__(self, port):
        words = ["s3270", "-model", "3278-2", "-set", "unlockDelay=false", f"N:127.0.0.1:{port}"]
        self.process = subprocess.Popen(words, stdin=subprocess.PIPE, stdout=subprocess.PIPE, stderr=subprocess.DEVNULL, text=True)
        self.actions, self.answers = self.process.stdin, self.process.stdout

    def write(self, *actions):
        self.actions.write("".join(f"{it}\n" for it in actions))
        self.actions.flush()

    def close(self):
        self.actions.close()

    def act(self, *actions):
        """Does these actions in turn, and returns the data of each."""
        self.write(*actions)
        return [self.told() for _ in actions]

    def told(self):
        data = []
        while (line := self.answers.readline().rstrip("\n")) not in ("ok", "error"):
            if not line:
                raise ConnectionError("the terminal ended")
            if line.startswith("data: "):
                data.append(line[len("data: ") :])
        return data

    def buffer(self):
        """The cells: an attribute's bits in a tuple, or a character's code."""
        cells = []
        for word in " ".join(self.act("ReadBuffer(Ebcdic)")[0]).split():
            if found := re.fullmatch(r"SF\(c0=(..).*\)", word):
                cells.append((int(found[1], 16) & 0x3D,))
            elif not word.startswith("SA("):
                cells.append(int(re.sub(r"GE\((..)\)", r"\1", word), 16))
        return cells


class Shown(Terminal):
    """c3270 in a window of tmux, which takes actions at a port."""

    def __init__(self, port):
        self.name = f"takvorn-{os.getpid()}"
        with socket.create_server(("127.0.0.1", 0)) as unused:
            taken = unused.getsockname()[1]
        words = f"c3270 -model 3278-2 -scriptport {taken} -set unlockDelay=false N:127.0.0.1:{port}"
        subprocess.run(["tmux", "-L", self.name, "new-session", "-d", "-x", "100", "-y", "50", words], check=True)
        self.line = self.connected(taken)
        self.actions, self.answers = self.line.makefile("w"), self.line.makefile("r")

    @staticmethod
    def connected(port):
        for _ in range(100):
            try:
                return socket.create_connection(("127.0.0.1", port), timeout=20)
            except ConnectionRefusedError:
                time.sleep(0.1)
        raise ConnectionError("c3270 doesn't listen")

    def close(self):
        subprocess.run(["tmux", "-L", self.name, "kill-server"], check=False)


TERMINALS = {"s3270": Terminal, "c3270": Shown}


def is_attribute(cell):
    return isinstance(cell, tuple)


def attributes(cells):
    return [place for place, cell in enumerate(cells) if is_attribute(cell)]


def span(cells, attribute):
    """The places that an attribute governs, from the one after it on."""
    places = []
    for steps in range(1, CELLS):
        place = (attribute + steps) % CELLS
        if is_attribute(cells[place]):
            break
        places.append(place)
    return places


def breaks(before, after):
    """What the operator's part of a screen's life may not change, and has."""
    if attributes(before) != attributes(after):
        return "attributes came or went"
    for place in attributes(before):
        old, new = before[place][0], after[place][0]
        if (old | MODIFIED) != (new | MODIFIED) or (old & PROTECTED and old != new):
            return f"the attribute at {place} was {old:02X} and is {new:02X}"
        held = span(before, place)
        if not held and new & MODIFIED and not old & MODIFIED:
            return f"the field without cells at {place} is modified"
        if old & PROTECTED:
            for it in held:
                if before[it] != after[it]:
                    return f"the protected character at {it} was {before[it]:02X} and is {after[it]:02X}"
    return None


def due(cells, cursor):
    """What Enter sends: each modified field at its place, without nulls."""
    text = bytes([0x7D]) + spelled(cursor)[1:]
    for place in attributes(cells):
        if cells[place][0] & MODIFIED:
            text += spelled((place + 1) % CELLS) + bytes(cells[it] for it in span(cells, place) if cells[it])
    return text


def drawn_screen(draw, every=BITS, codes=CODES):
    """A record that writes fields of every kind, close together and far apart, and the cursor somewhere."""
    places = sorted(draw.sample(range(CELLS), draw.randrange(1, 14)))
    if draw.random() < 0.5:
        places += [(it + draw.randrange(1, 12)) % CELLS for it in places]
    record = bytes([0xF5, 0xC3])
    for place in sorted(set(places)):
        bits = draw.choice(every)
        record += spelled(place) + bytes([0x1D, SIX_BITS[bits]])
        record += bytes(draw.choice(codes) for _ in range(draw.randrange(0, 9)))
    return record + spelled(draw.randrange(CELLS)) + b"\x13"


def drawn_action(draw):
    kind = draw.random()
    if kind < 0.35:
        return f'String("{"".join(draw.choice("AB 12-") for _ in range(draw.randrange(1, 7)))}")'
    if kind < 0.45:
        return draw.choice(["Insert()", "ToggleInsert()", "Toggle(insertMode,set)", "Toggle(insertMode,clear)"])
    if kind < 0.55:
        return f"MoveCursor({draw.randrange(ROWS)},{draw.randrange(COLUMNS)})"
    if kind < 0.60:
        return f'String("{"".join(draw.choice("XY 7") for _ in range(draw.randrange(20, 120)))}")'
    return draw.choice(PLAIN)


def drawn_actions(draw):
    """Actions, with a Reset after some: it frees a keyboard that an error locked, and ends insert mode."""
    for _ in range(draw.randrange(1, 12)):
        yield drawn_action(draw)
        if draw.random() < 0.25:
            yield "Reset()"


class Trial:
    """A terminal at a host."""

    def __init__(self, terminal="s3270"):
        self.host = Host()
        self.terminal = TERMINALS[terminal](self.host.port)
        self.host.accept()
        self.waits = False

    def show(self, record):
        """The cells of this screen, once it is shown."""
        self.host.send(record)
        if self.waits:
            self.terminal.told()
        self.terminal.act("Wait(10,3270Mode)", "Wait(10,Unlock)")
        return self.terminal.buffer()

    def cursor(self):
        row, column = map(int, re.findall(r"\d+", " ".join(self.terminal.act("Query(Cursor)")[0]))[:2])
        return row * COLUMNS + column

    def answered(self, after):
        """What is wrong with Enter's answer, or None."""
        wanted = due(after, self.cursor())
        self.terminal.act("Toggle(insertMode,clear)", "Reset()")
        # Enter is done once the next record frees the keyboard.
        self.terminal.write("Enter()")
        self.waits = True
        answer = self.host.answer()
        return None if answer == wanted else f"the answer is {answer.hex()}, wanted {wanted.hex()}"

    def run(self, record, actions):
        """What these actions broke on this screen, or None."""
        before = self.before = self.show(record)
        self.terminal.act(*actions)
        after = self.terminal.buffer()
        wrong = self.answered(after)
        return breaks(before, after) or wrong


def is_known(record, actions, trial):
    """Insert mode moves the characters of a field that goes round the screen's end by a row: it needs such a field, and insert mode."""
    cells = trial.before
    goes_round = any({0, CELLS - 1} <= {*span(cells, it)} for it in attributes(cells) if not cells[it][0] & PROTECTED)
    return goes_round and not trial.run(record, [it for it in actions if "nsert" not in it])


def shortened(trial, record, actions):
    """The actions without each that isn't needed to break it."""
    at = 0
    while at < len(actions):
        fewer = actions[:at] + actions[at + 1 :]
        actions, at = (fewer, at) if trial.run(record, fewer) else (actions, at + 1)
    return actions


def main(count=200, seed=1, terminal="s3270"):
    draw, passed, failed, known, trial = random.Random(int(seed)), 0, 0, 0, Trial(terminal)
    try:
        for _ in range(int(count)):
            record, actions = drawn_screen(draw), [*drawn_actions(draw)]
            broken = trial.run(record, actions)
            if broken and is_known(record, actions, trial):
                known += 1
                continue
            passed, failed = passed + (not broken), failed + bool(broken)
            if broken:
                print(broken, record.hex().upper(), *shortened(trial, record, actions), sep="\n  ", flush=True)
    finally:
        trial.terminal.close()
    print(f"{known} broken by the known fault of insert mode")
    print(f"{passed} passed, {failed} failed")
    return failed != 0


if __name__ == "__main__":
    sys.exit(main(*sys.argv[1:]))
