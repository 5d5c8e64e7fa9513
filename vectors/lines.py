"""A terminal that speaks the lines of vectors/README.md, by the program: python3 lines.py PROGRAM [--wrong].

It keeps what came since `size`, and has the program do all of it anew at each line: slow, and short. A terminal of your own keeps its
screen instead. With --wrong Program Tab (05) is taken for Insert Cursor (13): a terminal that `vectors/run` must find out.
"""
import os
import sys

sys.path.insert(0, os.path.dirname(os.path.abspath(__file__)))

from parts.codes import SIX_BITS  # noqa: E402
from parts.drivers import Takvorn  # noqa: E402
from parts.screen import Unreadable, cells_in, device_of  # noqa: E402


def cell_bytes(cell):
    """A cell as Read Buffer tells it."""
    if isinstance(cell, tuple):
        return bytes([0x1D, SIX_BITS[cell[0]]])
    return bytes([0x08, *cell]) if isinstance(cell, list) else bytes([cell])


def read_buffer(screen):
    cursor = bytes([SIX_BITS[screen["cursor"] >> 6], SIX_BITS[screen["cursor"] & 63]])
    return bytes.fromhex(screen["aid"]) + cursor + b"".join(map(cell_bytes, cells_in(screen)))


class Terminal:
    def __init__(self, program, is_wrong):
        self.driver, self.is_wrong = Takvorn(program), is_wrong
        self.case, self.found = {}, {}

    def do(self):
        """Has all of it done, and returns what was sent since the last time."""
        before = len(self.found.get("answers", []))
        self.found = self.driver.result(self.case)
        return self.found["answers"][before:]

    def size(self, words):
        self.case = {"size": words, "records": [], "keys": []}
        self.found = {}
        return "ok" if device_of(self.case) else "no"

    def apply(self, record):
        if self.is_wrong:
            record = record.replace("05", "13")
        part = self.case.setdefault("then", []) if self.case["keys"] else self.case["records"]
        part.append(record)
        sent = self.do()
        if "refused" in self.found:
            return "refused"
        return f"sent {sent[0]}" if sent else "ok"

    def press(self, key):
        self.case["keys"].append(key)
        sent = self.do()
        return f"sent {sent[0]}" if sent else "ok"

    def read(self, _):
        screen = self.found["screen"]
        return f"{screen['keyboard']} {read_buffer(screen).hex().upper()}"


def main(program, *words):
    terminal = Terminal(program, "--wrong" in words)
    for line in sys.stdin:
        verb, _, rest = line.strip().partition(" ")
        try:
            print(getattr(terminal, verb)(rest), flush=True)
        except Unreadable as error:
            print("no", error, flush=True)


if __name__ == "__main__":
    main(*sys.argv[1:])
