"""Hostile lines for `script`: bytes drawn at random, and actions that are cut, doubled and put together. Each has one answer."""
import os
import random
import re
import tempfile
from typing import Iterator

from script_drive import Driver, Program, want
from script_hosts import SIGNON, serve

RUNS = 12
LINES = 400
WORDS = [
    b"Tab", b"Enter", b"String", b"Key", b"Ascii", b"Ascii1", b"AsciiField", b"Ebcdic", b"ReadBuffer", b"Snap", b"Query", b"MoveCursor", b"Erase",
    b"DeleteField", b"PF", b"PA", b"Clear", b"Set", b"Toggle", b"Check", b"PrintText", b"Expect", b"Info", b"Reset", b"Show", b"FieldEnd", b"Save",
    b"Status", b"Field", b"Cursor", b"(", b")", b",", b"\"", b"\\", b" ", b"\t", b"\\pf", b"\\x", b"\\u00", b"\\n", b"-1", b"0", b"24", b"80", b"1919",
    b"4294967296", b"18446744073709551616", b"\xff", b"\xef", b"\x00", b"\x1b", b"\xc3", b"\xc3\xa4", b"\xe2\x82\xac", b"U+", b"0x",
]
# What would end the script, wait without an end, or write files.
LEFT_OUT = re.compile(rb"quit|exit|connect|open|wait|html|script", re.IGNORECASE)


def lines_of(seed: int) -> Iterator[bytes]:
    """Lines of these words and of bytes drawn at random, the same for the same seed."""
    drawn = random.Random(seed)
    while True:
        parts = [drawn.choice(WORDS) if drawn.random() < 0.8 else drawn.randbytes(drawn.randrange(9)) for _ in range(drawn.randrange(12))]
        line = b"".join(parts).replace(b"\n", b"")
        if not LEFT_OUT.search(line):
            yield line


def answered(out: bytes) -> int:
    """How many answers there are, each of data lines, one status line, and `ok` or `error`."""
    count = 0
    is_data = True
    for line in out.split(b"\n")[:-1]:
        if is_data and line.startswith(b"data: "):
            continue
        if is_data:
            want(len(line.split(b" ")) == 12, f"no status line, but {line!r}")
        else:
            want(line in (b"ok", b"error"), f"after the status line {line!r}")
            count += 1
        is_data = not is_data
    return count


def hostile(program: Program, seed: int) -> None:
    """Hostile lines, without a host, or after one that closed behind its screen."""
    lines = [line for line, _ in zip(lines_of(seed), range(LINES))]
    if seed % 2:
        host = serve(SIGNON + "\nclose\n")
        lines.insert(0, b"Connect(%s)" % host.address.encode())
    driver = Driver(program)
    driver.write(b"".join(line + b"\n" for line in lines))
    out, status = driver.end(20)
    want(answered(out) == len(lines), f"seed {seed}: {answered(out)} answers of {len(lines)} lines")
    want(status == 0, f"seed {seed}: its status is {status}")


def hostile_lines(program: Program) -> None:
    """No line, whatever its bytes, is left without its one answer."""
    with tempfile.TemporaryDirectory() as folder:
        inside = Program([os.path.abspath(program.words[0]), *program.words[1:]], program.is_ours, folder)
        for seed in range(RUNS):
            hostile(inside, seed)
