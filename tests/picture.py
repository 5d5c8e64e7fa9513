"""Compares a picture of `show --format svg`, converted to PNG, with the rows of `show`, cell by cell.

    python3 tests/picture.py PICTURE.png ROWS

A cell that has a character other than a space shows something, a blank cell without an underline and without the cursor
nothing. Rows are those of `show`, each between bars; a cell is 10 pixels wide and 20 high, 10 from the left and from the top.
"""
import struct
import sys
import zlib


def chunks(data):
    at = 8
    while at < len(data):
        size, kind = struct.unpack(">I4s", data[at:at + 8])
        yield kind, data[at + 8:at + 8 + size]
        at += 12 + size


def predicted(kind, left, above, corner):
    """What a filter of PNG adds to a byte."""
    if kind < 3:
        return (0, left, above)[kind]
    if kind == 3:
        return (left + above) // 2
    nearest = left + above - corner
    return min((abs(nearest - left), 0, left), (abs(nearest - above), 1, above), (abs(nearest - corner), 2, corner))[2]


def pixels(path):
    """The rows of pixels, and how many bytes each pixel has."""
    parts = list(chunks(open(path, "rb").read()))
    width, height, depth, colours, _, _, interlaced = struct.unpack(">IIBBBBB", parts[0][1])
    if depth != 8 or colours not in (2, 6) or interlaced:
        sys.exit("a PNG of another kind")
    each = 3 if colours == 2 else 4
    data = zlib.decompress(b"".join(part for kind, part in parts if kind == b"IDAT"))
    above, rows = bytes(each * width), []
    for row in range(height):
        line = data[row * (each * width + 1):(row + 1) * (each * width + 1)]
        now = bytearray()
        for at, byte in enumerate(line[1:]):
            left, corner = (now[at - each], above[at - each]) if at >= each else (0, 0)
            now.append((byte + predicted(line[0], left, above[at], corner)) % 256)
        rows.append(bytes(now))
        above = rows[-1]
    return rows, each


def is_lit(rows, each, row, column):
    """Whether a cell shows something above its underline."""
    for y in range(10 + 20 * row, 26 + 20 * row):
        for x in range(10 + 10 * column, 20 + 10 * column):
            if any(value > 60 for value in rows[y][each * x:each * x + 3]):
                return True
    return False


rows, each = pixels(sys.argv[1])
shown = [line[1:-1] for line in open(sys.argv[2]) .read().split("\n") if line.startswith("|")]
wrong = [
    (row + 1, column + 1, cell)
    for row, cells in enumerate(shown)
    for column, cell in enumerate(cells)
    if (cell not in " .@_") != is_lit(rows, each, row, column)
]
print(f"{len(shown)} rows, {len(wrong)} cells differ {wrong[:8]}")
sys.exit(1 if wrong or not shown else 0)
