"""What a terminal shows, as a case has it, and as Read Buffer tells it."""

from parts.codes import GE, MODELS, NO_OPERATION, READS, SF, SIX_BITS

BITS = {code: bits for bits, code in enumerate(SIX_BITS)}


class Unreadable(Exception):
    """An answer that is no answer to Read Buffer of this size."""


def cells_of(size):
    rows, columns = (int(it) for it in size.split("x"))
    return rows, columns


def screen_json(size, cells, cursor, keyboard, aid):
    """A screen of a case. A cell is an attribute's six bits in a tuple, a character's code, or a character of the alternate set in a list."""
    rows, columns = cells_of(size)
    told = {}
    for row in range(rows):
        line = cells[row * columns : (row + 1) * columns]
        codes = bytes(0 if isinstance(it, tuple) else it[0] if isinstance(it, list) else it for it in line).rstrip(b"\0")
        if codes:
            told[str(row)] = codes.hex().upper()
    attributes = {str(at): f"{it[0]:02X}" for at, it in enumerate(cells) if isinstance(it, tuple)}
    screen = {"size": size, "cells": told, "attributes": attributes}
    if alternate := [at for at, it in enumerate(cells) if isinstance(it, list)]:
        screen["alternate"] = alternate
    return screen | {"cursor": cursor, "keyboard": keyboard, "aid": f"{aid:02X}"}


def cells_in(screen):
    """The cells of a case's screen, as `screen_json` takes them."""
    rows, columns = cells_of(screen["size"])
    cells = [0] * (rows * columns)
    for row, codes in screen["cells"].items():
        for column, code in enumerate(bytes.fromhex(codes)):
            cells[int(row) * columns + column] = code
    for at in screen.get("alternate", []):
        cells[at] = [cells[at]]
    for at, bits in screen["attributes"].items():
        cells[int(at)] = (int(bits, 16),)
    return cells


def buffer_cells(body):
    """The cells that Read Buffer tells after the cursor's address."""
    cells, at = [], 0
    while at < len(body):
        if body[at] == SF and at + 1 < len(body):
            cells.append((BITS.get(body[at + 1], body[at + 1] & 0x3F),))
            at += 2
        elif body[at] == GE and at + 1 < len(body):
            cells.append([body[at + 1]])
            at += 2
        else:
            cells.append(body[at])
            at += 1
    return cells


def place_in(two):
    """An address as terminals write it: by six-bit codes, or a number of 14 bits."""
    if two[0] & 0xC0 == 0:
        return two[0] << 8 | two[1]
    return (two[0] & 0x3F) << 6 | two[1] & 0x3F


def sizes_of(case):
    """The default and the alternate size, and whether addresses have 16 bits."""
    words = case["size"].split()
    return words[0], words[1] if len(words) > 1 and "x" in words[1] else words[0], words[-1] == "16"


def device_of(case):
    """The model of these sizes, or None where no model has them."""
    return MODELS.get(case["size"])


def is_read(record):
    """Whether the terminal answers this record at once."""
    return len(record) == 1 and record[0] in READS


def is_applied(record):
    """Whether this record is for a screen: no read, and no No-operation."""
    return not is_read(record) and record != NO_OPERATION


def lines_of(screen):
    """A screen as rows of a text: `@` an attribute, `.` a null, `?` what has no character here."""
    rows, columns = cells_of(screen["size"])
    cells = cells_in(screen)
    told = [f"{screen['size']} cursor {screen['cursor']} {screen['keyboard']} aid {screen['aid']}"]
    for row in range(rows):
        line = cells[row * columns : (row + 1) * columns]
        if any(it != 0 for it in line):
            told.append(f"{row:3} " + "".join(seen(it) for it in line).rstrip("."))
    told.append("    attributes " + " ".join(f"{at}:{bits}" for at, bits in screen["attributes"].items()))
    return told


def seen(cell):
    if isinstance(cell, tuple):
        return "@"
    if cell == 0:
        return "."
    character = "" if isinstance(cell, list) else bytes([cell]).decode("cp037")
    return character if character.isascii() and character.isprintable() else "?"
