#!/usr/bin/env python3
"""maps.py PROGRAM: draws BMS mapsets, of 60 maps each, and compares what `map` and `show` make of them with what they were drawn from.

Each map is drawn as a list of fields first. Its source is written from that list, with continuation lines, remarks and names in either case; the
screen that is wanted is worked out from the list cell by cell. The last line is 'N passed, M failed'."""
import random, subprocess, sys, tempfile, os

PROGRAM = os.path.abspath(sys.argv[1])
MAPSETS = int(sys.argv[2]) if len(sys.argv) > 2 else 17
SCREENS = [(24, 80), (32, 80), (43, 80), (27, 132)]
LETTERS = "ABCDEFGHIJKLMNOPQRSTUVWXYZ0123456789 .,:;-+*/()=<>?!$%_#@\"'&abcxyz"
PROTECTION = {"": 0, "ASKIP": 0x30, "PROT": 0x20, "UNPROT": 0}
DISPLAY = {"": 0, "NORM": 0, "BRT": 8, "DRK": 12}


def drawn_map(r, name):
    """A map: its size and place, and fields that don't overlap, from the last one back."""
    if r.random() < 0.6:
        lines, columns, top, left = 24, 80, 0, 0
    else:
        rows, cols = r.choice(SCREENS)
        lines, columns = r.randint(1, rows), r.randint(max(1, cols - 40), cols)
        top, left = r.randint(0, rows - lines), r.randint(0, cols - columns)
    fields, index = [], r.randint(0, 9)
    while index < lines * columns and len(fields) < 40:
        length = r.choice([0, 0, 1, 2, 5, 8, 20, r.randint(1, 60)])
        field = {"index": index, "length": length, "occurs": 1, "label": None, "text": None, "ic": r.random() < 0.1}
        field["protection"], field["display"] = r.choice(list(PROTECTION)), r.choice(list(DISPLAY))
        field["num"], field["fset"] = r.random() < 0.1, r.random() < 0.1
        field["plain"] = r.random() < 0.2
        if length and r.random() < 0.5:
            field["label"] = f"{r.choice('FGHX@')}{len(fields)}"
            if r.random() < 0.2:
                field["occurs"] = r.randint(1, 4)
        if length and r.random() < 0.6:
            field["text"] = "".join(r.choice(LETTERS) for _ in range(r.randint(0, length)))
        if index + (field["occurs"] - 1) * (length + 1) >= lines * columns:
            break
        fields.append(field)
        index += field["occurs"] * (length + 1) + r.choice([0, 0, 1, 3, 70])
    return {"name": name, "lines": lines, "columns": columns, "top": top, "left": left, "fields": fields, "freekb": r.random() < 0.7}


def words_of(field):
    if field["plain"]:
        return None
    words = [w for w in (field["protection"], field["display"]) if w]
    words += [w for w, on in (("NUM", field["num"]), ("FSET", field["fset"]), ("IC", field["ic"])) if on]
    return words or ["NORM"]


def either(r, word):
    return word.lower() if r.random() < 0.1 else word


def statement(r, label, operation, operands):
    """The lines of a statement: operands are cut after a comma, or at column 71."""
    text = ",".join(operands)
    lines, front, first = [], f"{label:<8} {operation} ", True
    while True:
        room = 71 - len(front)
        if len(text) <= room:
            remark = " A REMARK, NOT READ" if r.random() < 0.1 and len(text) + 20 < room else ""
            lines.append(front + text + remark)
            return lines
        comma = text.rfind(",", 1, room - 1)
        quoted = text[:comma + 1].count("'") % 2 if comma >= 0 else 1
        if comma >= 0 and not quoted and text[comma + 1] != " " and r.random() < 0.7:
            lines.append((front + text[:comma + 1]).ljust(71) + "X")
            text = text[comma + 1:]
        else:
            lines.append((front + text[:room]).ljust(71) + "X")
            text = text[room:]
        front = " " * 15


def source_of(r, maps):
    lines = statement(r, "SET", "DFHMSD", ["TYPE=&SYSPARM", "MODE=INOUT", "LANG=COBOL"])
    for m in maps:
        operands = [f"SIZE=({m['lines']},{m['columns']})"]
        if m["top"]:
            operands.append(f"LINE={m['top'] + 1}")
        if m["left"]:
            operands.append(f"COLUMN={m['left'] + 1}")
        if m["freekb"]:
            operands.append("CTRL=(FREEKB,ALARM)")
        m["line"] = len(lines) + 1
        lines += statement(r, m["name"], "DFHMDI", operands)
        order = list(m["fields"])
        if r.random() < 0.3:
            r.shuffle(order)
        for field in order:
            place = field["index"]
            pos = f"POS={place}" if r.random() < 0.2 else f"POS=({place // m['columns'] + 1},{place % m['columns'] + 1})"
            operands = [pos]
            if field["length"] and r.random() < 0.1:
                operands.append(f"PICIN='X({field['length']})'")
            else:
                operands.append(f"{either(r, 'LENGTH')}={field['length']}")
            words = words_of(field)
            if words:
                operands.append(f"ATTRB=({','.join(either(r, w) for w in words)})" if len(words) > 1 else f"ATTRB={words[0]}")
            if field["text"] is not None:
                operands.append("INITIAL='" + field["text"].replace("'", "''").replace("&", "&&") + "'")
            if field["occurs"] > 1:
                operands.append(f"OCCURS={field['occurs']}")
            lines += statement(r, field["label"] or "", "DFHMDF", operands)
            if r.random() < 0.05:
                lines.append(r.choice(["* A COMMENT", ".* ANOTHER", "", "         EJECT"]))
        m["cursor"] = next((f for f in reversed(order) if f["ic"] and not f["plain"]), None)
    lines += ["         DFHMSD TYPE=FINAL", "         END", "nothing is looked at here"]
    return "\n".join(lines) + "\n"


def bits_of(field):
    if field["plain"]:
        return 0x30
    return PROTECTION[field["protection"]] | DISPLAY[field["display"]] | (0x10 if field["num"] else 0) | (1 if field["fset"] else 0)


def wanted(m):
    """The first line of `show`, without the keyboard, and the rows of the screen."""
    rows, cols = next(s for s in SCREENS if m["top"] + m["lines"] <= s[0] and m["left"] + m["columns"] <= s[1])
    count, cells, cursor = rows * cols, {}, 0
    places = []
    for field in m["fields"]:
        for k in range(field["occurs"]):
            index = field["index"] + k * (field["length"] + 1)
            at = (m["top"] + index // m["columns"]) * cols + m["left"] + index % m["columns"]
            places.append((at, field))
            if field is m["cursor"]:
                cursor = (at + 1) % count
    for at, field in sorted(places, key=lambda it: it[0]):
        cells[at] = ("@", bits_of(field))
        if field["text"] is not None and field["length"]:
            for i, c in enumerate(field["text"].ljust(field["length"])):
                cells[(at + 1 + i) % count] = (c, None)
    attributes = sorted(at for at, cell in cells.items() if cell[1] is not None)
    shown = []
    for at in range(count):
        cell = cells.get(at)
        if cell is None:
            shown.append(".")
        elif cell[1] is not None:
            shown.append("@")
        else:
            before = [a for a in attributes if a < at] or attributes
            hidden = bool(before) and cells[before[-1]][1] & 12 == 12
            shown.append("*" if hidden else cell[0])
    text = "".join(shown)
    return f"screen {rows}x{cols} cursor {cursor} ", [f"|{text[i:i + cols]}|" for i in range(0, count, cols)], (rows, cols)


def run(args, stdin=b""):
    return subprocess.run([PROGRAM] + args, input=stdin, capture_output=True)


def main():
    passed = failed = 0
    for seed in range(MAPSETS):
        r = random.Random(seed)
        maps = [drawn_map(r, f"M{i}") for i in range(60)]
        source = source_of(r, maps)
        with tempfile.NamedTemporaryFile("w", suffix=".bms") as file:
            file.write(source)
            file.flush()
            told = run(["map", file.name])
        lines = told.stdout.decode().splitlines()
        if told.returncode != 0 or len(lines) != 120:
            failed += 60
            print(f"mapset {seed}: status {told.returncode}: {told.stdout[:200]}")
            continue
        for m, head, record in zip(maps, lines[::2], lines[1::2]):
            first, rows, (high, wide) = wanted(m)
            stdin = f"size 24x80 {high}x{wide}\n{record}\n".encode()
            shown = run(["show"], stdin).stdout.decode().splitlines()
            good = head == f"# map {m['name']} at line {m['line']}, screen {high}x{wide}"
            good = good and bool(shown) and shown[0].startswith(first) and shown[-high:] == rows
            if good:
                passed += 1
            else:
                failed += 1
                print(f"mapset {seed} map {m['name']}: {head}; {shown[:1]} wanted {first}")
    print(f"{passed} passed, {failed} failed")
    return failed != 0


sys.exit(main())
