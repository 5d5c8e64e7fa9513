"""Keys that move the cursor."""

from parts.codes import erase_alternate, erase_write, ic, sba, sf, text

SIZES = {"24x80 24x80": (24, 80), "24x80 43x80": (43, 80), "24x80 27x132": (27, 132)}
# Inputs at 81 (80 is their attribute), 161 and 401; protected fields between them, and an input without cells at 500.
FORM = [sf(0x20), sba(80), sf(0x00), text("ABCD"), sf(0x20), sba(160), sf(0x10), text("12"), sf(0x30), sba(400), sf(0x0D), text("XY"), sf(0x20), sba(500), sf(0x00), sf(0x20)]


def at(place, *fields, size="24x80 24x80"):
    erase = erase_write if size == "24x80 24x80" else erase_alternate
    return erase(*fields, sba(place), ic)


def write(script):
    plain(script)
    over_fields(script)
    tabs(script)
    lines(script)
    home(script)


def plain(script):
    script.of("Left, Right, Up, Down", "Keyboard")
    for size, (rows, columns) in SIZES.items():
        name, cells = size.split()[1], rows * columns
        places = {"first": 0, "end-of-first-row": columns - 1, "begin-of-second-row": columns, "middle": 5 * columns + 7, "begin-of-last-row": cells - columns, "last": cells - 1}
        for where, place in places.items():
            for key, step in (("left", -1), ("right", 1), ("up", -columns), ("down", columns)):
                # One position or one row, round the buffer.
                to = (place + step) % cells
                script.case(f"{key}-{name}-{where}", f"{key.capitalize()} from {place} of {name} goes to {to}", at(place, size=size), keys=[key], size=size,
                            paper={"cursor": to, "keyboard": "free"})


def over_fields(script):
    script.of("Left, Right, Up, Down", "Keyboard")
    for key, place, to, why in (("right", 79, 80, "onto an attribute"), ("left", 81, 80, "onto an attribute"), ("right", 84, 85, "out of an input onto the attribute that ends it"),
                                ("down", 1, 81, "from a protected field into an input"), ("up", 161, 81, "from an input into another"), ("left", 0, 1919, "from an attribute at 0 to the last cell"),
                                ("right", 1919, 0, "from the last cell onto an attribute at 0")):
        script.case(f"{key}-over-{place}", f"{key.capitalize()} goes {why}, from {place} to {to}", at(place, *FORM), keys=[key], paper={"cursor": to})


def tabs(script):
    script.of("Tab, BackTab", "Keyboard")
    # Field starts: 81, 161, 401.
    for place, to, why in ((0, 81, "from an attribute"), (79, 81, "from just before an input's attribute"), (80, 81, "from an input's attribute"), (81, 161, "from a field start"), (83, 161, "from inside an input"),
                           (90, 161, "from a protected field"), (161, 401, "from a numeric field's start"), (401, 81, "from the last field start, round the end"),
                           (450, 81, "behind the last field start"), (499, 81, "and passes an input without cells"), (1919, 81, "from the last cell")):
        script.case(f"tab-{place}", f"Tab goes to the next field start, {to}, {why}, {place}", at(place, *FORM), keys=["tab"], paper={"cursor": to})
    for place, to, why in ((0, 401, "from 0, round the end"), (80, 401, "from an input's attribute"), (81, 401, "from the first field start"), (82, 81, "from inside an input, to its own start"),
                           (84, 81, "from the last cell of an input"), (85, 81, "from the attribute that ends an input"), (160, 81, "from the next input's attribute"), (161, 81, "from a field start"),
                           (162, 161, "from the second cell"), (402, 401, "from the second cell of a hidden input"), (501, 401, "and passes an input without cells"), (1919, 401, "from the last cell")):
        script.case(f"backtab-{place}", f"BackTab goes to the field start before, {to}, {why}, {place}", at(place, *FORM), keys=["backtab"], paper={"cursor": to})
    for key in ("tab", "backtab"):
        name = {"tab": "Tab", "backtab": "BackTab"}[key]
        script.case(f"{key}-no-input", f"{name} without an input goes to 0", at(500, sf(0x20), sba(100), sf(0x30)), keys=[key], paper={"cursor": 0})
        script.case(f"{key}-unformatted", f"{name} without attributes goes to 0", at(500), keys=[key], paper={"cursor": 0})
        script.case(f"{key}-alone", f"{name} at the only field start stays there", at(11, sba(10), sf(0x00)), keys=[key], paper={"cursor": 11})
        script.case(f"{key}-alone-inside", f"{name} inside the only input goes to its start", at(15, sba(10), sf(0x00)), keys=[key], paper={"cursor": 11})
        script.case(f"{key}-last-cell", f"{name} goes to 0 where an input's attribute is in the last cell", at(700, sba(1919) + sf(0x00) + sba(9) + sf(0x20)), keys=[key],
                    paper={"cursor": 0})
        script.case(f"{key}-empty-input", f"{name} where all inputs have no cell goes to 0", at(700, sba(10), sf(0x00), sf(0x20), sba(20), sf(0x00), sf(0x20)), keys=[key], paper={"cursor": 0})
    script.case("tab-twice", "two Tabs go over two field starts", at(0, *FORM), keys=["tab", "tab"], paper={"cursor": 161})
    script.case("tab-and-back", "BackTab takes back a Tab to a field start", at(81, *FORM), keys=["tab", "backtab"], paper={"cursor": 81})


def lines(script):
    script.of("NewLine", "Keyboard")
    for place, to, why in ((0, 81, "to the input of the next row"), (79, 81, "from the end of a row"), (81, 161, "from an input to the next row's"), (161, 401, "over rows without an input"),
                           (402, 81, "from the last input's row, to the first row after the last one"), (1919, 81, "from the last row")):
        script.case(f"newline-{place}", f"NewLine goes {why}, from {place} to {to}", at(place, *FORM), keys=["newline"], paper={"cursor": to})
    script.case("newline-begin", "NewLine goes to the row's first cell where an input that began above goes on there", at(3, sba(2), sf(0x00)), keys=["newline"], paper={"cursor": 80})
    script.case("newline-own-row", "NewLine in the only row with an input comes to that row's input again", at(165, sba(160), sf(0x00), text("ABC"), sf(0x20)), keys=["newline"], paper={"cursor": 161})
    script.case("newline-none", "NewLine without an input goes to 0", at(500, sf(0x20)), keys=["newline"], paper={"cursor": 0})
    script.case("newline-unformatted", "NewLine without attributes goes to the next row's first cell", at(165), keys=["newline"], paper={"cursor": 240})
    script.case("newline-last-row", "NewLine in the last row without attributes goes to 0", at(1900), keys=["newline"], paper={"cursor": 0})


def home(script):
    script.of("Home", "Keyboard")
    script.case("home-form", "Home goes to the first unprotected position", at(700, *FORM), keys=["home"], paper={"cursor": 81})
    script.case("home-unformatted", "Home without attributes goes to 0", at(700), keys=["home"], paper={"cursor": 0})
    script.case("home-none", "Home without an input goes to 0", at(700, sf(0x20)), keys=["home"], paper={"cursor": 0})
    script.case("home-at-zero", "Home goes to 0 where an input that goes round the end has it", at(700, sba(9), sf(0x20), sba(1900), sf(0x00)), keys=["home"], source="own", paper={"cursor": 0})
    script.case("home-attribute-last", "Home goes to 0 where an input's attribute is in the last cell", at(700, sba(9), sf(0x20), sba(1919), sf(0x00)), keys=["home"], paper={"cursor": 0})
    script.case("home-first-of-attribute-zero", "Home goes to 1 where an input's attribute is at 0", at(700, sf(0x00), sba(9), sf(0x20)), keys=["home"], paper={"cursor": 1})
    script.case("home-passes-empty", "Home passes an input without cells", at(700, sba(5), sf(0x00), sf(0x20), sba(40), sf(0x00), sba(60), sf(0x20)), keys=["home"], paper={"cursor": 41})
