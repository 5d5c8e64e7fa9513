"""Insert mode, duplicate and field mark."""

from parts.codes import erase_write, ge, ic, sba, sf, text, typed

ROOM = [sba(10), sf(0x00), text("ABC"), sba(17), sf(0x20), text("XYZ")]  # 11 to 13 are letters, 14 to 16 nulls
FULL = [sba(10), sf(0x00), text("ABCDEF"), sf(0x20), text("XYZ")]  # 11 to 16 are letters


def write(script):
    insert(script)
    mode(script)
    duplicate(script)


def insert(script):
    script.of("a character, in insert mode", "Keyboard")
    for place, left in ((11, "E9C1C2C30000"), (12, "C1E9C2C30000"), (13, "C1C2E9C30000"), (14, "C1C2C3E90000"), (15, "C1C2C300E900")):
        script.case(f"room-{place}", f"in insert mode a character at {place} of a field with letters up to 13 moves those behind it by one", erase_write(*ROOM, sba(place), ic), keys=["insert", *typed("Z")],
                    paper={"at": {11: left + "--E7"}, "cursor": place + 1, "attributes": {"10": "01", "17": "20"}})
    for place in (11, 14, 16):
        script.case(f"full-{place}", f"in insert mode a character at {place} of a full field is inhibited", erase_write(*FULL, sba(place), ic), keys=["insert", *typed("Z")],
                    paper={"at": {11: "C1C2C3C4C5C6--E7"}, "cursor": place, "keyboard": "error", "attributes": {"10": "00", "17": "20"}})
    script.case("blanks", "blanks at a field's end make no room", erase_write(sba(10), sf(0x00), text("AB  "), sf(0x20), sba(11), ic), keys=["insert", *typed("Z")], paper={"keyboard": "error", "at": {11: "C1C24040"}})
    script.case("null-before", "a null before the cursor makes no room", erase_write(sba(10), sf(0x00), sba(12), text("ABC"), sf(0x20), sba(12), ic), keys=["insert", *typed("Z")],
                paper={"keyboard": "error", "at": {11: "00C1C2C3--"}})
    script.case("null-inside", "letters move up to the first null, and those behind it stay", erase_write(sba(10), sf(0x00), text("AB"), sba(14), text("CD"), sba(18), sf(0x20), sba(11), ic), keys=["insert", *typed("Z")],
                paper={"at": {11: "E9C1C2C3C400"}})
    script.case("alternate-set", "characters of the alternate set move as they are", erase_write(sba(10), sf(0x00), ge(0xC1), sba(15), sf(0x20), sba(11), ic), keys=["insert", *typed("Z")], paper={"at": {11: "E9C1"}, "alternate": [12]})
    script.case("row-end", "letters move from a row into the next one", erase_write(sba(70), sf(0x00), text("ABCDEFGHI"), sba(85), sf(0x20), sba(71), ic), keys=["insert", *typed("Z")], paper={"at": {71: "E9C1C2C3C4C5C6C7C8C900"}})
    script.case("unformatted", "without attributes letters move up to the end of the cursor's row", erase_write(sba(70), text("ABCDEFGHIJ"), text("KL"), sba(75), ic), keys=["insert", *typed("Z")], source="own",
                paper={"keyboard": "error"})
    script.case("unformatted-room", "without attributes a null in the cursor's row makes room", erase_write(sba(70), text("ABC"), sba(80), text("KL"), sba(70), ic), keys=["insert", *typed("Z")], source="own",
                paper={"at": {70: "E9C1C2C300", 80: "D2D3"}})
    # The field is 1917, 1918, 1919, 0, 1, 2, 3; nulls at 1 to 3.
    script.case("round", "letters move round the end with their field", erase_write(text("D"), sba(4), sf(0x20), text("PQ"), sba(80), text("LABEL"), sba(1916), sf(0x00), text("ABC"), sba(1917), ic), keys=["insert", *typed("Z")],
                paper={"at": {1917: "E9C1C2C3C40000--D7"}})
    script.case("protected", "in insert mode a character in a protected field is inhibited", erase_write(sba(10), sf(0x20), text("AB"), sba(11), ic), keys=["insert", *typed("Z")], paper={"keyboard": "error", "at": {11: "C1C2"}})


def mode(script):
    script.of("Insert", "own")
    script.case("insert-alone", "Insert alone changes nothing on the screen", erase_write(*ROOM, sba(11), ic), keys=["insert"], paper={"at": {11: "C1C2C3000000--"}, "cursor": 11, "keyboard": "free"})
    script.case("insert-twice", "Insert a second time leaves insert mode on", erase_write(*ROOM, sba(11), ic), keys=["insert", "insert", *typed("Z")], paper={"at": {11: "E9C1C2C3"}})
    script.of("Reset, and each key that sends", "own")
    script.case("reset-ends", "Reset ends insert mode", erase_write(*ROOM, sba(11), ic), keys=["insert", "reset", *typed("Z")], paper={"at": {11: "E9C2C300"}})
    script.of("any other key", "own")
    # The field 101 to 104 holds AB and two nulls; each key goes away, and Tab or BackTab comes back to 101.
    for key, back in (("left", "tab"), ("right", "backtab"), ("tab", "backtab"), ("backtab", "tab"), ("newline", "tab"), ("home", "tab"), ("up", "tab"), ("down", "backtab")):
        script.case(f"kept-by-{key}", f"{key} keeps insert mode", erase_write(sba(100), sf(0x00), text("AB"), sba(105), sf(0x20), sba(101), ic), keys=["insert", key, back, *typed("Z")],
                    paper={"at": {101: "E9C1C200"}})
    script.case("kept-by-eof", "Erase EOF keeps insert mode", erase_write(*ROOM, sba(13), ic), keys=["insert", "eraseeof", "backtab", *typed("Z")], paper={"at": {11: "E9C1C200"}})
    script.case("kept-by-delete", "Delete keeps insert mode", erase_write(*ROOM, sba(11), ic), keys=["insert", "delete", *typed("Z")], paper={"at": {11: "E9C2C30000"}})
    script.case("kept-when-inhibited", "a character that is inhibited keeps insert mode, and Reset ends it", erase_write(*FULL, sba(11), ic), keys=["insert", *typed("Z"), "reset", *typed("Z")], paper={"at": {11: "E9C2C3C4C5C6"}})


def duplicate(script):
    for key, code, name in (("dup", "1C", "Dup"), ("fieldmark", "1E", "FieldMark")):
        script.of(name, "Keyboard")
        script.case(f"{key}-stored", f"{name} stores {code} and sets the modified data tag", erase_write(*ROOM, sba(11), ic), keys=[key], paper={"at": {11: f"{code}C2C3"}, "attributes": {"10": "01", "17": "20"}})
        script.case(f"{key}-cursor", f"{name} moves the cursor {'as Tab does' if key == 'dup' else 'as a character does'}", erase_write(*ROOM, sba(40), sf(0x00), text("A"), sf(0x20), sba(11), ic), keys=[key],
                    paper={"cursor": 41 if key == "dup" else 12})
        script.case(f"{key}-inhibited", f"{name} in a protected field is inhibited", erase_write(*ROOM, sba(18), ic), keys=[key], paper={"keyboard": "error", "at": {18: "E7E8E9"}})
        script.case(f"{key}-numeric", f"{name} is taken by a numeric field", erase_write(sba(10), sf(0x10), text("12"), sf(0x20), sba(11), ic), keys=[key], source="own", paper={"at": {11: f"{code}F2"}})
        script.case(f"{key}-insert", f"{name} in insert mode moves the letters behind it", erase_write(*ROOM, sba(11), ic), keys=["insert", key], paper={"at": {11: f"{code}C1C2C3"}})
        script.case(f"{key}-full", f"{name} in insert mode in a full field is inhibited", erase_write(*FULL, sba(11), ic), keys=["insert", key], paper={"keyboard": "error", "at": {11: "C1C2C3"}})
        script.case(f"{key}-sent", f"what {name} stored is sent as {code}", erase_write(sba(10), sf(0x00), text("AB"), sf(0x20), sba(11), ic), keys=[key, "enter"],
                    paper={"answers": ["7D404B11404B" + f"{code}C2" if key == "dup" else "7D404C11404B" + f"{code}C2"]})
        script.case(f"{key}-waits", f"{name} is ignored while the keyboard waits", erase_write(*ROOM, sba(11), ic, wcc=0xC0), keys=[key], source="own", paper={"at": {11: "C1C2C3"}, "keyboard": "waiting"})
        script.case(f"{key}-last", f"{name} in a field's last cell", erase_write(sba(10), sf(0x00), text("AB"), sf(0x20), text("X"), sba(12), ic), keys=[key], paper={"cursor": 11 if key == "dup" else 14})
    script.of("Insert, Dup, FieldMark while the keyboard is locked", "own")
    script.case("insert-waits", "Insert while the keyboard waits is ignored: later typing doesn't insert", erase_write(*ROOM, sba(11), ic), keys=["enter", "insert"], then=[bytes([0xF1, 0xC2])],
                paper={"keyboard": "free", "at": {11: "C1C2C3"}})
