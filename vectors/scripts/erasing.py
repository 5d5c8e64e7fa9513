"""Keys that erase: Erase EOF, Erase Input, Delete, Clear."""

from parts.codes import erase_alternate, erase_write, ge, ic, sba, sf, text, typed


def field(bits, said, *after, at=10):
    return [sba(at), sf(bits), text(said), *after]


ENDED = field(0x00, "ABCDEF", sf(0x20), text("XYZ"))
AROUND = [text("DEFG"), sf(0x20), text("P"), sba(1916), sf(0x00), text("ABC")]


def write(script):
    erase_eof(script)
    erase_input(script)
    delete(script)
    clear(script)


def erase_eof(script):
    script.of("Erase EOF", "Keyboard")
    # The field is 11 to 16.
    for place, left in ((11, "000000000000"), (13, "C1C200000000"), (16, "C1C2C3C4C500")):
        script.case(f"eof-{place}", f"Erase EOF at {place} of a field of 11 to 16 makes nulls from there to its end", erase_write(*ENDED, sba(place), ic), keys=["eraseeof"],
                    paper={"at": {11: left + "--E7"}, "cursor": place, "attributes": {"10": "01", "17": "20"}})
    for place, why in ((10, "on an attribute"), (17, "on the attribute that ends a field"), (18, "in a protected field")):
        script.case(f"eof-inhibited-{place}", f"Erase EOF {why} is inhibited", erase_write(*ENDED, sba(place), ic), keys=["eraseeof"],
                    paper={"keyboard": "error", "cursor": place, "at": {11: "C1C2C3C4C5C6--E7E8E9"}, "attributes": {"10": "00", "17": "20"}})
    # From 1917 on: 1917, 1918, 1919, 0 to 3; the protected attribute stands at 4.
    script.case("eof-round", "Erase EOF goes round the end with its field", erase_write(*AROUND, sba(1918), ic), keys=["eraseeof"], paper={"at": {1917: "C100", 1919: "0000000000--D7"}})
    script.case("eof-round-at-zero", "Erase EOF in the first cells of a field that goes round the end leaves the last ones", erase_write(*AROUND, sba(1), ic), keys=["eraseeof"],
                paper={"at": {1917: "C1C2C3C4000000--"}, "attributes": {"4": "20", "1916": "01"}})
    script.case("eof-unformatted", "Erase EOF without attributes goes to the last position, and not round the end", erase_write(text("ABCD"), sba(1919), text("Z"), sba(2), ic), keys=["eraseeof"],
                paper={"at": {0: "C1C20000", 1919: "00"}, "cursor": 2})
    script.case("eof-rows", "Erase EOF goes over the ends of rows", erase_write(sba(70), sf(0x00), text("A" * 30), sf(0x20), sba(75), ic), keys=["eraseeof"], paper={"at": {71: "C1C1C1C1" + "00" * 26 + "--"}})
    script.case("eof-nulls", "Erase EOF over nulls sets the tag too", erase_write(sba(10), sf(0x00), sba(14), sf(0x20), sba(11), ic), keys=["eraseeof"], paper={"attributes": {"10": "01", "14": "20"}})
    script.case("eof-sent", "a field that Erase EOF emptied is sent without characters", erase_write(*ENDED, sba(11), ic), keys=["eraseeof", "enter"], paper={"answers": ["7D404B" + "11404B"]})
    script.case("eof-alternate", "Erase EOF takes characters of the alternate set", erase_write(sba(10), sf(0x00), ge(0xC1), text("A"), sf(0x20), sba(11), ic), keys=["eraseeof"], paper={"at": {11: "0000"}})
    script.case("eof-hidden", "Erase EOF erases a hidden input", erase_write(*field(0x0C, "AB", sf(0x20)), sba(11), ic), keys=["eraseeof"], paper={"at": {11: "0000"}, "attributes": {"10": "0D", "13": "20"}})


def erase_input(script):
    script.of("Erase Input", "Keyboard")
    form = [sf(0x01), text("AB"), sf(0x21), text("CD"), sf(0x11), text("EF"), sf(0x20), text("G"), sf(0x01), sf(0x20)]
    script.case("input-form", "Erase Input makes nulls of unprotected characters and resets their tags, and leaves protected ones", erase_write(*form, sba(99), ic), keys=["eraseinput"],
                paper={"at": {0: "--0000--C3C4--0000--C7"}, "attributes": {"0": "00", "3": "21", "6": "10", "9": "20", "11": "00", "12": "20"}, "cursor": 1})
    script.case("input-sent", "after Erase Input Enter sends protected fields with a tag alone", erase_write(*form), keys=["eraseinput", "enter"], paper={"answers": ["7D40C1" + "1140C4" + "C3C4"]})
    script.case("input-unformatted", "Erase Input without attributes erases everything", erase_write(text("ABC"), sba(99), ic), keys=["eraseinput"], paper={"cells": {}, "cursor": 0})
    script.case("input-none", "Erase Input without an input moves the cursor to 0", erase_write(sf(0x20), text("AB"), sba(99), ic), keys=["eraseinput"], paper={"cursor": 0, "at": {1: "C1C2"}})
    script.case("input-round", "where an input goes round the end Erase Input puts the cursor at 0", erase_write(*AROUND, sba(99), ic), keys=["eraseinput"], source="own",
                paper={"cursor": 0, "at": {0: "00000000--D7", 1917: "000000"}})
    script.case("input-from-protected", "Erase Input acts wherever the cursor stands", erase_write(*form, sba(4), ic), keys=["eraseinput"], paper={"cursor": 1, "keyboard": "free"})
    script.case("input-typed", "Erase Input takes what was typed, and its tag", erase_write(*field(0x00, "  ", sf(0x20)), sba(11), ic), keys=[*typed("A"), "eraseinput", "enter"],
                paper={"answers": ["7D404B"], "attributes": {"10": "00", "13": "20"}})


def delete(script):
    script.of("Delete", "Keyboard")
    for place, left in ((11, "C2C3C4C5C600"), (13, "C1C2C4C5C600"), (16, "C1C2C3C4C500")):
        script.case(f"delete-{place}", f"Delete at {place} of a field of 11 to 16 moves the characters behind it, and a null comes last", erase_write(*ENDED, sba(place), ic), keys=["delete"],
                    paper={"at": {11: left + "--E7"}, "cursor": place, "attributes": {"10": "01", "17": "20"}})
    for place, why in ((10, "on an attribute"), (17, "on the attribute that ends a field"), (18, "in a protected field")):
        script.case(f"delete-inhibited-{place}", f"Delete {why} is inhibited", erase_write(*ENDED, sba(place), ic), keys=["delete"],
                    paper={"keyboard": "error", "cursor": place, "at": {11: "C1C2C3C4C5C6--E7E8E9"}})
    # The row ends at 79: 76, 77, 78 move, a null at 79, and 80 stays.
    script.case("delete-row", "Delete ends with the cursor's row, and leaves the field's other rows", erase_write(sba(70), sf(0x00), text("ABCDEFGHIJKLMN"), sf(0x20), sba(75), ic), keys=["delete"], source="own",
                paper={"at": {71: "C1C2C3C4C6C7C8C900D1D2"}})
    script.case("delete-row-end", "Delete in a row's last cell leaves a null there", erase_write(sba(70), sf(0x00), text("ABCDEFGHIJKLMN"), sf(0x20), sba(79), ic), keys=["delete"], source="own",
                paper={"at": {78: "C800D1"}})
    script.case("delete-second-row", "Delete in a field's second row moves that row's characters", erase_write(sba(70), sf(0x00), text("ABCDEFGHIJKLMN"), sf(0x20), sba(80), ic), keys=["delete"],
                paper={"at": {78: "C8C9D2D3D4D500--"}})
    script.case("delete-unformatted", "Delete without attributes ends with the row", erase_write(sba(77), text("ABCDE"), sba(77), ic), keys=["delete"], source="own", paper={"at": {77: "C2C300C4C5"}})
    script.case("delete-nulls", "Delete where only nulls move sets the tag too", erase_write(sba(10), sf(0x00), sba(14), sf(0x20), sba(11), ic), keys=["delete"], paper={"attributes": {"10": "01", "14": "20"}})
    script.case("delete-round", "Delete in the last row of a field that goes round the end leaves its first cells", erase_write(*AROUND, sba(1917), ic), keys=["delete"], source="own",
                paper={"at": {1917: "C2C300C4C5C6C7--"}})
    script.case("delete-one-cell", "Delete in a field of one cell leaves a null", erase_write(*field(0x00, "A", sf(0x20)), sba(11), ic), keys=["delete"], paper={"at": {10: "--00--"}})
    script.case("delete-twice", "two Deletes take two characters", erase_write(*ENDED, sba(12), ic), keys=["delete", "delete"], paper={"at": {11: "C1C4C5C60000--"}})


def clear(script):
    script.of("Enter, PF and PA keys, Clear", "Keyboard")
    script.case("clear-form", "Clear erases everything, protected fields too, and puts the cursor at 0", erase_write(*ENDED, sba(15), ic), keys=["clear"],
                paper={"cells": {}, "attributes": {}, "cursor": 0, "aid": "6D", "keyboard": "waiting", "answers": ["6D"]})
    script.case("clear-unformatted", "Clear without attributes erases everything", erase_write(text("ABC"), sba(15), ic), keys=["clear"], paper={"cells": {}, "cursor": 0, "answers": ["6D"]})
    script.case("clear-typed", "what was typed is erased by Clear and not sent", erase_write(*field(0x00, "  ", sf(0x20)), sba(11), ic), keys=[*typed("A"), "clear"], paper={"cells": {}, "answers": ["6D"]})
    script.case("clear-then-write", "after Clear a Write begins at 0", erase_write(*ENDED, sba(15), ic), keys=["clear"], then=[bytes([0xF1, 0xC2]) + text("HI")], paper={"at": {0: "C8C900"}, "keyboard": "free", "aid": "60"})
    script.case("clear-alternate-write", "after Clear the default size is there again, and 1920 is outside", erase_alternate(text("A")), keys=["clear"], then=[bytes([0xF1, 0xC2]) + text("HI")], size="24x80 43x80",
                paper={"size": "24x80", "at": {0: "C8C900"}})
