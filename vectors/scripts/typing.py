"""Characters that are typed: where they go, what they change, where the cursor settles."""

from parts.codes import erase_write, ge, ic, sba, sf, text, typed, write as write_record


def field(bits, said, *after, at=10):
    return [sba(at), sf(bits), text(said), *after]


def write(script):
    codes(script)
    settling(script)
    wrapping(script)
    tags(script)


def codes(script):
    script.of("a character, 40 to FE", "Keyboard")
    for code in (*range(0x4A, 0x51), *range(0x5A, 0x62), *range(0x6A, 0x70), *range(0x79, 0x80), 0x81, 0x89, 0x91, 0x99, 0xA1, 0xA2, 0xA9, 0xB0, 0xBA, 0xBB, 0xC0, 0xC9, 0xD0, 0xD9, 0xE0, 0xE2, 0xE9, 0xF0, 0xF9):
        script.case(f"type-{code:02X}", f"the character {code:02X} is stored when it is typed", erase_write(*field(0x00, "   ", sf(0x20)), sba(11), ic), keys=[f"type {code:02X}"],
                    paper={"at": {11: f"{code:02X}4040"}, "cursor": 12, "attributes": {"10": "01", "14": "20"}})
    script.case("blank", "a blank is a character like others", erase_write(*field(0x00, "AB", sf(0x20)), sba(11), ic), keys=["type 40"], paper={"at": {11: "40C2"}, "attributes": {"10": "01", "13": "20"}})
    script.case("numeric-letter", "a numeric field takes letters", erase_write(*field(0x10, "  ", sf(0x20)), sba(11), ic), keys=typed("A"), source="own", paper={"at": {11: "C140"}, "keyboard": "free"})
    for place, why in ((10, "on an unprotected attribute"), (14, "on a protected attribute"), (15, "in a protected field")):
        script.case(f"inhibited-{place}", f"a character {why} is inhibited", erase_write(*field(0x00, "ABC", sf(0x20), text("X")), sba(place), ic), keys=typed("Z"),
                    paper={"cursor": place, "keyboard": "error", "attributes": {"10": "00", "14": "20"}, "at": {10: "--C1C2C3--E7"}})
    script.case("inhibited-skip", "a character in an auto-skip field is inhibited", erase_write(*field(0x30, "ABC"), sba(11), ic), keys=typed("Z"), paper={"keyboard": "error", "at": {11: "C1C2C3"}})
    script.case("after-error", "after a character that is inhibited the next one is ignored", erase_write(*field(0x20, "AB", sf(0x00), text("CD")), sba(11), ic), keys=[*typed("Z"), "right", "tab", *typed("Y")],
                source="own", paper={"cursor": 11, "keyboard": "error", "at": {11: "C1C2--C3C4"}})


def settling(script):
    script.of("Settling", "Keyboard")
    # The field is 11 to 13, and 14 the attribute behind it.
    script.case("inside", "inside a field the cursor goes on by one", erase_write(*field(0x00, "ABC", sf(0x20)), sba(11), ic), keys=typed("X"), paper={"cursor": 12})
    for bits, to, name in ((0x20, 15, "a protected field: it is stepped over, and the cursor stops behind it"), (0x00, 15, "an unprotected field: the cursor goes to its start"),
                           (0x10, 15, "a numeric field: the cursor goes to its start"), (0x30, 41, "an auto-skip field: the cursor goes on to the next field start"),
                           (0x31, 41, "a modified auto-skip field: the cursor goes on to the next field start"), (0x3C, 41, "a hidden auto-skip field: the cursor goes on to the next field start"),
                           (0x38, 41, "an intensified auto-skip field: the cursor goes on to the next field start"), (0x2C, 15, "a hidden protected field: it is stepped over")):
        script.case(f"behind-{bits:02X}", f"a field is full behind which comes {name}", erase_write(*field(0x00, "ABC", sf(bits), text("LABEL")), *field(0x00, "DEF", sf(0x20), at=40), sba(13), ic),
                    keys=typed("X"), paper={"cursor": to, "at": {13: "E7"}})
    script.case("two-attributes", "the cursor steps over two attributes that stand side by side", erase_write(*field(0x00, "ABC", sf(0x20), sf(0x00), text("D")), sba(13), ic), keys=typed("X"), paper={"cursor": 16})
    script.case("second-skips", "an auto-skip attribute behind another attribute makes the cursor skip", erase_write(*field(0x00, "ABC", sf(0x20), sf(0x30), text("D")), *field(0x00, "E", sf(0x20), at=40), sba(13), ic),
                keys=typed("X"), paper={"cursor": 41})
    script.case("first-skips", "an auto-skip attribute before another attribute makes the cursor skip", erase_write(*field(0x00, "ABC", sf(0x30), sf(0x20), text("D")), *field(0x00, "E", sf(0x20), at=40), sba(13), ic),
                keys=typed("X"), paper={"cursor": 41})
    script.case("skip-to-adjacent", "from an auto-skip attribute without cells the cursor goes to the field start behind it", erase_write(*field(0x00, "ABC", sf(0x30), sf(0x00), text("D")), sba(13), ic),
                keys=typed("X"), paper={"cursor": 16})
    script.case("skip-round", "auto-skip goes round the end to the first field start", erase_write(*field(0x00, "ABC", sf(0x30), text("LABEL")), sba(13), ic), keys=typed("X"), paper={"cursor": 11})
    script.case("skip-passes-protected", "auto-skip passes protected fields", erase_write(*field(0x00, "ABC", sf(0x30)), *field(0x20, "P", at=30), *field(0x00, "E", sf(0x20), at=40), sba(13), ic), keys=typed("X"),
                paper={"cursor": 41})
    script.case("skip-passes-empty", "auto-skip passes an input without cells", erase_write(*field(0x00, "ABC", sf(0x30)), *field(0x00, "", sf(0x20), at=30), *field(0x00, "E", sf(0x20), at=40), sba(13), ic),
                keys=typed("X"), paper={"cursor": 41})
    script.case("last-cell", "behind the last cell the cursor goes on at 0", erase_write(text("A"), sba(1919), ic), keys=typed("X"), paper={"cursor": 0, "at": {1919: "E7C1"}})
    script.case("attribute-at-zero", "behind the last cell the cursor steps over an attribute at 0", erase_write(sf(0x20), text("A"), sba(1910), sf(0x00), sba(1919), ic), keys=typed("X"), paper={"cursor": 1})
    script.case("skip-at-zero", "behind the last cell an auto-skip attribute at 0 makes the cursor skip", erase_write(sf(0x30), text("A"), *field(0x00, "B", sf(0x20), at=40), sba(1910), sf(0x00), sba(1919), ic),
                keys=typed("X"), paper={"cursor": 41})
    script.case("unformatted-row", "without attributes the cursor goes on to the next row", erase_write(sba(79), ic), keys=typed("X"), paper={"cursor": 80})
    script.case("one-cell", "a field of one cell is full after one character", erase_write(*field(0x00, "A", sf(0x30)), *field(0x00, "B", sf(0x20), at=40), sba(11), ic), keys=typed("XY"), paper={"at": {11: "E7--", 41: "E8"}, "cursor": 43})
    script.case("typed-on", "what is typed on goes into the field to which the cursor settled", erase_write(*field(0x00, "AB", sf(0x00), text("CD"), sf(0x20)), sba(11), ic), keys=typed("WXYZ"),
                paper={"at": {10: "--E6E7--E8E9--"}, "attributes": {"10": "01", "13": "01", "16": "20"}})


def wrapping(script):
    script.of("The buffer", "Fields")
    around = [sba(4), sf(0x20), sba(1916), sf(0x00), text("ABC")]
    script.case("round-cursor", "a field that goes round the end is typed on round it", erase_write(*around, sba(1918), ic), keys=typed("XYZ"), paper={"at": {1917: "C1E7E8E9"}, "cursor": 1})
    script.case("round-sent", "a field that goes round the end is sent from its start on", erase_write(*around, sba(1918), ic), keys=[*typed("XYZ"), "enter"],
                paper={"answers": ["7D40C1" + "115D7D" + "C1E7E8E9"]})
    script.case("round-tag", "typing at 0 sets the tag of a field whose attribute is near the end", erase_write(*around, sba(0), ic), keys=typed("Q"), paper={"attributes": {"4": "20", "1916": "01"}})
    script.case("round-protected", "typing at 0 is inhibited where a protected field goes round the end", erase_write(sba(4), sf(0x00), sba(1916), sf(0x20), text("A"), sba(0), ic), keys=typed("Q"),
                paper={"keyboard": "error", "cells": {"23": "00" * 77 + "C1"}})


def tags(script):
    script.of("Field attributes", "Field attributes")
    script.case("sets-tag", "a character sets the modified data tag of its field alone", erase_write(*field(0x00, "A", sf(0x20)), *field(0x00, "B", sf(0x20), at=40), sba(11), ic), keys=typed("X"),
                paper={"attributes": {"10": "01", "12": "20", "40": "00", "42": "20"}})
    script.case("same-character", "the character that stood there sets the tag too", erase_write(*field(0x00, "A", sf(0x20)), sba(11), ic), keys=typed("A"), paper={"attributes": {"10": "01", "12": "20"}})
    script.case("keeps-bits", "the tag is all that typing changes of an attribute", erase_write(*field(0x1C, "A", sf(0x20)), sba(11), ic), keys=typed("X"), paper={"attributes": {"10": "1D", "12": "20"}})
    script.case("write-keeps-tag", "text over a field of a Write leaves its tag", erase_write(*field(0x01, "A", sf(0x20)), wcc=0xC0), write_record(sba(11), text("X")), paper={"attributes": {"10": "01", "12": "20"}})
    script.case("write-sets-none", "text of a Write sets no tag", erase_write(*field(0x00, "A", sf(0x20)), wcc=0xC0), write_record(sba(11), text("X")), paper={"attributes": {"10": "00", "12": "20"}})
    script.case("new-attribute-no-tag", "a new attribute without the bit takes the tag away", erase_write(*field(0x01, "A", sf(0x20)), wcc=0xC0), write_record(sba(10), sf(0x00)), paper={"attributes": {"10": "00", "12": "20"}})
    script.case("tag-without-typing", "a tag that a record set is sent though nothing was typed", erase_write(*field(0x01, "A", sf(0x20))), keys=["enter"], paper={"answers": ["7D4040" + "11404B" + "C1"]})
    script.case("typed-over-alternate", "a typed character takes the place of one of the alternate set", erase_write(sba(10), sf(0x00), ge(0xC1), sf(0x20), sba(11), ic), keys=typed("A"), paper={"at": {11: "C1"}})
