"""Program Tab: where it goes, and what it makes nulls of before it goes."""

from parts.codes import erase_write, eua, ge, ic, mf, pt, ra, sa, sba, sf, sfe, text, write as write_record

# Rows of 80. A protected field at 0, inputs at 80 and 160, a protected one at 240, and one at 400 that ends the last input.
FORM = [sba(0), sf(0x20), text("TITLE"), sba(80), sf(0x00), text("ABCD"), sba(85), sf(0x20), sba(160), sf(0x10), text("1234"), sba(165), sf(0x20),
        sba(240), sf(0x20), text("END"), sba(400), sf(0x30)]
# Where the buffer address is after the tab is shown by a character.
MARK = text("#")


def from_(place, *more):
    return erase_write(*FORM, sba(place), *more, pt, MARK)


def write(script):
    script.of("Program Tab", "Orders")
    moving(script)
    nulling(script)
    ends_of_nulling(script)


def moving(script):
    for place, to, why in ((0, 81, "from a protected attribute goes to the first input"), (1, 81, "from inside a protected field goes to the next input"),
                           (79, 81, "from just before an unprotected attribute goes behind it"), (80, 81, "from an unprotected attribute goes right behind that one"),
                           (81, 161, "from the first cell of an input goes to the next input"), (84, 161, "from the last cell of an input goes to the next one"),
                           (86, 161, "passes protected attributes"), (100, 161, "from a null goes to the next input"),
                           (160, 161, "from a numeric attribute goes right behind it")):
        script.case(f"from-{place}", f"Program Tab {why}", from_(place), paper={"at": {to: "7B"}})
    for place, why in ((161, "from the last input"), (241, "behind the last input"), (400, "from the last attribute, a protected one"), (1919, "from the last cell")):
        # The attribute at 0 is written over by the mark.
        script.case(f"from-{place}", f"Program Tab {why} goes to 0, and not round the end", from_(place), source="own", paper={"at": {0: "7B"}})
    script.case("no-input", "Program Tab without an unprotected field goes to 0", erase_write(sba(5), sf(0x20), text("A"), sba(1), pt, MARK), paper={"at": {0: "7B"}})
    script.case("unformatted", "Program Tab without attributes goes to 0", erase_write(sba(5), text("A"), sba(1), pt, MARK), paper={"at": {0: "7B", 5: "C1"}})
    script.case("skip", "Program Tab passes an auto-skip attribute", erase_write(sba(5), sf(0x30), sba(20), sf(0x00), sba(0), pt, MARK), paper={"at": {21: "7B"}})
    script.case("hidden", "Program Tab goes to a hidden input", erase_write(sba(5), sf(0x0C), sba(0), pt, MARK), paper={"at": {6: "7B"}})
    script.case("at-last-cell", "Program Tab at an unprotected attribute in the last cell goes to 0", erase_write(sba(1919), sf(0x00), sba(1900), pt, MARK), paper={"at": {0: "7B"}})
    script.case("empty-input", "Program Tab goes behind an unprotected attribute also where another attribute stands there", erase_write(sba(5), sf(0x00), sf(0x20), sba(0), pt, MARK),
                paper={"at": {6: "7B"}})
    script.case("only-input", "Program Tab at the start of the only input goes to 0", erase_write(sba(10), sf(0x00), text("AB"), sf(0x20), sba(11), pt, MARK), source="own",
                paper={"at": {0: "7B", 11: "C1C2"}})
    script.case("twice", "a second Program Tab goes on from where the first one went", erase_write(*FORM, sba(0), pt, pt, MARK), paper={"at": {161: "7B", 81: "C1C2C3C4"}})
    script.case("three-times", "Program Tab behind the last input goes to 0, and the next one on from there", erase_write(*FORM, sba(0), pt, pt, pt, pt, MARK),
                paper={"at": {81: "7B"}})
    script.case("first-order", "Program Tab as the first order of a Write starts at the cursor", erase_write(*FORM, sba(100), ic, wcc=0xC0), write_record(pt, MARK), paper={"at": {161: "7B"}})
    script.case("cursor", "Program Tab leaves the cursor", erase_write(*FORM, sba(7), ic, pt), paper={"cursor": 7})
    script.case("cursor-behind", "Insert Cursor after Program Tab is at the input", erase_write(*FORM, sba(0), pt, ic), paper={"cursor": 81})


def nulling(script):
    script.of("Program Tab", "own")
    # X is at 81; 82 to 84 become nulls; the attribute at 85 is protected, so the tab goes on to 161.
    script.case("after-text", "right after text Program Tab makes nulls up to the next attribute, and goes on from there", erase_write(*FORM, sba(81), text("X"), pt, MARK),
                paper={"at": {81: "E7000000--", 161: "7B"}})
    script.case("after-full-text", "right after text that fills its field nothing becomes null", erase_write(*FORM, sba(81), text("WXYZ"), pt, MARK), paper={"at": {81: "E6E7E8E9--", 161: "7B"}})
    script.case("after-text-protected", "right after text in a protected field Program Tab makes nulls there too", erase_write(*FORM, sba(1), text("X"), pt, MARK),
                paper={"at": {1: "E700000000", 81: "7B"}})
    script.case("after-ge", "right after Graphic Escape Program Tab makes nulls", erase_write(*FORM, sba(81), ge(0xC1), pt, MARK), paper={"at": {81: "C1000000", 161: "7B"}})
    script.case("to-the-end", "where no attribute comes after text Program Tab makes nulls to the last cell, and goes to 0",
                erase_write(*FORM, sba(1915), text("ABCDE"), sba(1915), text("X"), pt, MARK), paper={"at": {1915: "E700000000", 0: "7B"}})
    # The tab that ran to the end while nulling stands at 0, where the second one nulls no cell: 0 is an attribute, so it goes to 81.
    script.case("to-the-end-twice", "a second Program Tab after one that made nulls to the end begins at 0 with nulls",
                erase_write(sba(10), sf(0x00), text("AB"), sba(0), text("CDE"), sba(1915), text("X"), pt, pt, MARK), paper={"at": {0: "0000000000", 11: "7BC2"}})
    script.case("unformatted-after-text", "without attributes Program Tab after text makes nulls to the last cell",
                erase_write(text("ABCDEFGH"), sba(2), text("X"), pt, MARK), paper={"at": {0: "7BC2E700000000"}})
    script.case("round", "text that ended in the last cell makes Program Tab begin its nulls at 0", erase_write(text("ABCD"), sf(0x00), text("E"), sba(1918), text("XY"), pt, MARK),
                paper={"at": {0: "00000000--7B"}})
    script.case("stops-at-input", "nulls end at an unprotected attribute, and the tab goes behind it", erase_write(text("ABCD"), sf(0x00), text("E"), sba(0), text("X"), pt, MARK),
                paper={"at": {0: "E7000000--7B"}})


def ends_of_nulling(script):
    script.of("Program Tab", "own")
    for name, order, called in (("sba", sba(82), "Set Buffer Address"), ("sa", sa(0x42, 0xF1), "Set Attribute"), ("ic", ic, "Insert Cursor")):
        script.case(f"{name}-between", f"{called} between text and Program Tab leaves the characters", erase_write(*FORM, sba(81), text("X"), order, pt, MARK),
                    paper={"at": {81: "E7C2C3C4--", 161: "7B"}})
    script.case("mf-between", "Modify Field before Program Tab leaves the characters", erase_write(*FORM, sba(79), text("X"), mf((0x42, 0xF1)), pt, MARK),
                paper={"at": {79: "E7--C1C2C3C4--", 161: "7B"}})
    script.case("sf-between", "Start Field before Program Tab leaves the characters", erase_write(*FORM, sba(81), text("X"), sf(0x00), pt, MARK), paper={"at": {81: "E7--C3C4", 161: "7B"}})
    script.case("sfe-between", "Start Field Extended before Program Tab leaves the characters", erase_write(*FORM, sba(81), text("X"), sfe((0xC0, 0x00)), pt, MARK),
                paper={"at": {81: "E7--C3C4", 161: "7B"}})
    script.case("ra-between", "Repeat to Address before Program Tab leaves the characters", erase_write(*FORM, sba(81), text("X"), ra(83, 0xE9), pt, MARK),
                paper={"at": {81: "E7E9C3C4", 161: "7B"}})
    script.case("eua-between", "Erase Unprotected to Address before Program Tab leaves the characters", erase_write(*FORM, sba(81), text("X"), eua(83), pt, MARK),
                paper={"at": {81: "E700C3C4", 161: "7B"}})
    script.case("second-tab", "a second Program Tab leaves characters, where the first one met an attribute", erase_write(*FORM, sba(81), text("X"), pt, pt, MARK),
                paper={"at": {161: "F1F2F3F4", 0: "7B"}})
    script.case("next-record", "text that ended the record before doesn't make Program Tab write nulls", erase_write(*FORM, sba(81), text("X"), ic, wcc=0xC0), write_record(pt, MARK),
                paper={"at": {81: "E7C2C3C4", 161: "7B"}})
