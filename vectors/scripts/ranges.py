"""Repeat to Address and Erase Unprotected to Address."""

from parts.codes import erase_write, eua, ge, ic, ra, ra_ge, sba, sf, text, write as write_record


def write(script):
    repeat(script)
    erase(script)


def repeat(script):
    script.of("Repeat to Address", "Orders")
    script.case("ra-next", "Repeat to the next position stores one character", erase_write(text("ABC"), sba(1), ra(2, 0x5C)), paper={"at": {0: "C15CC3"}})
    script.case("ra-some", "Repeat to Address stops before its address", erase_write(sba(5), ra(9, 0x5C), text("X")), paper={"at": {4: "005C5C5C5CE700"}})
    script.case("ra-row", "Repeat to Address goes over the ends of rows", erase_write(sba(78), ra(82, 0x60)), paper={"at": {77: "006060606000"}})
    script.case("ra-round", "Repeat to an address before it goes round the end", erase_write(sba(1918), ra(2, 0x5C), text("X")), paper={"at": {1917: "005C5C5C5CE7"}})
    script.case("ra-to-zero", "Repeat to 0 goes up to the last position", erase_write(text("X"), sba(1917), ra(0, 0x5C)), paper={"at": {1916: "005C5C5CE7"}})
    script.case("ra-all", "Repeat to its own position stores every position", erase_write(sba(7), ra(7, 0x4B), ic),
                paper={"at": {0: "4B4B", 6: "4B4B4B", 1918: "4B4B"}, "cursor": 7})
    script.case("ra-all-from-zero", "Repeat to 0 from 0 stores every position", erase_write(ra(0, 0x60)), paper={"at": {0: "60", 1919: "60", 960: "60"}})
    script.case("ra-over-attributes", "Repeat to Address stores over attributes", erase_write(sba(2), sf(0x20), text("A"), sf(0x00), sba(0), ra(6, 0x5C)),
                paper={"at": {0: "5C5C5C5C5C5C00"}, "attributes": {}})
    script.case("ra-address-kept", "Repeat to Address leaves an attribute at its address", erase_write(sba(6), sf(0x20), sba(0), ra(6, 0x5C)), paper={"attributes": {"6": "20"}})
    script.case("ra-nulls", "Repeat to Address with 00 stores nulls, in protected fields too", erase_write(sf(0x20), text("ABCD"), sba(1), ra(4, 0x00)), paper={"at": {0: "--000000C4"}})
    for code in (0x0C, 0x0D, 0x15, 0x19, 0x1C, 0x1E, 0x3F, 0x40, 0xFF):
        script.case(f"ra-{code:02X}", f"Repeat to Address takes the character {code:02X}", erase_write(ra(2, code)), paper={"at": {0: f"{code:02X}{code:02X}00"}})
    for code in (0x01, 0x05, 0x11, 0x12, 0x13, 0x1D, 0x28, 0x29, 0x2C, 0x3C, 0x3E):
        script.case(f"ra-bad-{code:02X}", f"Repeat to Address with {code:02X} is refused", erase_write(text("OLD")), write_record(text("X"), ra(9, code)),
                    paper={"refused": "1 at 3: O9 BadCharacter"})
    for code in (0x40, 0xC1, 0xFE):
        script.case(f"ra-ge-{code:02X}", f"Repeat to Address takes {code:02X} of the alternate set", erase_write(ra_ge(3, code), text("X")),
                    paper={"at": {0: f"{code:02X}{code:02X}{code:02X}E7"}, "alternate": [0, 1, 2]})
    for code in (0x00, 0x3F, 0xFF):
        script.case(f"ra-ge-bad-{code:02X}", f"Repeat to Address with {code:02X} of the alternate set is refused", erase_write(text("OLD")), write_record(text("X"), ra_ge(9, code)),
                    paper={"refused": "1 at 3: O9 BadCharacter"})
    script.case("ra-cursor", "Repeat to Address leaves the cursor", erase_write(sba(5), ic, ra(9, 0x5C)), paper={"cursor": 5})
    script.case("ra-twice", "a Repeat to Address begins where the one before ended", erase_write(ra(2, 0x5C), ra(4, 0x60)), paper={"at": {0: "5C5C606000"}})
    script.case("ra-tags", "Repeat to Address over part of a field leaves its modified data tag", erase_write(sf(0x01), text("ABCD"), sf(0x20), sba(1), ra(3, 0x5C)), keys=["enter"],
                paper={"answers": ["7D40401140C15C5CC3C4"]})


def erase(script):
    script.of("Erase Unprotected to Address", "Orders")
    fields = [sf(0x00), text("ABCD"), sba(5), sf(0x20), text("EFGH"), sba(10), sf(0x10), text("1234"), sba(15), sf(0x30), text("Z")]
    script.case("eua-one-field", "Erase Unprotected to Address makes nulls in an unprotected field", erase_write(*fields, sba(2), eua(4), text("X")), paper={"at": {1: "C10000E7"}})
    script.case("eua-protected", "Erase Unprotected to Address leaves protected characters", erase_write(*fields, sba(6), eua(9)), paper={"at": {6: "C5C6C7C8"}})
    script.case("eua-over-fields", "Erase Unprotected to Address goes on over protected fields", erase_write(*fields, sba(3), eua(13)),
                paper={"at": {1: "C1C20000--C5C6C7C8--0000F3F4"}})
    script.case("eua-attributes", "Erase Unprotected to Address leaves attributes", erase_write(*fields, sba(0), eua(20)), paper={"attributes": {"0": "00", "5": "20", "10": "10", "15": "30"}})
    script.case("eua-stop", "Erase Unprotected to Address stops before its address", erase_write(*fields, sba(1), eua(3)), paper={"at": {1: "0000C3C4"}})
    script.case("eua-all", "Erase Unprotected to its own position erases all unprotected characters", erase_write(*fields, sba(3), eua(3)),
                paper={"at": {1: "00000000--C5C6C7C8--00000000--E9"}})
    script.case("eua-all-unformatted", "without attributes Erase Unprotected to its own position erases everything", erase_write(text("ABC"), sba(1919), text("D"), sba(5), eua(5)),
                paper={"cells": {}})
    script.case("eua-unformatted", "without attributes Erase Unprotected to Address erases each position on its way", erase_write(text("ABCDEF"), sba(1), eua(4)), paper={"at": {0: "C1000000C5C6"}})
    script.case("eua-round", "Erase Unprotected to an address before it goes round the end", erase_write(text("ABC"), sba(1917), text("XYZ"), sba(1918), eua(2)),
                paper={"at": {1917: "E700000000C3"}})
    # The field of the attribute at 1910 goes on at 0: A at 0 is its own, and 2 is protected.
    script.case("eua-round-field", "which characters are unprotected is told by the attribute before them, round the end",
                erase_write(text("AB"), sf(0x20), text("CD"), sba(1910), sf(0x00), text("EF"), sba(0), eua(5)), paper={"at": {0: "0000--C3C4", 1911: "C5C6"}})
    script.case("eua-round-protected", "a protected field that goes round the end keeps its first cells",
                erase_write(text("AB"), sf(0x00), text("CD"), sba(1910), sf(0x20), text("EF"), sba(0), eua(5)), paper={"at": {0: "C1C2--0000"}})
    script.case("eua-tag", "Erase Unprotected to Address leaves the modified data tag", erase_write(sf(0x01), text("AB"), sf(0x20), sba(1), eua(3)), keys=["enter"],
                paper={"answers": ["7D40401140C1"], "attributes": {"0": "01", "3": "20"}})
    script.case("eua-this-record", "attributes that the record itself stored tell what is unprotected", erase_write(sf(0x20), text("AB")), write_record(sba(0), sf(0x00), sba(1), eua(3)),
                paper={"at": {0: "--0000"}})
    script.case("eua-stale", "characters whose attribute the record wrote over are unprotected at once", erase_write(sf(0x20), text("AB")), write_record(sba(0), text("X"), eua(3)),
                paper={"at": {0: "E70000"}})
    script.case("eua-from-attribute", "Erase Unprotected to Address from an attribute passes it", erase_write(*fields, sba(0), eua(2)), paper={"at": {0: "--00C2"}})
    script.case("eua-to-attribute", "Erase Unprotected to an attribute's address leaves it", erase_write(*fields, sba(3), eua(5)), paper={"at": {3: "0000--C5"}})
    script.case("eua-hidden", "Erase Unprotected to Address erases hidden inputs too", erase_write(sf(0x0C), text("AB"), sf(0x20), sba(1), eua(3)), paper={"at": {0: "--0000--"}})
    script.case("eua-alternate", "nulls of Erase Unprotected to Address are of the plain set", erase_write(ge(0xC1), text("A"), sba(0), eua(1)), paper={"at": {0: "00C1"}})
    script.case("eua-cursor", "Erase Unprotected to Address leaves the cursor", erase_write(sba(5), ic, sba(0), eua(9)), paper={"cursor": 5})
    script.case("eua-after-text", "text goes on at the address of Erase Unprotected", erase_write(text("ABCDEF"), sba(1), eua(3), text("X")), paper={"at": {0: "C10000E7C5C6"}})
