"""Set Attribute, Modify Field, Insert Cursor, Graphic Escape."""

from parts.codes import erase_write, eua, ge, ic, mf, sa, sba, sf, text, typed, write as write_record

TYPES = (0xC0, 0xC1, 0xC2, 0x41, 0x42, 0x43, 0x45, 0x46)
NO_TYPES = (0x01, 0x3F, 0x40, 0x44, 0x47, 0x80, 0xBF, 0xC3, 0xFE, 0xFF)


def write(script):
    set_attribute(script)
    modify_field(script)
    insert_cursor(script)
    graphic_escape(script)


def set_attribute(script):
    script.of("Set Attribute", "Orders")
    for kind in (0x00, *TYPES):
        script.case(f"sa-{kind:02X}", f"Set Attribute of type {kind:02X} takes no cell and stores nothing", erase_write(text("A"), sa(kind, 0xF1), text("B")),
                    source="own" if kind >= 0xC0 else None, paper={"at": {0: "C1C200"}, "attributes": {}})
    for kind in NO_TYPES:
        script.case(f"sa-bad-{kind:02X}", f"Set Attribute of type {kind:02X} is refused", erase_write(text("OLD")), write_record(text("X"), sa(kind, 0x00)),
                    source="own", paper={"refused": "1 at 3: O8 BadType", "at": {0: "D6D3C4"}})
    script.case("sa-attribute-bits", "Set Attribute of type C0 changes no field", erase_write(sf(0x00), text("A"), sa(0xC0, 0x20), text("B")), source="own",
                paper={"attributes": {"0": "00"}, "at": {1: "C1C2"}})


def modify_field(script):
    script.of("Modify Field", "Orders")
    for bits in (0x00, 0x01, 0x0C, 0x10, 0x20, 0x3D):
        script.case(f"mf-{bits:02X}", f"Modify Field with the pair C0 and {bits:02X} changes an attribute to that", erase_write(sba(3), sf(0x08), text("AB"), sba(3), mf((0xC0, bits)), text("X")),
                    paper={"attributes": {"3": f"{bits:02X}"}, "at": {3: "--E7C2"}})
    script.case("mf-none", "Modify Field without pairs leaves the attribute, and goes on by one", erase_write(sba(3), sf(0x28), text("AB"), sba(3), mf(), text("X")),
                source="own", paper={"attributes": {"3": "28"}, "at": {3: "--E7C2"}})
    for kind in TYPES[1:]:
        script.case(f"mf-type-{kind:02X}", f"Modify Field with a pair of type {kind:02X} leaves the attribute", erase_write(sba(3), sf(0x28), sba(3), mf((kind, 0xF1))),
                    paper={"attributes": {"3": "28"}})
    script.case("mf-twice", "the last pair of type C0 of Modify Field counts", erase_write(sba(3), sf(0x28), sba(3), mf((0xC0, 0x20), (0xC0, 0x01))), source="own",
                paper={"attributes": {"3": "01"}})
    script.case("mf-high-bits", "of the value of C0 in Modify Field the low six bits count", erase_write(sba(3), sf(0x00), sba(3), mf((0xC0, 0xF0))),
                paper={"attributes": {"3": "30"}})
    script.case("mf-character", "Modify Field where a character stands is refused", erase_write(text("OLD")), write_record(text("X"), sba(2), mf((0xC0, 0x20))),
                paper={"refused": "1 at 6: A2 NoFieldHere", "at": {0: "D6D3C4"}, "attributes": {}})
    script.case("mf-null", "Modify Field where a null stands is refused", erase_write(text("OLD")), write_record(sba(100), mf()),
                paper={"refused": "1 at 5: A2 NoFieldHere"})
    script.case("mf-after-itself", "Modify Field twice at one place needs the address again", erase_write(sf(0x20), text("A"), sba(0), mf((0xC0, 0x00)), sba(0), mf((0xC0, 0x08))),
                paper={"attributes": {"0": "08"}})
    script.case("mf-of-this-record", "Modify Field changes an attribute that the record itself stored", erase_write(sba(7), sf(0x20), sba(7), mf((0xC0, 0x04))),
                paper={"attributes": {"7": "04"}})
    script.case("mf-written-over", "Modify Field where the record stored a character over the attribute is refused", erase_write(sf(0x20), text("A")),
                write_record(sba(0), text("X"), sba(0), mf((0xC0, 0x00))), paper={"refused": "1 at 9: A2 NoFieldHere", "attributes": {"0": "20"}})
    script.case("mf-opens", "a field that Modify Field made unprotected takes characters", erase_write(sf(0x20), text("A"), sf(0x20), sba(0), mf((0xC0, 0x00)), ic), keys=typed("X"),
                paper={"at": {0: "--E7--"}, "attributes": {"0": "01", "2": "20"}})
    script.case("mf-shuts", "a field that Modify Field made protected refuses characters", erase_write(sf(0x00), text("A"), sba(0), mf((0xC0, 0x20)), ic), keys=typed("X"),
                paper={"at": {0: "--C1"}, "keyboard": "error"})
    script.case("mf-last-cell", "Modify Field in the last cell goes on at 0", erase_write(sba(1919), sf(0x20), sba(1919), mf((0xC0, 0x00)), text("A")),
                paper={"at": {0: "C1"}, "attributes": {"1919": "00"}})
    for kind in (0x00, *NO_TYPES):
        script.case(f"mf-bad-{kind:02X}", f"Modify Field with a pair of type {kind:02X} is refused", erase_write(sf(0x20), text("OLD")),
                    write_record(text("X"), mf((kind, 0x00))), source="own", paper={"refused": "1 at 3: O8 BadType"})


def insert_cursor(script):
    script.of("Insert Cursor", "Orders")
    for place in (0, 1, 79, 80, 959, 1919):
        script.case(f"ic-{place}", f"Insert Cursor puts the cursor at {place}, where the buffer address is", erase_write(sba(place), ic), paper={"cursor": place})
    script.case("ic-last-one", "the last Insert Cursor of a record counts", erase_write(sba(5), ic, sba(9), ic), paper={"cursor": 9})
    script.case("ic-stays-there", "after Insert Cursor the buffer address is the same", erase_write(sba(5), ic, text("A")), paper={"cursor": 5, "at": {5: "C1"}})
    script.case("ic-on-attribute", "the cursor may be put on an attribute", erase_write(sba(5), sf(0x20), sba(5), ic), paper={"cursor": 5})
    script.case("ic-protected", "the cursor may be put into a protected field", erase_write(sba(5), sf(0x20), text("A"), ic), paper={"cursor": 7})
    script.case("ic-none", "without Insert Cursor a Write leaves the cursor where it was", erase_write(sba(5), ic, wcc=0xC0), write_record(sba(9), text("A")), paper={"cursor": 5})
    script.case("ic-erased", "without Insert Cursor Erase/Write leaves the cursor at 0", erase_write(sba(5), ic, wcc=0xC0), erase_write(sba(9), text("A")), paper={"cursor": 0})
    script.case("ic-after-the-end", "Insert Cursor after the last cell was written puts the cursor at 0", erase_write(sba(1918), text("AB"), ic), paper={"cursor": 0})


def graphic_escape(script):
    script.of("Graphic Escape", "Orders")
    for code in (0x40, 0x41, 0x4A, 0x7F, 0x80, 0xAD, 0xBD, 0xC1, 0xEA, 0xF0, 0xFE):
        script.case(f"ge-{code:02X}", f"Graphic Escape stores {code:02X} as a character of the alternate set", erase_write(text("A"), ge(code), text("B")),
                    paper={"at": {0: f"C1{code:02X}C2"}, "alternate": [1]})
    for code in (0x00, 0x08, 0x11, 0x1D, 0x3C, 0x3F, 0xFF):
        script.case(f"ge-bad-{code:02X}", f"Graphic Escape before {code:02X} is refused", erase_write(text("OLD")), write_record(text("X"), ge(code)),
                    paper={"refused": "1 at 3: O9 BadCharacter", "at": {0: "D6D3C4"}})
    script.case("ge-round-the-end", "after Graphic Escape in the last cell text goes on at 0", erase_write(sba(1919), ge(0xC1), text("B")),
                paper={"at": {0: "C2", 1919: "C1"}, "alternate": [1919]})
    script.case("ge-over-attribute", "Graphic Escape takes the place of an attribute", erase_write(sba(3), sf(0x20), text("A"), sba(3), ge(0xC1)),
                paper={"attributes": {}, "at": {3: "C1C1"}, "alternate": [3]})
    script.case("ge-typed-over", "a character that is typed over one of the alternate set is of the plain set", erase_write(sf(0x00), ge(0xC1), sf(0x20), sba(1), ic),
                keys=typed("A"), paper={"at": {0: "--C1--"}})
    script.case("ge-written-over", "text over a character of the alternate set is of the plain set", erase_write(ge(0xC1), sba(0), text("A")), paper={"at": {0: "C1"}})
    script.case("ge-sent", "a character of the alternate set is sent with 08 before it", erase_write(sf(0x01), text("A"), ge(0xC2), text("C"), sf(0x20)), keys=["enter"],
                paper={"answers": ["7D4040114040".replace("114040", "1140C1") + "C108C2C3"]})
    script.case("ge-erased", "Erase Unprotected to Address makes nulls of characters of the alternate set", erase_write(ge(0xC1), ge(0xC2), sba(0), eua(2)), paper={"at": {0: "0000"}})
    script.case("ge-repeated", "Repeat to Address takes a character of the alternate set", erase_write(bytes.fromhex("3C40C408C1")), paper={"at": {0: "C1C1C1C100"}, "alternate": [0, 1, 2, 3]})
    script.case("ge-unformatted", "an unformatted screen sends a character of the alternate set with 08 too", erase_write(text("A"), ge(0xC2)), keys=["enter"],
                paper={"answers": ["7D4040C108C2"]})
    script.case("ge-deleted", "Delete moves characters of the alternate set as they are", erase_write(sf(0x00), text("A"), ge(0xC2), text("C"), sf(0x20), sba(1), ic), keys=["delete"],
                paper={"at": {1: "C2C300"}, "alternate": [1]})
