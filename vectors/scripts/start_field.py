"""Start Field and Start Field Extended."""

from parts.codes import SFE, erase_write, ic, sba, sf, sfe, text, typed, write as write_record

TYPES = (0xC0, 0xC1, 0xC2, 0x41, 0x42, 0x43, 0x45, 0x46)
NO_TYPES = (0x00, 0x01, 0x3F, 0x40, 0x44, 0x47, 0x48, 0x7F, 0x80, 0xBF, 0xC3, 0xC4, 0xFE, 0xFF)


def write(script):
    script.of("Start Field", "Orders")
    script.case("stored", "Start Field stores its attribute where it stands and goes on by one", erase_write(text("A"), sf(0x20), text("B")),
                paper={"at": {0: "C1--C2"}, "attributes": {"1": "20"}})
    script.case("round-the-end", "after Start Field in the last cell text goes on at 0", erase_write(sba(1919), sf(0x20), text("B")),
                paper={"at": {0: "C2"}, "attributes": {"1919": "20"}})
    script.case("cursor-stays", "Start Field leaves the cursor", erase_write(sba(5), ic, sf(0x20)), paper={"cursor": 5})
    script.case("write-keeps", "Write adds a field to those that stand", erase_write(sba(5), sf(0x20), text("A")), write_record(sba(9), sf(0x00)),
                paper={"attributes": {"5": "20", "9": "00"}})
    script.case("over-character", "Start Field takes the place of a character", erase_write(text("ABC"), sba(1), sf(0x00)), paper={"at": {0: "C1--C3"}})
    extended(script)


def extended(script):
    script.of("Start Field Extended", "Orders")
    script.case("sfe-none", "Start Field Extended without pairs stores the attribute 00", erase_write(sba(3), sfe(), text("A")), source="own",
                paper={"attributes": {"3": "00"}, "at": {3: "--C1"}})
    for bits in (0x00, 0x01, 0x0C, 0x20, 0x30, 0x3D):
        script.case(f"sfe-{bits:02X}", f"Start Field Extended with the pair C0 and {bits:02X} stores that attribute", erase_write(sba(3), sfe((0xC0, bits)), text("A")),
                    paper={"attributes": {"3": f"{bits:02X}"}})
    # E8 is 1110 1000: its low six bits are 28.
    script.case("sfe-high-bits", "of the value of C0 the low six bits count", erase_write(sba(3), sfe((0xC0, 0xE8))), paper={"attributes": {"3": "28"}})
    script.case("sfe-twice", "the last pair of type C0 counts", erase_write(sba(3), sfe((0xC0, 0x20), (0xC0, 0x00))), source="own",
                paper={"attributes": {"3": "00"}})
    script.case("sfe-last-is-other", "a pair of another type after C0 changes nothing", erase_write(sba(3), sfe((0xC0, 0x20), (0x42, 0xF2))),
                paper={"attributes": {"3": "20"}})
    script.case("sfe-first-is-other", "a pair of another type before C0 changes nothing", erase_write(sba(3), sfe((0x41, 0xF2), (0xC0, 0x20))),
                paper={"attributes": {"3": "20"}})
    for kind in TYPES[1:]:
        script.case(f"sfe-type-{kind:02X}", f"a pair of type {kind:02X} alone leaves Start Field Extended the attribute 00",
                    erase_write(sba(3), sfe((kind, 0xF1)), text("A")), paper={"attributes": {"3": "00"}, "at": {4: "C1"}})
    for kind in NO_TYPES:
        script.case(f"sfe-bad-{kind:02X}", f"Start Field Extended with a pair of type {kind:02X} is refused", erase_write(text("OLD")),
                    write_record(text("X"), sfe((kind, 0x00))), source="own", paper={"refused": "1 at 3: O8 BadType", "at": {0: "D6D3C4"}})
    # Eight pairs, one of each type.
    script.case("sfe-all-types", "Start Field Extended takes a pair of every type", erase_write(sba(3), sfe(*((it, 0x20 if it == 0xC0 else 0x00) for it in TYPES)), text("A")),
                paper={"attributes": {"3": "20"}, "at": {4: "C1"}})
    script.case("sfe-255", "Start Field Extended takes 255 pairs", erase_write(sba(3), bytes([SFE, 255]) + bytes([0x42, 0xF2]) * 254 + bytes([0xC0, 0x20]), text("A")),
                source="own", paper={"attributes": {"3": "20"}, "at": {4: "C1"}})
    script.case("sfe-round-the-end", "after Start Field Extended in the last cell text goes on at 0", erase_write(sba(1919), sfe((0xC0, 0x20)), text("B")),
                paper={"at": {0: "C2"}, "attributes": {"1919": "20"}})
    script.case("sfe-open", "a field of Start Field Extended takes characters by its bits", erase_write(sba(3), sfe((0x45, 0xF4), (0xC0, 0x00)), ic, text("   "), sfe((0xC0, 0x20))),
                keys=typed("A") + ["enter"], paper={"answers": ["7D40C51140C4C14040"]})
    script.case("sfe-shut", "a field of Start Field Extended refuses characters by its bits", erase_write(sba(3), sfe((0xC0, 0x20), (0x45, 0xF4)), ic),
                keys=typed("A"), paper={"keyboard": "error", "attributes": {"3": "20"}})
