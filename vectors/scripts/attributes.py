"""Field attributes: their bits, their bytes, and what an operator may do in their fields."""

from parts.codes import SF, SIX_BITS, erase_write, ic, sba, sf, text, typed

SAYS = {0x00: "unprotected", 0x10: "numeric", 0x20: "protected", 0x30: "protected and numeric"}
LOOKS = {0x00: "display bits 00", 0x04: "display bits 04", 0x08: "intensified", 0x0C: "hidden"}


def write(script):
    script.of("Field attributes", "Field attributes")
    bits(script)
    bytes_of(script)
    typing(script)
    places(script)


def bits(script):
    for bits, code in enumerate(SIX_BITS):
        # The attribute at 2 is the six bits of its byte, and A follows it.
        script.case(f"bits-{bits:02X}", f"the attribute {bits:02X} is written as {code:02X}, and kept", erase_write(sba(2), sf(bits), text("A")),
                    paper={"attributes": {"2": f"{bits:02X}"}, "at": {2: "--C1"}})


def bytes_of(script):
    script.of("Field attributes", "Field attributes")
    for value in (0x00, 0x0D, 0x20, 0x3F, 0x80, 0x8D, 0xA0, 0xBF, 0xC0, 0xED, 0xFF):
        script.case(f"byte-{value:02X}", f"of an attribute's byte {value:02X} only the low six bits count", erase_write(sba(2), bytes([SF, value]), text("A")),
                    paper={"attributes": {"2": f"{value & 0x3F:02X}"}})


def typing(script):
    script.of("a character, 40 to FE", "Keyboard")
    for kind, name in SAYS.items():
        for look, how in LOOKS.items():
            for tag in (0, 1):
                bits = kind | look | tag
                is_open = not kind & 0x20
                said = f"a letter in a field that is {name}, {how}{', modified' if tag else ''}, is {'stored' if is_open else 'inhibited'}"
                # The field begins at 3; the attribute that ends it is at 6.
                script.case(f"type-{bits:02X}", said, erase_write(sba(2), sf(bits), text("XYZ"), sf(0x20), sba(4), ic), keys=typed("A"),
                            paper={"at": {3: "E7C1E9" if is_open else "E7E8E9"}, "cursor": 5 if is_open else 4,
                                   "keyboard": "free" if is_open else "error",
                                   "attributes": {"2": f"{bits | 1 if is_open else bits:02X}", "6": "20"}})


def places(script):
    script.of("The buffer", "Fields")
    script.case("first-cell", "an attribute may stand at 0, and governs what follows", erase_write(sf(0x20), text("AB"), sba(1), ic), keys=typed("X"),
                paper={"attributes": {"0": "20"}, "keyboard": "error", "at": {1: "C1C2"}})
    # The field of 1919 is 0, 1, 2; at 3 stands the next attribute.
    script.case("last-cell", "an attribute in the last cell governs the first ones", erase_write(text("ABC"), sf(0x20), sba(1919), sf(0x00), sba(1), ic),
                keys=typed("X") + ["enter"], paper={"answers": ["7D40C21140" + "40" + "C1E7C3"], "attributes": {"3": "20", "1919": "01"}})
    script.case("one-governs-all", "a single attribute governs all other cells, round the end", erase_write(text("A"), sba(100), sf(0x20), sba(0), ic),
                keys=typed("X"), paper={"keyboard": "error", "at": {0: "C1"}})
    script.case("own-cell", "an attribute's own cell can't be typed over", erase_write(sba(10), sf(0x00), text("AB"), sba(10), ic), keys=typed("X"),
                paper={"keyboard": "error", "at": {10: "--C1C2"}, "attributes": {"10": "00"}})
    script.case("side-by-side", "an attribute right after another leaves the first one no cell", erase_write(sba(10), sf(0x01), sf(0x00), text("A")),
                keys=["enter"], paper={"answers": ["7D4040" + "114A4B".replace("4A4B", "404B")], "attributes": {"10": "01", "11": "00"}})
    script.case("ends-a-field", "a new attribute ends the field in which it is stored",
                erase_write(sba(10), sf(0x01), text("ABCDEF"), sba(14), sf(0x20)), keys=["enter"], paper={"answers": ["7D404011404BC1C2C3"]})
    script.case("overwritten", "a character over an attribute joins two fields",
                erase_write(sba(10), sf(0x01), text("AB"), sf(0x20), text("CD"), sf(0x20), sba(13), text("X")), keys=["enter"],
                paper={"answers": ["7D404011404BC1C2E7C3C4"], "attributes": {"10": "01", "16": "20"}})
    script.case("changed", "an attribute over an attribute takes its place", erase_write(sba(10), sf(0x20), text("AB"), sba(10), sf(0x00), ic),
                keys=typed("X"), paper={"attributes": {"10": "01"}, "at": {11: "E7C2"}})
    script.case("unformatted", "without attributes every cell takes characters", erase_write(sba(1000), ic), keys=typed("X"),
                paper={"at": {1000: "E7"}, "cursor": 1001, "attributes": {}})
