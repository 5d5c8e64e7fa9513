"""Bytes that stand for themselves."""

from parts.codes import EUA, GE, IC, MF, PT, RA, SA, SBA, SF, SFE, erase_write, ge, ic, ra, sba, sf, text

ORDERS = {SF, SFE, SBA, SA, MF, IC, PT, RA, EUA, GE}
TEXT = {0x00, 0x0C, 0x0D, 0x15, 0x19, 0x1C, 0x1E, 0x3F, *range(0x40, 0x100)}


def write_bytes(script):
    script.of("text", "Orders")
    for byte in range(256):
        if byte in ORDERS:
            continue
        record = erase_write(sba(82), text("A"), bytes([byte]), text("B"))
        if byte in TEXT:
            # A is at 82, so the byte is at 83 and B at 84.
            script.case(f"byte-{byte:02X}", f"{byte:02X} in a text is stored as it is", record, paper={"at": {82: f"C1{byte:02X}C2"}, "cursor": 0})
        else:
            # F5, C2, 11 and two bytes, C1: the byte is the seventh one.
            script.case(f"byte-{byte:02X}", f"{byte:02X} is no text and begins no order", record, source="own", paper={"refused": "0 at 6: O5 UnknownOrder"})


def write(script):
    write_bytes(script)
    script.of("text", "Orders")
    # Places 0 to 4, and the cursor stays where Erase/Write left it.
    script.case("from-zero", "text after Erase/Write begins at 0", erase_write(text("HELLO")), paper={"at": {0: "C8C5D3D3D600"}, "cursor": 0})
    # 1918, 1919, then 0 and 1.
    script.case("round-the-end", "text goes on at 0 after the last position", erase_write(sba(1918), text("ABCD")),
                paper={"at": {1918: "C1C2C3C400"}})
    script.case("over-an-attribute", "text is stored over attributes", erase_write(sba(5), sf(0x20), text("XY"), sba(4), text("ABC")),
                paper={"at": {4: "C1C2C3E8"}, "attributes": {}})
