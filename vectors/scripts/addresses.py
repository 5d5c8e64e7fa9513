"""Buffer addresses of 12 and of 14 bits, where they come from and where they go."""

from parts.codes import EUA, RA, SBA, SIX_BITS, erase_alternate, erase_write, ic, sba, text

MODEL_4, MODEL_5, MODEL_3 = "24x80 43x80", "24x80 27x132", "24x80 32x80"


def at(two):
    """A record that puts A where these two bytes say, and the cursor behind it."""
    return erase_write(bytes([SBA]) + two, text("A"), ic)


def write(script):
    script.of("Buffer addresses", "Buffer addressing")
    codes(script)
    forms(script)
    limits(script)
    written(script)


def codes(script):
    script.of("Six-bit codes", "I/O codes")
    for value, code in enumerate(SIX_BITS):
        # 40 stands for zero, so the place is the value; the cursor is one further.
        script.case(f"low-{code:02X}", f"{code:02X} as the second byte of an address stands for {value:02X}", at(bytes([0x40, code])),
                    paper={"at": {value: "C1"}, "cursor": value + 1})
    for value in range(1, 30):
        # 64 positions for each unit of the first byte: 64 * 29 + 63 = 1919 is the last one of 24x80.
        script.case(f"high-{SIX_BITS[value]:02X}", f"{SIX_BITS[value]:02X} as the first byte of an address stands for {value * 64}",
                    at(bytes([SIX_BITS[value], 0x40])), paper={"at": {value * 64: "C1"}})
    for value in range(30, 54):
        script.case(f"high-{SIX_BITS[value]:02X}", f"{SIX_BITS[value]:02X} as the first byte of an address stands for {value * 64}, on 43x80",
                    erase_alternate(bytes([SBA, SIX_BITS[value], 0x40]), text("A"), ic), size=MODEL_4)


def forms(script):
    script.of("Buffer addresses", "Buffer addressing")
    # 00 and 01 begin the numbers 0005 and 0145: 5, and 1 * 256 + 69 = 325.
    script.case("number-5", "an address that begins with the bits 00 is a number of 14 bits", at(b"\x00\x05"), paper={"at": {5: "C1"}})
    script.case("number-325", "the first byte of a number counts 256 positions", at(b"\x01\x45"), paper={"at": {325: "C1"}, "cursor": 326})
    # 077F = 7 * 256 + 127 = 1919; the cursor goes on round the end.
    script.case("number-last", "a number of 14 bits reaches the last position", at(b"\x07\x7f"), paper={"at": {1919: "C1"}, "cursor": 0})
    script.case("number-zero", "the number 0000 is position 0", at(b"\x00\x00"), paper={"at": {0: "C1"}, "cursor": 1})
    script.case("number-C0", "the second byte of a number keeps its first two bits", at(b"\x00\xc5"), paper={"at": {197: "C1"}})
    # 45 C5: 5 * 64 + 5 = 325.
    for first, second, how in ((0x45, 0xC5, "01 and 11"), (0xC5, 0xC5, "11 and 11"), (0xC5, 0x45, "11 and 01"), (0x45, 0x45, "01 and 01")):
        script.case(f"halves-{first:02X}{second:02X}", f"an address whose bytes begin with the bits {how} is two halves of six bits",
                    at(bytes([first, second])), paper={"at": {325: "C1"}})
    for second in (0x05, 0x85):
        script.case(f"second-{second:02X}", f"the first two bits of the second byte, as in {second:02X}, aren't looked at", at(bytes([0xC5, second])),
                    source="own", paper={"at": {325: "C1"}})
    for first, name in ((0x80, "80"), (0x85, "85"), (0xBF, "BF")):
        script.case(f"reserved-{name}", f"an address that begins with {name} is reserved, and its record is refused",
                    erase_write(text("OLD")), write_at(bytes([SBA, first, 0x40])), paper={"refused": "1 at 3: O7 ReservedAddress", "at": {0: "D6D3C4"}})
    for order, name in ((RA, "Repeat to Address"), (EUA, "Erase Unprotected to Address")):
        tail = b"\xc1" if order == RA else b""
        # Positions 0 to 4.
        script.case(f"number-{order:02X}", f"{name} takes a number of 14 bits", erase_write(text("ABCDEFG"), sba(0), bytes([order, 0, 5]) + tail),
                    paper={"at": {0: "C1C1C1C1C1C6" if order == RA else "0000000000C6"}})
        script.case(f"reserved-{order:02X}", f"{name} refuses the reserved form", erase_write(text("OLD")), write_at(bytes([order, 0x90, 0x40]) + tail),
                    paper={"refused": "1 at 3: O7 ReservedAddress"})


def write_at(order):
    """A Write of a character before this order, so that a part of it would be seen."""
    return bytes([0xF1, 0xC2]) + text("X") + order


def limits(script):
    script.of("Set Buffer Address", "Buffer addressing")
    # 5D 7F is 29 * 64 + 63 = 1919, 5E 40 is 30 * 64 = 1920, the number of cells.
    script.case("last-24x80", "the last position of 24x80 is 1919", at(bytes.fromhex("5D7F")), paper={"at": {1919: "C1"}, "cursor": 0})
    for order, name in ((SBA, "Set Buffer Address"), (RA, "Repeat to Address"), (EUA, "Erase Unprotected to Address")):
        tail = b"\xc1" if order == RA else b""
        script.case(f"outside-{order:02X}", f"{name} to the number of cells is refused", erase_write(text("OLD")),
                    write_at(bytes([order, 0x5E, 0x40]) + tail), paper={"refused": "1 at 3: A1 AddressOutside", "at": {0: "D6D3C4"}})
        script.case(f"largest-{order:02X}", f"{name} to 16383 is refused on 24x80", erase_write(text("OLD")),
                    write_at(bytes([order, 0x3F, 0xFF]) + tail), paper={"refused": "1 at 3: A1 AddressOutside"})
    for size, cells in ((MODEL_3, 2560), (MODEL_4, 3440), (MODEL_5, 3564)):
        alternate = size.split()[1]
        script.case(f"last-{alternate}", f"the last position of {alternate} is {cells - 1}", erase_alternate(sba(cells - 1), text("A"), ic), size=size,
                    paper={"at": {cells - 1: "C1"}, "cursor": 0, "size": alternate})
        script.case(f"outside-{alternate}", f"{cells} is outside of {alternate}", erase_alternate(text("OLD")),
                    write_at(bytes([SBA]) + cells.to_bytes(2, "big")), size=size, paper={"refused": "1 at 3: A1 AddressOutside"})
        script.case(f"usual-{alternate}", f"after Erase/Write 1920 is outside, though it is inside of {alternate}", erase_alternate(text("OLD")),
                    bytes([0xF5, 0xC2]) + text("X") + bytes.fromhex("115E40"), size=size, paper={"refused": "1 at 3: A1 AddressOutside"})
        script.case(f"own-size-{alternate}", f"Erase/Write Alternate measures its own addresses by {alternate}", erase_write(text("OLD")),
                    erase_alternate(bytes.fromhex("115E40"), text("A")), size=size, paper={"at": {1920: "C1"}})


def written(script):
    script.of("Buffer addresses", "Buffer addressing")
    for cursor, size in ((0, "24x80 24x80"), (63, "24x80 24x80"), (64, "24x80 24x80"), (1919, "24x80 24x80"), (2000, MODEL_3), (3439, MODEL_4), (3563, MODEL_5)):
        erase = erase_write if size == "24x80 24x80" else erase_alternate
        script.case(f"cursor-{cursor}", f"a terminal of {size.split()[1]} writes the cursor's address {cursor} in six-bit codes", erase(sba(cursor), ic),
                    keys=["enter"], size=size, paper={"answers": [f"7D{SIX_BITS[cursor >> 6]:02X}{SIX_BITS[cursor & 63]:02X}"]})
