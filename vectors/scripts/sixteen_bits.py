"""Terminals whose buffer addresses have 16 bits."""

from parts.codes import EUA, RA, SBA, erase_alternate, erase_write, ic, sf, text, write as write_record

LARGE, SMALL = "255x255 16", "2x10 16"


def sba(place):
    return bytes([SBA]) + place.to_bytes(2, "big")


def ra(place, code):
    return bytes([RA]) + place.to_bytes(2, "big") + bytes([code])


def eua(place):
    return bytes([EUA]) + place.to_bytes(2, "big")


def write(script):
    script.of("Buffer addresses", "Buffer addressing")
    # 4,096 and 16,384 are where the other forms end; 65,024 = FE00 is the last position of 255x255.
    for place in (0, 5, 63, 64, 255, 256, 4095, 4096, 16383, 16384, 32767, 32768, 49152, 65024):
        at = place % 255
        script.case(f"place-{place}", f"with 16 bits the address {place:04X} is position {place}", erase_write(sba(place), text("A"), ic), size=LARGE,
                    paper={"cells": {str(place // 255): "00" * at + "C1"}, "cursor": (place + 1) % 65025})
    for first in (0x40, 0x80, 0xBF, 0xC1):
        place = first << 8 | 0x40
        script.case(f"no-form-{first:02X}", f"with 16 bits an address that begins with {first:02X} is a number like others", erase_write(sba(place), text("A")), size=LARGE,
                    paper={"cells": {str(place // 255): "00" * (place % 255) + "C1"}})
    for place in (0, 64, 4096, 40000, 65024):
        script.case(f"sent-{place}", f"a terminal with 16 bits writes the cursor's address {place} as a number", erase_write(sba(place), ic), keys=["enter"], size=LARGE, paper={"answers": [f"7D{place:04X}"]})
    script.case("field-sent", "a field's place is sent as a number of 16 bits", erase_write(sba(40000), sf(0x01), text("AB"), sf(0x20)), keys=["enter"], size=LARGE, paper={"answers": ["7D0000" + "119C41" + "C1C2"]})
    script.case("field-at-zero", "a field whose attribute is in the last cell of 255x255 has the place 0", erase_write(text("A"), sf(0x20), sba(65024), sf(0x01)), keys=["enter"], size=LARGE, paper={"answers": ["7D0000" + "110000" + "C1"]})
    script.case("small-sent", "a small screen with addresses of 16 bits writes numbers too", erase_write(sba(3), sf(0x01), text("AB"), sf(0x20)), keys=["enter"], size=SMALL, paper={"answers": ["7D0000" + "110004" + "C1C2"]})
    script.of("Set Buffer Address", "Buffer addressing")
    for place in (65025, 65535):
        script.case(f"outside-{place}", f"{place} is outside of 255x255", erase_write(text("OLD")), write_record(text("X"), sba(place)), size=LARGE, paper={"refused": "1 at 3: A1 AddressOutside"})
    for place in (20, 255, 32768, 49344):
        script.case(f"outside-small-{place}", f"{place} is outside of 2x10 with 16 bits", erase_write(text("OLD")), write_record(text("X"), sba(place)), size=SMALL, paper={"refused": "1 at 3: A1 AddressOutside"})
    for order, name in ((ra(65025, 0xC1), "Repeat to Address"), (eua(65025), "Erase Unprotected to Address")):
        script.case(f"outside-{order[0]:02X}", f"{name} to 65025 is refused on 255x255", erase_write(text("OLD")), write_record(text("X"), order), size=LARGE, paper={"refused": "1 at 3: A1 AddressOutside"})
    script.of("Repeat to Address", "Orders")
    script.case("repeat", "Repeat to Address takes an address of 16 bits", erase_write(sba(65020), ra(65023, 0x5C), text("X")), size=LARGE, paper={"at": {65019: "005C5C5CE700"}})
    script.case("repeat-round", "Repeat to Address goes round the end of 255x255", erase_write(sba(65023), ra(2, 0x5C), text("X")), size=LARGE, paper={"at": {65022: "005C5C5C5CE7"}})
    script.of("Erase Unprotected to Address", "Orders")
    script.case("erase", "Erase Unprotected to Address takes an address of 16 bits", erase_write(sba(40000), text("ABCD"), sba(40001), eua(40003)), size=LARGE, paper={"at": {40000: "C10000C4"}})
    script.case("erase-round", "Erase Unprotected to Address goes round the end of 255x255", erase_write(text("AB"), sba(65023), text("YZ"), sba(65024), eua(1)), size=LARGE, paper={"at": {65023: "E80000C2"}})
    script.of("Left, Right, Up, Down", "Keyboard")
    for key, place, to in (("left", 0, 65024), ("right", 65024, 0), ("up", 7, 64777), ("down", 64777, 7), ("down", 0, 255), ("up", 255, 0)):
        script.case(f"{key}-{place}", f"{key.capitalize()} from {place} of 255x255 goes to {to}", erase_write(sba(place), ic), keys=[key], size=LARGE, paper={"cursor": to})
    script.of("Tab, BackTab", "Keyboard")
    fields = [sba(300), sf(0x00), sba(310), sf(0x20), sba(60000), sf(0x00), sba(60010), sf(0x20)]
    for key, place, to in (("tab", 0, 301), ("tab", 301, 60001), ("tab", 60001, 301), ("backtab", 0, 60001), ("backtab", 60005, 60001), ("backtab", 60001, 301)):
        script.case(f"{key}-{place}", f"{key.capitalize()} from {place} of 255x255 goes to the field start {to}", erase_write(*fields, sba(place), ic), keys=[key], size=LARGE, paper={"cursor": to})
    script.of("Sizes", "own")
    script.case("alternate", "with 16 bits too Erase/Write Alternate makes the alternate size", erase_alternate(sba(200), text("A")), size="2x10 20x20 16", paper={"size": "20x20", "at": {200: "C1"}})
    script.case("default", "with 16 bits too Erase/Write measures its addresses by the default size", erase_alternate(text("OLD")), bytes([0xF5, 0xC2]) + text("X") + sba(20), size="2x10 20x20 16",
                paper={"refused": "1 at 3: A1 AddressOutside", "size": "20x20"})
