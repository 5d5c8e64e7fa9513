"""Codes of the 3270 data stream, by their names (GA23-0059), and records written with them."""

SIX_BITS = bytes.fromhex(
    "40C1C2C3C4C5C6C7C8C94A4B4C4D4E4F50D1D2D3D4D5D6D7D8D95A5B5C5D5E5F6061E2E3E4E5E6E7E8E96A6B6C6D6E6FF0F1F2F3F4F5F6F7F8F97A7B7C7D7E7F"
)
SF, SFE, SBA, SA, MF, IC, PT, RA, EUA, GE = 0x1D, 0x29, 0x11, 0x28, 0x2C, 0x13, 0x05, 0x3C, 0x12, 0x08
PROTECTED, NUMERIC, MODIFIED = 0x20, 0x10, 0x01
INTENSIFIED, HIDDEN = 0x08, 0x0C

AIDS = {"enter": 0x7D, "clear": 0x6D, "pa1": 0x6C, "pa2": 0x6E, "pa3": 0x6B}
AIDS |= {f"pf{n}": 0xF0 + n for n in range(1, 10)} | {f"pf{n}": 0x70 + n for n in range(10, 13)}
AIDS |= {f"pf{n}": 0xC0 + n - 12 for n in range(13, 22)} | {f"pf{n}": 0x4A + n - 22 for n in range(22, 25)}

READS = {0x02, 0xF2, 0x06, 0xF6, 0x0E, 0x6E}
NO_OPERATION = bytes([0x03])
MODELS = {"24x80 24x80": "IBM-3278-2", "24x80 32x80": "IBM-3278-3", "24x80 43x80": "IBM-3278-4", "24x80 27x132": "IBM-3278-5"}


def coded(place):
    """An address of 12 bits, each half as its six-bit code."""
    return bytes([SIX_BITS[place >> 6], SIX_BITS[place & 63]])


def address(place):
    """An address as a terminal with at most 4,096 cells is sent one, else as a number of 14 bits."""
    return coded(place) if place < 4096 else place.to_bytes(2, "big")


def sba(place):
    return bytes([SBA]) + address(place)


def sf(bits):
    return bytes([SF, SIX_BITS[bits]])


def sfe(*pairs):
    return bytes([SFE, len(pairs)]) + b"".join(bytes(it) for it in pairs)


def mf(*pairs):
    return bytes([MF, len(pairs)]) + b"".join(bytes(it) for it in pairs)


def sa(kind, value):
    return bytes([SA, kind, value])


def ra(place, code):
    return bytes([RA]) + address(place) + bytes([code])


def ra_ge(place, code):
    return bytes([RA]) + address(place) + bytes([GE, code])


def eua(place):
    return bytes([EUA]) + address(place)


def ge(code):
    return bytes([GE, code])


ic, pt = bytes([IC]), bytes([PT])


def text(said):
    """Characters of the code page 037, which all 95 printed ones are of."""
    return said.encode("cp037")


def write(*orders, wcc=0xC2):
    return bytes([0xF1, wcc]) + b"".join(orders)


def erase_write(*orders, wcc=0xC2):
    return bytes([0xF5, wcc]) + b"".join(orders)


def erase_alternate(*orders, wcc=0xC2):
    return bytes([0x7E, wcc]) + b"".join(orders)


def typed(said):
    """The keys that type these characters."""
    return [f"type {it:02X}" for it in text(said)]
