"""Each order right after each other one, on a screen of fields of every kind."""

from parts.codes import erase_write, eua, ge, ic, mf, pt, ra, sa, sba, sf, sfe, text

FORM = [sf(0x20), text("TITLE"), sba(10), sf(0x01), text("ABCDEFGH"), sf(0x20), text("MID"), sba(30), sf(0x0C), text("SECRET"), sf(0x30), text("Z"), sba(40), sf(0x10), text("12345678"),
        sf(0x20), sba(60), sf(0x20)]
# Where the pairs begin: the second cell of the first input, but an attribute for a pair that begins with Modify Field.
INPUT, ATTRIBUTE = 12, 10
ORDERS = {
    "text": ("text", text("xy")), "SF": ("Start Field", sf(0x08)), "SFE": ("Start Field Extended", sfe((0x41, 0xF2), (0xC0, 0x04))), "SBA": ("Set Buffer Address", sba(33)),
    "SA": ("Set Attribute", sa(0x42, 0xF2)), "MF": ("Modify Field", mf((0xC0, 0x24))), "IC": ("Insert Cursor", ic), "PT": ("Program Tab", pt),
    "RA": ("Repeat to Address", ra(45, 0x5C)), "EUA": ("Erase Unprotected to Address", eua(45)), "GE": ("Graphic Escape", ge(0xC7)),
}
# An address at which an attribute stands once the first order was done, for a Modify Field behind it.
BEFORE_MODIFY = {"text": sba(8) + text("xy"), "SF": sba(9) + sf(0x08), "SFE": sba(9) + sfe((0xC0, 0x04)), "SBA": sba(10), "SA": sba(10) + sa(0x42, 0xF2), "MF": None, "IC": sba(10) + ic,
                 "PT": None, "RA": sba(4) + ra(10, 0x5C), "EUA": sba(4) + eua(10), "GE": sba(9) + ge(0xC7)}


def write(script):
    script.of("What orders do", "Orders")
    for first, (called, order) in ORDERS.items():
        for second, (then_called, then) in ORDERS.items():
            if first == second == "text":
                continue
            if second == "MF":
                pair = BEFORE_MODIFY[first]
                if pair is None:
                    continue
                pair += then
            else:
                pair = sba(ATTRIBUTE if first == "MF" else INPUT) + order + then
            # What comes last shows where the pair left the buffer address.
            script.case(f"{first}-{second}", f"{called}, then {then_called}", erase_write(*FORM, pair, text("#")))
