"""Records that are refused: the fault, its place, and that nothing of the record is done."""

from parts.codes import EUA, GE, MF, RA, SA, SBA, SF, SFE, erase_alternate, erase_write, ic, mf, sba, sf, sfe, text, write as write_record

OLD = [sf(0x01), text("OLD"), sf(0x20), sba(2), ic]


def write(script):
    truncated(script)
    first_of_several(script)
    nothing_done(script)


def refused(script, name, says, *orders, paper, source=None, start=text("X"), erase=write_record):
    """A record that writes X, frees the keyboard and resets tags, and then is at fault: the screen before it stays."""
    script.case(name, says, erase_write(*OLD, wcc=0xC0), erase(start, *orders, wcc=0xC3), source=source,
                paper={"refused": f"1 at {paper}", "at": {0: "--D6D3C4--"}, "attributes": {"0": "01", "4": "20"}, "cursor": 2, "keyboard": "waiting"})


def truncated(script):
    script.of("Refusals of an outbound record", "Orders")
    names = {SF: "Start Field", SBA: "Set Buffer Address", SA: "Set Attribute", EUA: "Erase Unprotected to Address", GE: "Graphic Escape", RA: "Repeat to Address", SFE: "Start Field Extended", MF: "Modify Field"}
    whole = {SF: "60", SBA: "40C1", SA: "42F1", EUA: "40C1", GE: "C1", RA: "40C1C1", SFE: "02C06042F1", MF: "02C06042F1"}
    for order, name in names.items():
        body = bytes.fromhex(whole[order])
        for length in range(len(body)):
            refused(script, f"cut-{order:02X}-{length}", f"{name} with {length} of its {len(body)} bytes is refused at its first byte", bytes([order]) + body[:length], paper="3: O6 Truncated")
    refused(script, "cut-ra-ge", "Repeat to Address that ends with 08 lacks a code", bytes.fromhex("3C40C108"), paper="3: O6 Truncated")
    refused(script, "cut-behind", "an order that is cut behind others is refused at its own first byte", sba(5), text("AB"), bytes([SBA, 0x40]), paper="8: O6 Truncated")


def first_of_several(script):
    script.of("Refusals of an outbound record", "own")
    refused(script, "missing-before-bad", "a missing byte comes before a bad one of the same order", bytes([SA, 0x01]), paper="3: O6 Truncated")
    refused(script, "missing-before-reserved", "a missing byte comes before a reserved address", bytes([RA, 0x80, 0x40]), paper="3: O6 Truncated")
    refused(script, "address-before-character", "of Repeat to Address the address comes before the character", bytes([RA, 0x80, 0x40, 0x01]), paper="3: O7 ReservedAddress")
    refused(script, "first-type", "of two bad types the order is told once, at its first byte", bytes([SFE, 2, 0x01, 0, 0x02, 0]), paper="3: O8 BadType")
    refused(script, "second-type", "a bad type behind a good one is refused", bytes([SFE, 2, 0xC0, 0x60, 0x02, 0]), paper="3: O8 BadType")
    refused(script, "first-order", "of two orders at fault the first one is told", bytes([0x01, 0x02]), paper="3: O5 UnknownOrder")
    refused(script, "read-before-apply", "a fault in a record's bytes comes before an address outside", bytes([SBA, 0x5E, 0x40]), bytes([0x01]), paper="6: O5 UnknownOrder")
    refused(script, "outside-before-field", "of an address outside and a field that isn't there the earlier order is told", bytes([SBA, 0x5E, 0x40]), mf(), paper="3: A1 AddressOutside")
    refused(script, "field-before-outside", "of a field that isn't there and an address outside the earlier order is told", mf(), bytes([SBA, 0x5E, 0x40]), paper="3: A2 NoFieldHere")
    refused(script, "as-orders-leave", "whether a field stands there is told as the orders before leave the buffer", sba(0), text("Y"), sba(0), mf(), paper="10: A2 NoFieldHere")


def nothing_done(script):
    script.of("Refusals", "own")
    refused(script, "erase-write", "Erase/Write that is refused erases nothing", bytes([0x01]), paper="3: O5 UnknownOrder", erase=erase_write)
    refused(script, "outside-after-text", "what stands before an address outside isn't written", sba(1), text("NEW"), bytes([SBA, 0x5E, 0x40]), paper="9: A1 AddressOutside")
    refused(script, "cursor", "a cursor before the fault isn't put", sba(9), ic, bytes([0x01]), paper="7: O5 UnknownOrder")
    refused(script, "start-field", "an attribute before the fault isn't stored", sba(9), sf(0x08), bytes([0x01]), paper="8: O5 UnknownOrder")
    refused(script, "extended", "an attribute of Start Field Extended before the fault isn't stored", sba(9), sfe((0xC0, 0x08)), bytes([0x01]), paper="10: O5 UnknownOrder")
    refused(script, "modify", "an attribute isn't changed before the fault", sba(0), mf((0xC0, 0x08)), bytes([0x01]), paper="10: O5 UnknownOrder")
    refused(script, "repeat", "characters aren't repeated before the fault", sba(1), bytes.fromhex("3C40C55C"), bytes([0x01]), paper="10: O5 UnknownOrder")
    refused(script, "erase", "unprotected characters aren't erased before the fault", sba(1), bytes.fromhex("1240C4"), bytes([0x01]), paper="9: O5 UnknownOrder")
    refused(script, "tab", "a Program Tab before the fault makes no nulls", sba(1), text("N"), bytes([0x05]), bytes([0x01]), paper="8: O5 UnknownOrder")
    refused(script, "last-byte", "a fault in the last byte refuses the whole record", sba(1), text("NEW"), sf(0x00), bytes([0x01]), paper="11: O5 UnknownOrder")
    script.case("size", "Erase/Write Alternate that is refused leaves the size", erase_write(*OLD, wcc=0xC0), erase_alternate(text("X"), bytes([0x01])), size="24x80 43x80",
                paper={"refused": "1 at 3: O5 UnknownOrder", "size": "24x80", "at": {0: "--D6D3C4--"}})
    script.case("size-back", "Erase/Write that is refused leaves the alternate size", erase_alternate(*OLD, wcc=0xC0), erase_write(text("X"), bytes([0x01])), size="24x80 43x80",
                paper={"refused": "1 at 3: O5 UnknownOrder", "size": "43x80", "at": {0: "--D6D3C4--"}})
