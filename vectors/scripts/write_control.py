"""The write control character: tags, keyboard, and bits without effect."""

from parts.codes import erase_alternate, erase_write, ic, sba, sf, text, typed, write as write_record

FORM = [sf(0x01), text("AB"), sf(0x21), text("CD"), sf(0x00), text("EF"), sf(0x20)]


def write(script):
    script.of("What the write control character does", "Write control character")
    for low in range(8):
        tags, free, alarm = low & 1, low & 2, low & 4
        said = f"a Write with the bits {low:02X} {'resets' if tags else 'keeps'} the tags, {'frees' if free else 'leaves'} the keyboard{', and sounds the alarm' if alarm else ''}"
        script.case(f"write-{low:02X}", said, erase_write(*FORM, wcc=0xC0), write_record(wcc=0xC0 | low),
                    paper={"attributes": {"0": "00" if tags else "01", "3": "20" if tags else "21", "6": "00", "9": "20"}, "keyboard": "free" if free else "waiting"})
    for bit in (0x08, 0x10, 0x20, 0x40, 0x80):
        script.case(f"bit-{bit:02X}", f"bit {bit:02X} has no effect", erase_write(*FORM, wcc=0xC0), write_record(wcc=bit), source="own",
                    paper={"attributes": {"0": "01", "3": "21", "6": "00", "9": "20"}, "keyboard": "waiting", "at": {0: "--C1C2--C3C4"}})
        script.case(f"bit-{bit:02X}-and-restore", f"bit {bit:02X} beside bit 02 takes nothing from it", erase_write(*FORM, wcc=0xC0), write_record(wcc=bit | 2), source="own",
                    paper={"keyboard": "free"})
    for erase, name in ((erase_write, "Erase/Write"), (erase_alternate, "Erase/Write Alternate")):
        for low in range(4):
            script.case(f"{'ew' if erase is erase_write else 'ewa'}-{low:02X}", f"{name} with the bits {low:02X} {'frees' if low & 2 else 'leaves'} the keyboard, and keeps tags that it writes",
                        erase(sf(0x01), text("A"), wcc=0xC0 | low), paper={"attributes": {"0": "01"}, "keyboard": "free" if low & 2 else "waiting"})
    script.case("tags-before-orders", "tags are reset before the orders: one that the record writes stays", erase_write(sf(0x01), text("A")), write_record(sba(5), sf(0x01), text("B"), wcc=0xC3),
                paper={"attributes": {"0": "00", "5": "01"}})
    script.case("tags-of-modify", "a tag that Modify Field sets in a record that resets tags stays set", erase_write(sf(0x01), text("A")), write_record(sba(0), bytes.fromhex("2C01C0C1"), wcc=0xC3),
                paper={"attributes": {"0": "01"}})
    script.case("tags-typed", "bit 01 resets the tag of a field that was typed into, and keeps its characters", erase_write(sf(0x00), text("  "), sf(0x20), sba(1), ic),
                keys=[*typed("A"), "enter"], then=[write_record(wcc=0xC1)], paper={"attributes": {"0": "00", "3": "20"}, "at": {1: "C140"}, "keyboard": "waiting"})
    script.case("tags-kept", "without bit 01 what was typed is sent again", erase_write(sf(0x00), text("  "), sf(0x20), sba(1), ic), keys=[*typed("A"), "enter"],
                then=[write_record(wcc=0xC0), bytes([0xF6])], paper={"answers": ["7D40C21140C1C140", "7D40C21140C1C140"]})
    script.case("restore-aid", "bit 02 after Enter frees the keyboard, and there is no attention any more", erase_write(), keys=["enter"], then=[write_record(wcc=0xC2)],
                paper={"keyboard": "free", "aid": "60"})
    script.case("no-restore-aid", "without bit 02 the keyboard waits after Enter, and the attention stays", erase_write(), keys=["enter"], then=[write_record(wcc=0xC0)],
                paper={"keyboard": "waiting", "aid": "7D"})
    script.case("restore-refused", "a record that is refused frees no keyboard", erase_write(text("OLD"), wcc=0xC0), write_record(text("X"), b"\x01"),
                paper={"keyboard": "waiting", "refused": "1 at 3: O5 UnknownOrder"})
    script.case("tags-refused", "a record that is refused resets no tag", erase_write(sf(0x01), text("OLD")), write_record(text("X"), b"\x01", wcc=0xC3),
                paper={"attributes": {"0": "01"}, "refused": "1 at 3: O5 UnknownOrder"})
