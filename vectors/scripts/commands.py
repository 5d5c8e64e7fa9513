"""Commands, their codes, and what they do."""

from parts.codes import erase_alternate, erase_write, ic, sba, sf, text, typed, write as write_record

MODEL_4, MODEL_5 = "24x80 43x80", "24x80 27x132"
CODES = {"Write": (0x01, 0xF1), "Erase/Write": (0x05, 0xF5), "Erase/Write Alternate": (0x0D, 0x7E), "Read Buffer": (0x02, 0xF2), "Read Modified": (0x06, 0xF6),
         "Read Modified All": (0x0E, 0x6E), "Erase All Unprotected": (0x0F, 0x6F), "No-operation": (0x03,)}
KNOWN = {it for codes in CODES.values() for it in codes} | {0x11, 0xF3}
FORM = [sf(0x01), text("AB"), sf(0x21), text("CD"), sf(0x00), text("EF"), sf(0x20)]


def write(script):
    codes(script)
    effects(script)
    erase_all(script)
    reads(script)


def codes(script):
    script.of("Commands", "Commands")
    for name, both in CODES.items():
        for code in both:
            body = b"\xc0" + sba(1) + text("X") if name in ("Write", "Erase/Write", "Erase/Write Alternate") else b""
            form = "channel" if code < 0x40 and len(both) > 1 else "SNA" if len(both) > 1 else "only"
            if name.startswith("Read "):
                continue
            script.case(f"code-{code:02X}", f"{code:02X} is {name} in its {form} form", erase_write(*FORM, wcc=0xC0), bytes([code]) + body)
    for code in sorted({it + step for it in KNOWN for step in (-1, 1)} - KNOWN | {0x40, 0x7D, 0x80, 0xFF}):
        script.case(f"no-command-{code:02X}", f"a record that begins with {code:02X} has no command, and is refused", erase_write(text("OLD")), bytes([code, 0xC2]) + text("X"),
                    paper={"refused": "1 at 0: O2 UnknownCommand", "at": {0: "D6D3C4"}})
    for code in (0x11, 0xF3):
        script.case(f"structured-{code:02X}", f"Write Structured Field, {code:02X}, is refused", erase_write(text("OLD")), bytes([code]) + bytes.fromhex("000501FF02"),
                    source="own", paper={"refused": "1 at 0: O3 StructuredField"})
    for name, both in CODES.items():
        for code in both:
            if name in ("Read Buffer", "Read Modified", "Read Modified All", "Erase All Unprotected"):
                script.case(f"trailing-{code:02X}", f"a byte after {name}, {code:02X}, is refused", erase_write(text("OLD"), wcc=0xC0), bytes([code, 0xC2]),
                            source="own", paper={"refused": "1 at 1: O10 Trailing"})
    for name, both in CODES.items():
        for code in both:
            if name in ("Write", "Erase/Write", "Erase/Write Alternate"):
                script.case(f"alone-{code:02X}", f"{name}, {code:02X}, without a write control character is refused", erase_write(text("OLD")), bytes([code]),
                            paper={"refused": "1 at 1: O4 NoWcc", "at": {0: "D6D3C4"}})


def effects(script):
    script.of("What commands do", "Commands")
    script.case("write-keeps", "Write keeps what it doesn't write over", erase_write(text("ABCD")), write_record(sba(1), text("X")), paper={"at": {0: "C1E7C3C4"}})
    script.case("write-at-cursor", "Write begins at the cursor", erase_write(text("ABCD"), sba(2), ic), write_record(text("X")), paper={"at": {0: "C1C2E7C4"}, "cursor": 2})
    script.case("write-at-moved-cursor", "Write begins where the operator left the cursor", erase_write(text("ABCD"), sba(1), ic), keys=["right", "right", "enter"],
                then=[write_record(text("X"))], paper={"at": {0: "C1C2C3E7"}, "cursor": 3})
    script.case("erase-nulls", "Erase/Write makes all nulls first", erase_write(*FORM), erase_write(text("X")), paper={"cells": {"0": "E7"}, "attributes": {}})
    script.case("erase-cursor", "Erase/Write puts the cursor at 0", erase_write(sba(5), ic), erase_write(), paper={"cursor": 0})
    script.case("erase-keeps-lock", "Erase/Write without bit 02 leaves the keyboard", erase_write(), erase_write(wcc=0xC0), paper={"keyboard": "free"})
    script.case("erase-keeps-wait", "Erase/Write without bit 02 leaves a keyboard that waits", erase_write(wcc=0xC0), paper={"keyboard": "waiting"})
    script.case("erase-after-enter", "Erase/Write without bit 02 after Enter leaves the attention identifier", erase_write(), keys=["enter"], then=[erase_write(text("A"), wcc=0xC0)],
                paper={"keyboard": "waiting", "aid": "7D"})
    for size in ("24x80 32x80", MODEL_4, MODEL_5):
        alternate = size.split()[1]
        script.case(f"alternate-{alternate}", f"Erase/Write Alternate makes a screen of {alternate}", erase_write(text("OLD")), erase_alternate(text("X")), size=size,
                    paper={"size": alternate, "cells": {"0": "E7"}})
        script.case(f"back-{alternate}", f"Erase/Write after Erase/Write Alternate goes back from {alternate}", erase_alternate(text("OLD")), erase_write(text("X")), size=size,
                    paper={"size": "24x80", "cells": {"0": "E7"}})
        script.case(f"write-{alternate}", f"Write after Erase/Write Alternate stays with {alternate}", erase_alternate(text("OLD")), write_record(sba(1920), text("X")), size=size,
                    paper={"size": alternate, "at": {0: "D6D3C4", 1920: "E7"}})
        script.case(f"unprotected-{alternate}", f"Erase All Unprotected stays with {alternate}", erase_alternate(text("OLD"), sba(1920), ic), bytes([0x6F]), size=size,
                    paper={"size": alternate, "cursor": 0, "cells": {}})
        script.case(f"clear-{alternate}", f"Clear goes back from {alternate} to the default size", erase_alternate(text("OLD")), keys=["clear"], size=size,
                    paper={"size": "24x80", "cells": {}, "aid": "6D", "answers": ["6D"]})
    script.case("alternate-24x80", "Erase/Write Alternate of model 2 keeps 24x80", erase_alternate(text("X")), paper={"size": "24x80", "at": {0: "E7"}})
    script.case("alternate-cursor", "Erase/Write Alternate puts the cursor at 0", erase_alternate(sba(5), ic), erase_alternate(text("A")), paper={"cursor": 0})


def erase_all(script):
    script.of("Erase All Unprotected", "Commands")
    everything = bytes([0x6F])
    script.case("eau-nulls", "Erase All Unprotected makes nulls of unprotected characters alone", erase_write(*FORM), everything, paper={"at": {0: "--0000--C3C4--0000--"}})
    script.case("eau-tags", "Erase All Unprotected resets unprotected modified data tags, and keeps protected ones", erase_write(*FORM, wcc=0xC0), everything,
                keys=["enter"], paper={"attributes": {"0": "00", "3": "21", "6": "00", "9": "20"}, "answers": ["7D40C1" + "1140C4" + "C3C4"]})
    script.case("eau-empty-field", "Erase All Unprotected resets the tag of an unprotected field without cells", erase_write(sf(0x01), sf(0x20)), everything,
                paper={"attributes": {"0": "00", "1": "20"}})
    script.case("eau-cursor", "Erase All Unprotected puts the cursor at the first unprotected position", erase_write(sf(0x20), text("AB"), sf(0x00), text("C"), sba(99), ic), everything,
                paper={"cursor": 4})
    script.case("eau-cursor-none", "Erase All Unprotected without an unprotected position puts the cursor at 0", erase_write(sf(0x20), text("AB"), sba(99), ic), everything,
                paper={"cursor": 0})
    script.case("eau-cursor-round", "where an input goes round the end the cursor goes to 0", erase_write(sba(5), sf(0x20), sba(1900), sf(0x00), sba(99), ic), everything, source="own",
                paper={"cursor": 0})
    script.case("eau-unformatted", "Erase All Unprotected without attributes erases everything", erase_write(text("ABC"), sba(99), ic), everything, paper={"cells": {}, "cursor": 0})
    script.case("eau-frees-after-enter", "Erase All Unprotected after Enter frees the keyboard, and there is no attention any more", erase_write(*FORM), keys=["enter"], then=[everything],
                paper={"keyboard": "free", "aid": "60"})
    script.case("eau-alternate-set", "Erase All Unprotected makes nulls of characters of the alternate set", erase_write(sf(0x00), bytes.fromhex("08C1"), sf(0x20)), everything,
                paper={"at": {1: "00"}})
    script.case("eau-typed", "what was typed is erased", erase_write(sf(0x00), sba(3), sf(0x20), sba(1), ic), keys=[*typed("AB"), "enter"], then=[everything],
                paper={"at": {0: "--0000--"}, "attributes": {"0": "00", "3": "20"}, "cursor": 1})


def reads(script):
    script.of("the three reads, No-operation", "Commands")
    for code, name in ((0xF2, "Read Buffer"), (0xF6, "Read Modified"), (0x6E, "Read Modified All")):
        script.case(f"read-leaves-{code:02X}", f"{name} changes nothing", erase_write(*FORM, sba(5), ic, wcc=0xC0), bytes([code]), bytes([0xF2]),
                    paper={"cursor": 5, "keyboard": "waiting", "aid": "60", "at": {0: "--C1C2--C3C4--C5C6--"}})
