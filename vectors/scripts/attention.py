"""Keys that send, and what they send."""

from parts.codes import AIDS, coded, erase_alternate, erase_write, ge, ic, sba, sf, text, typed, write as write_record

FORM = [sf(0x01), text("AB"), sf(0x21), text("CD"), sf(0x00), text("EF"), sf(0x20)]
SHORT = {"pa1", "pa2", "pa3", "clear"}


def write(script):
    keys(script)
    answers(script)
    reads(script)
    locks(script)


def keys(script):
    script.of("Attention identifiers", "Attention identifier")
    for key, aid in AIDS.items():
        # Places are sent as 11 and two six-bit codes: 1 is 40 C1, 4 is 40 C4.
        long = f"{aid:02X}404040"[:6] + "1140C1C1C2" + "1140C4C3C4"
        script.case(f"{key}-form", f"{key.upper() if key[0] == 'p' else key.capitalize()} sends {aid:02X}{' alone' if key in SHORT else ', the cursor and the modified fields'}", erase_write(*FORM), keys=[key],
                    paper={"answers": [f"{aid:02X}" if key in SHORT else long], "aid": f"{aid:02X}", "keyboard": "waiting"})
        if key != "clear":
            script.case(f"{key}-unformatted", f"{key.upper() if key[0] == 'p' else key.capitalize()} on a screen without attributes sends {aid:02X}{' alone' if key in SHORT else ', the cursor and all characters'}",
                        erase_write(text("AB"), sba(99), text("C"), sba(5), ic), keys=[key], paper={"answers": [f"{aid:02X}" if key in SHORT else f"{aid:02X}40C5C1C2C3"]})


def answers(script):
    script.of("What the terminal sends", "Read operations")
    script.case("no-tag", "where no field is modified the cursor's address is sent alone", erase_write(sf(0x00), text("AB"), sf(0x20), sba(2), ic), keys=["enter"], paper={"answers": ["7D40C2"]})
    script.case("nulls", "nulls of a field are left out", erase_write(sf(0x01), text("A"), sba(3), text("B"), sba(5), sf(0x20)), keys=["enter"], paper={"answers": ["7D40401140C1C1C2"]})
    script.case("blanks", "blanks of a field are sent", erase_write(sf(0x01), text("A  "), sf(0x20)), keys=["enter"], paper={"answers": ["7D40401140C1C14040"]})
    script.case("all-nulls", "a modified field of nulls is its place alone", erase_write(sf(0x01), sba(5), sf(0x20)), keys=["enter"], paper={"answers": ["7D40401140C1"]})
    script.case("no-cells", "a modified field without cells is the place behind its attribute", erase_write(sf(0x01), sf(0x20), text("A")), keys=["enter"], paper={"answers": ["7D40401140C1"]})
    script.case("protected", "a protected field with a tag is sent", erase_write(sf(0x21), text("A"), sf(0x20)), keys=["enter"], paper={"answers": ["7D40401140C1C1"]})
    script.case("hidden", "a hidden field with a tag is sent", erase_write(sf(0x0D), text("A"), sf(0x20)), keys=["enter"], paper={"answers": ["7D40401140C1C1"]})
    script.case("order", "fields are sent in the order of their places", erase_write(sba(50), sf(0x01), text("B"), sf(0x20), sba(10), sf(0x01), text("A"), sf(0x20)), keys=["enter"],
                paper={"answers": ["7D4040" + "11404B" + "C1" + "1140F3" + "C2"]})
    # 1919 is the attribute: its field begins at 0.
    script.case("attribute-last", "the place of a field whose attribute is in the last cell is 0", erase_write(text("AB"), sf(0x20), sba(1919), sf(0x01)), keys=["enter"], paper={"answers": ["7D4040114040C1C2"]})
    script.case("round", "a field that goes round the end is sent last, as one", erase_write(text("CD"), sf(0x21), text("X"), sf(0x20), sba(1917), sf(0x01), text("AB")), keys=["enter"],
                paper={"answers": ["7D4040" + "1140C3" + "E7" + "115D7E" + "C1C2C3C4"]})
    script.case("cursor", "the cursor's address is where the cursor stands", erase_write(*FORM, sba(1234), ic), keys=["enter"], paper={"answers": ["7D" + coded(1234).hex().upper() + "1140C1C1C21140C4C3C4"]})
    script.case("cursor-moved", "the cursor's address is where keys left it", erase_write(sf(0x00), sba(9), sf(0x20)), keys=["tab", "right", "enter"], paper={"answers": ["7D40C2"]})
    script.case("alternate-set", "a character of the alternate set is sent as 08 and its code", erase_write(sf(0x01), ge(0xAD), text("A"), sf(0x20)), keys=["enter"], paper={"answers": ["7D40401140C108ADC1"]})
    script.case("codes-of-text", "the codes 1C, 1E, 3F and FF that a record wrote are sent as they are", erase_write(sf(0x01), bytes.fromhex("1C1E3FFF"), sf(0x20)), keys=["enter"], paper={"answers": ["7D40401140C11C1E3FFF"]})
    script.case("formats", "the codes 0C, 0D, 15 and 19 that a record wrote are sent as they are", erase_write(sf(0x01), bytes.fromhex("0C0D1519"), sf(0x20)), keys=["enter"], paper={"answers": ["7D40401140C10C0D1519"]})
    script.case("unformatted-nulls", "without attributes nulls are left out between characters", erase_write(text("A"), sba(100), text("B"), sba(1919), text("C")), keys=["enter"], paper={"answers": ["7D4040C1C2C3"]})
    script.case("unformatted-empty", "an empty screen without attributes sends the cursor's address alone", erase_write(), keys=["enter"], paper={"answers": ["7D4040"]})
    script.case("typed-twice", "what was typed over what was typed is sent", erase_write(sf(0x00), text("  "), sf(0x20), sba(1), ic), keys=[*typed("AB"), "backtab", *typed("X"), "enter"], paper={"answers": ["7D40C21140C1E7C2"]})
    for size in ("24x80 43x80", "24x80 27x132"):
        last = {"24x80 43x80": 3439, "24x80 27x132": 3563}[size]
        script.case(f"large-{size.split()[1]}", f"a field near the end of {size.split()[1]} is sent by six-bit codes", erase_alternate(sba(last - 3), sf(0x01), text("AB"), sf(0x20)), keys=["enter"], size=size,
                    paper={"answers": ["7D4040" + "11" + coded(last - 2).hex().upper() + "C1C2"]})


def reads(script):
    script.of("What the terminal sends", "Read operations")
    buffer, modified, every = bytes([0xF2]), bytes([0xF6]), bytes([0x6E])
    shut = erase_write(*FORM, sba(5), ic, wcc=0xC0)
    script.case("read-modified-no-key", "Read Modified where no key was pressed has the identifier 60, the cursor and the modified fields", shut, modified, source="own", paper={"answers": ["6040C51140C1C1C21140C4C3C4"]})
    script.case("read-all-no-key", "Read Modified All where no key was pressed has the identifier 60, the cursor and the modified fields", shut, every, source="own", paper={"answers": ["6040C51140C1C1C21140C4C3C4"]})
    for key in ("enter", "pf3", "pf24", "pa1", "pa2", "pa3"):
        aid = f"{AIDS[key]:02X}"
        fields = "40C51140C1C1C21140C4C3C4"
        script.case(f"modified-after-{key}", f"Read Modified after {key} sends what the key sent, once more", erase_write(*FORM, sba(5), ic), keys=[key], then=[modified],
                    paper={"answers": [aid + ("" if key in SHORT else fields)] * 2})
        script.case(f"all-after-{key}", f"Read Modified All after {key} sends the modified fields", erase_write(*FORM, sba(5), ic), keys=[key], then=[every],
                    paper={"answers": [aid + ("" if key in SHORT else fields), aid + fields]})
    script.case("modified-after-clear", "Read Modified after Clear sends 6D alone", erase_write(*FORM), keys=["clear"], then=[modified], paper={"answers": ["6D", "6D"]})
    script.case("all-after-clear", "Read Modified All after Clear sends 6D and the cursor at 0", erase_write(*FORM), keys=["clear"], then=[every], paper={"answers": ["6D", "6D4040"]})
    small = erase_write(sba(3), ic, wcc=0xC0)
    script.case("buffer-empty", "Read Buffer sends every null", small, buffer, paper={"answers": ["6040C3" + "00" * 1920]})
    script.case("buffer-form", "Read Buffer sends each attribute as 1D and its six-bit code, with its tag", erase_write(*FORM, wcc=0xC0), buffer,
                paper={"answers": ["604040" + "1DC1C1C2" + "1D61C3C4" + "1D40C5C6" + "1D60" + "00" * 1910]})
    script.case("buffer-alternate-set", "Read Buffer sends a character of the alternate set as 08 and its code", erase_write(ge(0xC1), text("A"), wcc=0xC0), buffer, paper={"answers": ["60404008C1C1" + "00" * 1918]})
    script.case("buffer-after-key", "Read Buffer after Enter has its identifier, and what was typed", erase_write(sf(0x00), text(" "), sf(0x20), sba(1), ic), keys=[*typed("A"), "enter"], then=[buffer],
                paper={"answers": ["7D40C31140C1C1", "7D40C3" + "1DC1C1" + "1D60" + "00" * 1917]})
    script.case("buffer-unformatted", "Read Buffer without attributes sends every cell", erase_write(text("AB"), sba(1919), text("Z"), wcc=0xC0), buffer, paper={"answers": ["604040C1C2" + "00" * 1917 + "E9"]})
    for code, name in ((0x02, "Read Buffer"), (0x06, "Read Modified"), (0x0E, "Read Modified All")):
        script.case(f"channel-{code:02X}", f"{name} in its channel form, {code:02X}, is answered as in its SNA form", erase_write(*FORM, wcc=0xC0), bytes([code]))


def locks(script):
    script.of("any key while the keyboard waits", "Keyboard")
    shut = erase_write(sf(0x00), text("AB"), sf(0x20), sba(1), ic)
    for key in ("left", "right", "up", "down", "tab", "backtab", "newline", "home", "eraseeof", "eraseinput", "delete", "type C1", "enter", "pf1", "pa1", "clear"):
        script.case(f"waits-{key.replace(' ', '-')}", f"after Enter {key} is ignored while the keyboard waits", shut, keys=["enter", key], source="own",
                    paper={"cursor": 1, "keyboard": "waiting", "answers": ["7D40C1"], "at": {0: "--C1C2--"}, "aid": "7D"})
    script.of("any key but Reset after an error", "Keyboard")
    free = erase_write(sf(0x20), text("AB"), sf(0x00), text("C"), sf(0x20), sba(1), ic)
    for key in ("left", "right", "up", "down", "tab", "backtab", "newline", "home", "eraseeof", "eraseinput", "delete", "type C1", "enter", "pf1", "pa1", "clear"):
        script.case(f"error-{key.replace(' ', '-')}", f"{key} is ignored after an error", free, keys=["type E9", key], source="own",
                    paper={"cursor": 1, "keyboard": "error", "answers": [], "at": {0: "--C1C2--C3--"}, "aid": "60"})
    script.of("Reset", "Keyboard")
    script.case("reset-error", "Reset after an error frees the keyboard", free, keys=["type E9", "reset"], paper={"keyboard": "free", "cursor": 1})
    script.case("reset-free", "Reset on a free keyboard changes nothing", free, keys=["reset"], source="own", paper={"keyboard": "free", "cursor": 1})
    script.case("reset-waits", "Reset on a new terminal, whose keyboard waits for the host, is ignored", erase_write(text("A"), wcc=0xC0), keys=["reset"], source="own", paper={"keyboard": "waiting"})
    script.case("reset-after-enter", "Reset after Enter is ignored: the host has to free the keyboard", free, keys=["enter", "reset"], source="own", paper={"keyboard": "waiting", "aid": "7D"})
    script.case("reset-then-key", "after Reset keys act again", free, keys=["type E9", "reset", "tab", "type E8"], paper={"at": {4: "E8"}, "keyboard": "free"})
    script.of("any key while the keyboard waits", "Keyboard")
    script.case("new-terminal", "the keyboard of a new terminal waits until a record frees it", erase_write(text("A"), wcc=0xC0), source="own", paper={"keyboard": "waiting", "aid": "60"})
    script.case("after-enter", "after Enter keys are ignored until the host frees the keyboard", free, keys=["enter", "right", "enter"], source="own", paper={"cursor": 1, "answers": ["7D40C1"]})
    script.case("freed-again", "once the host frees the keyboard a new screen is there to type into", free, keys=["enter"], then=[write_record(sba(4), ic, wcc=0xC2)], paper={"keyboard": "free", "cursor": 4})
