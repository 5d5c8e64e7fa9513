"""What a terminal answers until a session is ready, byte by byte."""

from parts.host import DO, DONT, IAC, SB, SE, WILL, WONT

BINARY, TERMINAL_TYPE, END_OF_RECORD, ENHANCED, ECHO = 0x00, 0x18, 0x19, 0x28, 0x01
NAMES = {BINARY: "BINARY", TERMINAL_TYPE: "TERMINAL-TYPE", END_OF_RECORD: "END-OF-RECORD", ENHANCED: "TN3270E", ECHO: "ECHO", 0x03: "SUPPRESS-GO-AHEAD", 0xFF: "option 255"}
VERBS = {DO: "DO", DONT: "DONT", WILL: "WILL", WONT: "WONT"}


def verb(kind, option):
    return bytes([IAC, kind, option])


def sub(option, *parts):
    return bytes([IAC, SB, option]) + b"".join(it.encode() if isinstance(it, str) else bytes(it) for it in parts) + bytes([IAC, SE])


def hexed(some):
    return some.hex().upper()


SEND_DEVICE = sub(ENHANCED, [8, 2])
SEND_TYPE = sub(TERMINAL_TYPE, [1])
DEVICE = verb(DO, ENHANCED), SEND_DEVICE
GRANTED = *DEVICE, sub(ENHANCED, [2, 4], "IBM-3278-2-E", [1], "LU1")
READY = *GRANTED, sub(ENHANCED, [3, 4, 2])
CLASSIC = verb(DO, TERMINAL_TYPE), SEND_TYPE, verb(DO, END_OF_RECORD) + verb(WILL, END_OF_RECORD), verb(DO, BINARY) + verb(WILL, BINARY)
ASKED = [hexed(verb(WILL, ENHANCED)), hexed(sub(ENHANCED, [2, 7], "IBM-3278-2-E"))]
WANTS = hexed(sub(ENHANCED, [3, 7, 2]))


def write(script):
    options(script)
    classic(script)
    devices(script)
    functions(script)
    faults(script)


def options(script):
    script.of("The terminal", "RFC 854")
    for option in (BINARY, TERMINAL_TYPE, END_OF_RECORD, ENHANCED):
        script.session(f"do-{option:02X}", f"DO {NAMES[option]} is agreed to", verb(DO, option), paper={"terminal": [hexed(verb(WILL, option))]})
        script.session(f"do-twice-{option:02X}", f"a second DO {NAMES[option]} is answered by nothing", verb(DO, option), verb(DO, option), paper={"terminal": [hexed(verb(WILL, option)), ""]})
    for option in (ECHO, 0x03, 0x05, 0x1F, 0x27, 0xFF):
        name = NAMES.get(option, f"option {option}")
        script.session(f"do-{option:02X}", f"DO {name} is refused", verb(DO, option), paper={"terminal": [hexed(verb(WONT, option))]})
        script.session(f"will-{option:02X}", f"WILL {name} is refused", verb(WILL, option), paper={"terminal": [hexed(verb(DONT, option))]})
        for kind in (DONT, WONT):
            script.session(f"{VERBS[kind].lower()}-{option:02X}", f"{VERBS[kind]} {name} is answered by nothing", verb(kind, option), paper={"terminal": [""]})
    for option in (BINARY, END_OF_RECORD):
        script.session(f"will-{option:02X}", f"WILL {NAMES[option]} is agreed to", verb(WILL, option), paper={"terminal": [hexed(verb(DO, option))]})
        script.session(f"will-twice-{option:02X}", f"a second WILL {NAMES[option]} is answered by nothing", verb(WILL, option), verb(WILL, option), paper={"terminal": [hexed(verb(DO, option)), ""]})
    for option in (TERMINAL_TYPE, ENHANCED):
        script.session(f"will-{option:02X}", f"WILL {NAMES[option]} of the host is refused", verb(WILL, option), paper={"terminal": [hexed(verb(DONT, option))]})
    for option in (BINARY, TERMINAL_TYPE, END_OF_RECORD, ENHANCED):
        for kind in (DONT, WONT):
            script.session(f"off-{VERBS[kind].lower()}-{option:02X}", f"{VERBS[kind]} {NAMES[option]} where that option is off is answered by nothing", verb(kind, option), paper={"terminal": [""]})
    script.of("The terminal", "RFC 2355, section 4")
    script.session("give-up", "DONT TN3270E before a session is ready is agreed to by WONT", verb(DO, ENHANCED), verb(DONT, ENHANCED), paper={"terminal": [ASKED[0], hexed(verb(WONT, ENHANCED))]})
    script.session("give-up-device", "DONT TN3270E after the device was asked for is agreed to by WONT", *DEVICE, verb(DONT, ENHANCED), paper={"terminal": [*ASKED, hexed(verb(WONT, ENHANCED))]})


def classic(script):
    script.of("The terminal", "RFC 1091")
    for model in "2345":
        for extended in ("", "-E"):
            device = f"IBM-3278-{model}{extended}"
            script.session(f"type-{model}{extended}", f"TERMINAL-TYPE SEND is answered by the name of {device}", *CLASSIC[:2], device=device,
                           paper={"terminal": [hexed(verb(WILL, TERMINAL_TYPE)), hexed(sub(TERMINAL_TYPE, [0], device))]})
    name = hexed(sub(TERMINAL_TYPE, [0], "IBM-3278-2-E"))
    script.session("type-again", "TERMINAL-TYPE SEND is answered each time by the same name", *CLASSIC[:2], SEND_TYPE, paper={"terminal": [hexed(verb(WILL, TERMINAL_TYPE)), name, name]})
    script.session("type-colors", "a 3279 gives the name of a 3278 of its model", *CLASSIC[:2], device="IBM-3279-2-E", source="own",
                   paper={"terminal": [hexed(verb(WILL, TERMINAL_TYPE)), hexed(sub(TERMINAL_TYPE, [0], "IBM-3278-2-E"))]})
    both = [hexed(verb(WILL, it) + verb(DO, it)) for it in (END_OF_RECORD, BINARY)]
    script.of("The terminal", "RFC 1576")
    script.session("classic", "a session without TN3270E is agreed on by TERMINAL-TYPE, END-OF-RECORD and BINARY", *CLASSIC, paper={"terminal": [hexed(verb(WILL, TERMINAL_TYPE)), name, *both]})
    # Erase/Write that frees the keyboard; Enter on an empty screen sends 7D and the cursor at 0.
    script.session("classic-record", "in a classic session a record has no header, nor has its answer", *CLASSIC, bytes.fromhex("F5C2FFEF"),
                   paper={"terminal": [hexed(verb(WILL, TERMINAL_TYPE)), name, *both, "7D4040FFEF"]})
    script.session("classic-doubled", "in a record FF is doubled, both ways", *CLASSIC, bytes.fromhex("F5C21DC1FFFF1D60FFEF"),
                   paper={"terminal": [hexed(verb(WILL, TERMINAL_TYPE)), name, *both, "7D40401140C1FFFFFFEF"]})
    script.session("binary-first", "the order in which BINARY and END-OF-RECORD are agreed on is the host's", *CLASSIC[:2], CLASSIC[3], CLASSIC[2], bytes.fromhex("F5C2FFEF"),
                   paper={"terminal": [hexed(verb(WILL, TERMINAL_TYPE)), name, both[1], both[0], "7D4040FFEF"]})
    script.session("one-piece", "a classic session is agreed on also where all comes at once", b"".join(CLASSIC) + bytes.fromhex("F5C2FFEF"),
                   paper={"terminal": [hexed(verb(WILL, TERMINAL_TYPE)) + name + "".join(both) + "7D4040FFEF"]})


def devices(script):
    script.of("The terminal", "RFC 2355, section 7.1")
    for model in "2345":
        for extended in ("", "-E"):
            device = f"IBM-3278-{model}{extended}"
            script.session(f"device-{model}{extended}", f"SEND DEVICE-TYPE is answered by a request for {device}", *DEVICE, device=device,
                           paper={"terminal": [ASKED[0], hexed(sub(ENHANCED, [2, 7], device))]})
    script.session("device-again", "SEND DEVICE-TYPE before the device is granted is answered again", *DEVICE, SEND_DEVICE, paper={"terminal": [*ASKED, ASKED[1]]})
    for name, parts, says in (("connect", ([1], "LU1"), "with a name behind CONNECT"), ("alone", (), "without a name behind it")):
        script.session(f"granted-{name}", f"DEVICE-TYPE IS {says} is answered by a request for functions", *DEVICE, sub(ENHANCED, [2, 4], "IBM-3278-2-E", *parts), paper={"terminal": [*ASKED, WANTS]})
    script.session("granted-lower", "DEVICE-TYPE IS with the name in lower case is our device", *DEVICE, sub(ENHANCED, [2, 4], "ibm-3278-2-e", [1], "LU1"), paper={"terminal": [*ASKED, WANTS]})
    script.of("The terminal", "own")
    script.session("granted-other", "DEVICE-TYPE IS with another device ends the session", *DEVICE, sub(ENHANCED, [2, 4], "IBM-3278-3", [1], "LU1"), paper={"terminal": [*ASKED, ""], "ends": "N3"})
    script.session("granted-associate", "DEVICE-TYPE IS with ASSOCIATE ends the session", *DEVICE, sub(ENHANCED, [2, 4], "IBM-3278-2-E", [0], "LU1"), paper={"terminal": [*ASKED, ""], "ends": "N3"})
    for reason in range(8):
        script.session(f"rejected-{reason:02X}", f"DEVICE-TYPE REJECT with the reason {reason:02X} ends the session", *DEVICE, sub(ENHANCED, [2, 6, 5, reason]), paper={"terminal": [*ASKED, ""], "ends": "N1"})
    script.session("device-unasked", "SEND DEVICE-TYPE without TN3270E ends the session", SEND_DEVICE, paper={"terminal": [""], "ends": "N3"})
    script.session("granted-unasked", "DEVICE-TYPE IS that nobody asked for ends the session", verb(DO, ENHANCED), sub(ENHANCED, [2, 4], "IBM-3278-2-E"), paper={"terminal": [ASKED[0], ""], "ends": "N3"})
    script.session("type-unasked", "TERMINAL-TYPE SEND without that option ends the session", SEND_TYPE, paper={"terminal": [""], "ends": "N3"})


def functions(script):
    script.of("The terminal", "RFC 2355, section 7.2")
    agreed = [*ASKED, WANTS]
    script.session("functions-is", "FUNCTIONS IS of what was asked for makes the session ready", *READY, bytes.fromhex("0000000000F5C2FFEF"), paper={"terminal": [*agreed, "", "00000000007D4040FFEF"]})
    script.session("functions-none", "FUNCTIONS REQUEST of none is granted", *GRANTED, sub(ENHANCED, [3, 7]), bytes.fromhex("0000000000F5C2FFEF"), paper={"terminal": [*agreed, hexed(sub(ENHANCED, [3, 4])), "00000000007D4040FFEF"]})
    script.session("functions-responses", "FUNCTIONS REQUEST of RESPONSES is granted", *GRANTED, sub(ENHANCED, [3, 7, 2]), paper={"terminal": [*agreed, hexed(sub(ENHANCED, [3, 4, 2]))]})
    for codes in ([0], [4], [0, 2], [2, 4], [1, 2, 3]):
        part = [it for it in codes if it == 2]
        script.session("functions-" + "".join(f"{it:02X}" for it in codes), f"FUNCTIONS REQUEST of {' '.join(f'{it:02X}' for it in codes)} is answered by a request for its supported part", *GRANTED, sub(ENHANCED, [3, 7, *codes]),
                       source="own", paper={"terminal": [*agreed, hexed(sub(ENHANCED, [3, 7, *part]))]})
    script.of("The terminal", "own")
    for codes in ([], [0], [2, 4], [0, 2]):
        script.session("functions-is-" + "".join(f"{it:02X}" for it in codes), f"FUNCTIONS IS of {' '.join(f'{it:02X}' for it in codes) or 'none'}, where RESPONSES was asked for, ends the session", *GRANTED, sub(ENHANCED, [3, 4, *codes]),
                       paper={"terminal": [*agreed, ""], "ends": "N2"})
    script.session("functions-early", "FUNCTIONS REQUEST before a device ends the session", *DEVICE, sub(ENHANCED, [3, 7, 2]), paper={"terminal": [*ASKED, ""], "ends": "N3"})


def faults(script):
    script.of("Refusals of a session", "own")
    script.session("record-early", "a record before a session is ready ends it", verb(DO, ENHANCED), bytes.fromhex("0000000000F5C2FFEF"), paper={"terminal": [ASKED[0], ""], "ends": "N5"})
    for option in (BINARY, END_OF_RECORD):
        for kind in (DONT, WONT):
            on = verb(DO, option) + verb(WILL, option)
            script.session(f"ended-{VERBS[kind].lower()}-{option:02X}", f"{VERBS[kind]} {NAMES[option]} where that option is on ends the session", on, verb(kind, option),
                           paper={"terminal": [hexed(verb(WILL, option) + verb(DO, option)), ""], "ends": "N4"})
    script.session("ended-tn3270e", "DONT TN3270E in a session that is ready with it ends the session", *READY, verb(DONT, ENHANCED), paper={"terminal": [*ASKED, WANTS, "", ""], "ends": "N4"})
    script.session("device-late", "SEND DEVICE-TYPE in a session that is ready ends it", *READY, SEND_DEVICE, paper={"terminal": [*ASKED, WANTS, "", ""], "ends": "N3"})
    script.session("functions-late", "FUNCTIONS REQUEST in a session that is ready ends it", *READY, sub(ENHANCED, [3, 7, 2]), paper={"terminal": [*ASKED, WANTS, "", ""], "ends": "N3"})
    script.of("Limits and refusals", "own")
    script.session("sub-bad", "FF and neither FF nor F0 inside a subnegotiation ends the session", verb(DO, ENHANCED), bytes.fromhex("FFFA2808FF02FFF0"), paper={"terminal": [ASKED[0], ""], "ends": "W3"})
    script.session("sub-empty", "a subnegotiation without an option ends the session", bytes.fromhex("FFFAFFF0"), paper={"terminal": [""], "ends": "W3"})
    script.session("sub-long", "a subnegotiation of more than 256 bytes behind its option ends the session", bytes.fromhex("FFFA63") + bytes(257) + bytes.fromhex("FFF0"), paper={"terminal": [""], "ends": "W2"})
    script.of("Tokens of a stream", "RFC 855")
    script.session("sub-other", "a subnegotiation of another option is passed over", sub(0x63, [1, 2, 3]), paper={"terminal": [""]})
    script.session("sub-256", "a subnegotiation of 256 bytes behind its option is taken", bytes.fromhex("FFFA63") + bytes(256) + bytes.fromhex("FFF0"), paper={"terminal": [""]})
    for byte, name in ((0xF1, "No Operation"), (0xF9, "Go Ahead"), (0xF6, "Are You There")):
        script.session(f"passed-{byte:02X}", f"the Telnet command {name} is passed over", bytes([IAC, byte]), source="own", paper={"terminal": [""]})
