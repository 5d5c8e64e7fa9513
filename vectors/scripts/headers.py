"""Records of TN3270E: their headers, types, responses and sequence numbers."""

# Erase/Write, keyboard free, an empty screen: Enter sends 7D and the cursor at 0.
RESPONSES = bytes([2])
SCREEN, SHUT, ANSWER = "F5C2", "F5C0", "7D4040"


def record(header, body=SCREEN):
    return (bytes.fromhex(header) + bytes.fromhex(body)).replace(b"\xff", b"\xff\xff") + bytes.fromhex("FFEF")


def write(script):
    types(script)
    responses(script)
    numbers(script)


def after_ready(script, name, says, *records, replies, ends=None, keys=("enter",), source=None):
    script.session(name, says, *records, functions=RESPONSES, keys=keys, source=source, paper={"terminal": replies} | ({"ends": ends} if ends else {}))


def types(script):
    script.of("The header of a TN3270E record", "RFC 2355, section 8.1")
    for kind, name in ((1, "SCS-DATA"), (2, "RESPONSE"), (3, "BIND-IMAGE"), (4, "UNBIND"), (5, "NVT-DATA"), (6, "REQUEST"), (7, "SSCP-LU-DATA"), (8, "PRINT-EOJ")):
        after_ready(script, f"passed-{kind:02X}", f"a record of type {kind:02X}, {name}, is passed over, and the next one is taken", record(f"{kind:02X}00000000"), record("0000000001"),
                    replies=["", "0000000000" + ANSWER + "FFEF"], source="own")
    script.of("The header of a TN3270E record", "own")
    for kind in (0x09, 0x10, 0x7D, 0xF5, 0xFF):
        header = f"{kind:02X}" if kind != 0xFF else "FFFF"
        script.session(f"unknown-{kind:02X}", f"a record of type {kind:02X}, which is none, ends the session", bytes.fromhex(header + "00000000F5C2FFEF"), functions=RESPONSES, paper={"terminal": [""], "ends": "H2"})
    for length in range(5):
        script.session(f"short-{length}", f"a record of {length} bytes has no whole header, and ends the session", bytes.fromhex("00" * length + "FFEF"), functions=RESPONSES, paper={"terminal": [""], "ends": "H1"})
    script.session("no-data", "a header without data is a record without a byte: it is refused, and the session goes on", bytes.fromhex("0000000000FFEF"), record("0000000001"),
                   functions=b"", paper={"terminal": ["", "0000000000" + ANSWER + "FFEF"]})


def responses(script):
    script.of("a terminal responds", "RFC 2355, section 10.4")
    # RESPONSE, no flag, the record's number, and 00: the record was taken.
    for number in ("0000", "0001", "1234", "7FFF"):
        after_ready(script, f"always-{number}", f"a record {number} that always wants a response gets a positive one with its number, before its answer", record("000002" + number),
                    replies=["020000" + number.replace("FF", "FFFF") + "00FFEF" + "0000000000" + ANSWER + "FFEF"])
    after_ready(script, "always-shut", "a positive response comes also where the keyboard isn't freed", record("0000020005", SHUT), replies=["020000000500FFEF"])
    after_ready(script, "errors-good", "a record that wants a response to errors alone gets none where it is taken", record("0000010005"), replies=["0000000000" + ANSWER + "FFEF"])
    after_ready(script, "none-good", "a record that wants no response gets none", record("0000000005", SHUT), replies=[""])
    for flag in ("01", "02"):
        script.of("a terminal responds", "RFC 2355, section 10.4")
        says = "to errors alone" if flag == "01" else "always"
        after_ready(script, f"unknown-command-{flag}", f"a record with an unknown command that wants a response {says} gets COMMAND-REJECT", record(f"0000{flag}0007", "F4C2"), replies=["020001000700FFEF"])
        after_ready(script, f"structured-{flag}", f"a Write Structured Field that wants a response {says} gets COMMAND-REJECT", record(f"0000{flag}0007", "F3"), replies=["020001000700FFEF"])
        script.of("O1 Empty", "RFC 2355, section 10.4")
        after_ready(script, f"empty-{flag}", f"a record without a byte that wants a response {says} gets COMMAND-REJECT", record(f"0000{flag}0007", ""), replies=["020001000700FFEF"])
        script.of("a terminal responds", "RFC 2355, section 10.4")
        after_ready(script, f"bad-order-{flag}", f"a record with an unknown order that wants a response {says} gets OPERATION-CHECK", record(f"0000{flag}0007", "F5C201"), replies=["020001000702FFEF"])
        after_ready(script, f"outside-{flag}", f"a record with an address outside that wants a response {says} gets OPERATION-CHECK", record(f"0000{flag}0007", "F5C2115E40"), replies=["020001000702FFEF"])
        after_ready(script, f"cut-{flag}", f"a record with an order that is cut and that wants a response {says} gets OPERATION-CHECK", record(f"0000{flag}0007", "F5C21140"), replies=["020001000702FFEF"])
    after_ready(script, "refused-none", "a refused record that wants no response gets none", record("0000000007", "F5C201"), replies=[""])
    script.session("without-responses", "without RESPONSES no record gets a response", record("0000020005", SHUT), functions=b"", paper={"terminal": [""]})
    script.session("without-responses-bad", "without RESPONSES a refused record gets no response", record("0000020005", "F5C201"), functions=b"", paper={"terminal": [""]})


def numbers(script):
    script.of("answers", "RFC 2355, section 8.1")
    after_ready(script, "counted", "answers are numbered from 0 up", record("0000000000"), record("0000000001"), record("0000000002"), keys=("enter", "pf1", "pa1"),
                replies=["0000000000" + ANSWER + "FFEF", "0000000001F14040FFEF", "00000000026CFFEF"])
    script.session("not-counted", "without RESPONSES answers have the number 0", record("0000000000"), record("0000000000"), keys=["enter", "pf1", "pf2"],
                   functions=b"", paper={"terminal": ["0000000000" + ANSWER + "FFEF", "0000000000F14040FFEF"]})
    after_ready(script, "read", "the answer to a read is numbered as answers to keys are", record("0000000000", SHUT), record("0000000001", "F6"), record("0000000002", "F6"), replies=["", "0000000000604040FFEF", "0000000001604040FFEF"])
    after_ready(script, "read-response", "a read that always wants a response gets it before its answer", record("0000000000", SHUT), record("0000020001", "F6"), replies=["", "020000000100FFEF" + "0000000000604040FFEF"])
    after_ready(script, "no-operation", "No-operation that always wants a response gets a positive one and no answer", record("0000020004", "03"), replies=["020000000400FFEF"])
