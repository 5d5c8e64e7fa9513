"""The package over the C library; what is expected was worked out on paper, or stands in the project's golden cases."""
import pathlib
import threading

import pytest

import takvorn
from takvorn.pytest_plugin import assert_conforms

EXAMPLES = pathlib.Path(__file__).parents[2] / "examples"
SIGNON = (EXAMPLES / "signon.hex").read_text()
LAYOUT = takvorn.Layout.read(EXAMPLES / "signon.toml")

# Erase/Write: NAME, protected, then an input of six cells with the cursor.
SMALL = bytes.fromhex("F5C31D60D5C1D4C51D401311404C1D60")


def test_a_screen_that_conforms():
    assert takvorn.check(LAYOUT, SIGNON) == []
    assert_conforms(SIGNON, LAYOUT)


def test_a_finding_has_its_places():
    (finding,) = takvorn.check(LAYOUT, SIGNON.replace("11C44B1DF0", ""))
    assert (finding.number, finding.name, finding.entry) == (11, "too-long", "userid")
    assert (finding.row, finding.column, finding.place) == (4, 20, 259)
    assert (finding.length, finding.declared) == (69, 8)
    assert finding.words == "F11 userid length 69, declared 8, keys: right 0, type 69"
    assert str(finding).endswith("by an attribute after 8 cells")


def test_what_is_sent_is_bytes():
    (finding,) = takvorn.check(LAYOUT, SIGNON.replace("1DF0E2C9", "1DF1E2C9"))
    assert finding.sends == bytes.fromhex("7DC4C311405EE2C9C7D540D6D5")


def test_raw_records_and_text_are_alike():
    assert takvorn.show(SMALL) == takvorn.show([SMALL]) == takvorn.show(SMALL.hex())


def test_a_screen():
    shown = takvorn.show(SMALL)
    assert (shown.rows, shown.columns, shown.cursor, shown.keyboard) == (24, 80, 6, "free")
    assert shown.text[0] == " NAME" + " " * 75
    assert [(it.place, it.length, it.protected) for it in shown.fields] == [(1, 4, True), (6, 6, False), (13, 1907, True)]
    assert shown.field_at(1, 7).length == 6
    with pytest.raises(KeyError):
        shown.field_at(1, 8)


def test_hidden_characters_are_not_shown():
    shown = takvorn.show(bytes.fromhex("F5C21D4CD7C11D60C1"))
    assert shown.text[0][:6] == "    A "
    assert shown.fields[0].characters == "PA"


def test_keys_are_pressed():
    assert takvorn.show(SMALL, "type C1\ntype C2\n").text[0][:9] == " NAME AB "
    done, sent = takvorn.press(SMALL, "type C1\nenter\n")
    assert done == takvorn.Pressed("done", cursor=7)
    assert sent == takvorn.Pressed("sent", sent=bytes.fromhex("7D40C71140C6C1"))


def test_answers_are_bound():
    answer, short = takvorn.bind(LAYOUT, [bytes.fromhex("7DC5D411C4C3E4E2F111C5D3E7"), bytes.fromhex("6D")])
    assert (answer.aid, answer.cursor) == (0x7D, 340)
    assert answer.text == {"userid": "US1", "password": "X"}
    assert answer.codes == {"userid": bytes.fromhex("E4E2F1"), "password": b"\xe7"}
    assert (short.aid, short.cursor, short.text) == (0x6D, None, {})


def test_a_draft_conforms():
    layout = takvorn.draft(SIGNON)
    assert 'name = "userid"' in layout
    assert takvorn.check(layout, SIGNON) == []


def test_a_dialogue():
    assert takvorn.talk([LAYOUT], [SIGNON]) == []
    assert takvorn.talk([LAYOUT, LAYOUT], [SIGNON, "F1C3C1\n"]) == ["turn 1", "F14 record 0 depends on the cursor"]


def test_orders_and_back():
    lines = takvorn.convert(SMALL)
    assert lines.startswith("EW C3\nSF 20\nTEXT D5C1D4C5\n")
    assert takvorn.convert_back(lines) == [SMALL]


def test_traces():
    assert takvorn.records((EXAMPLES / "session.trc").read_bytes()) == [bytes.fromhex("F5C21D60C11D40131140C61DF0")]


def test_maps():
    source = (EXAMPLES / "signon.bms").read_text()
    assert takvorn.check_map(source) == []
    (line,) = takvorn.check_map("".join(it for it in source.splitlines(True) if "POS=(4,28)" not in it))
    assert line == "SIGNON USERID line 8: F11 userid length 69, declared 8, keys: right 0, type 69"
    assert takvorn.check(takvorn.map_layout(source, "signon", freekb=True), takvorn.map_records(source, "signon", freekb=True)) == []


@pytest.mark.parametrize(
    ("call", "words", "places"),
    [
        (lambda: takvorn.show("XY\n"), "line 1 refused", {"line": 1}),
        (lambda: takvorn.show(b"\xf5\xc2\x11\x80\x40"), "record 0 refused at 2: O7 ReservedAddress", {"number": "O7", "record": 0, "byte": 2}),
        (lambda: takvorn.check("no layout", SMALL), "layout refused: L1 NotToml", {"number": "L1"}),
        (lambda: takvorn.bind(LAYOUT, b"\xff"), "answer 0 refused at 0: I2 UnknownAid", {"number": "I2", "byte": 0}),
    ],
)
def test_refusals(call, words, places):
    with pytest.raises(takvorn.Refused) as refused:
        call()
    assert refused.value.words == words
    for name, value in places.items():
        assert getattr(refused.value, name) == value


def test_the_fixture(screen):
    assert screen(SMALL).text[0].strip() == "NAME"


def test_a_terminal_is_kept():
    terminal = takvorn.Terminal()
    assert terminal.status == takvorn.Status(24, 80, 0, "waiting", 0x60)
    assert terminal.apply(SMALL) == takvorn.Effect("shown", alarm=False, restored=True)
    before = terminal.copy()
    assert terminal.press("type C1") == takvorn.Pressed("done", cursor=7)
    assert terminal != before
    assert terminal.press("enter") == takvorn.Pressed("sent", sent=bytes.fromhex("7D40C71140C6C1"))
    assert terminal.status == takvorn.Status(24, 80, 7, "waiting", 0x7D)
    assert terminal.screen.text[0][:9] == " NAME A  "
    assert (before.status.cursor, before.status.keyboard) == (6, "free")
    assert before.cells[:2] == (takvorn.Cell("attribute", 0x20), takvorn.Cell("character", 0xD5))
    assert takvorn.Terminal.of(before.state) == before
    assert before.press("type C1") == takvorn.Pressed("done", cursor=7)


def test_a_terminal_answers_reads():
    terminal = takvorn.Terminal(default=(2, 10), alternate=(2, 12))
    terminal.apply(bytes.fromhex("F5C21D40C113"))
    assert terminal.apply(bytes.fromhex("F6")) == takvorn.Effect("read modified", alarm=False, restored=False)
    assert terminal.answer() == bytes.fromhex("6040C2")
    assert terminal.buffer() == bytes.fromhex("6040C21D40C1") + bytes(18)
    terminal.apply(bytes.fromhex("7EC2"))
    assert (terminal.status.rows, terminal.status.columns, len(terminal.cells)) == (2, 12, 24)


def test_a_refused_record_leaves_a_terminal_as_it_was():
    terminal = takvorn.Terminal()
    terminal.apply(SMALL)
    before = terminal.state
    with pytest.raises(takvorn.Refused) as refused:
        terminal.apply(bytes.fromhex("F5C3C11D"))
    assert (refused.value.number, refused.value.byte, terminal.state) == ("O6", 3, before)
    with pytest.raises(takvorn.Refused) as refused:
        terminal.apply(bytes.fromhex("F1C3115E40"))
    assert (refused.value.number, refused.value.byte) == ("A1", 2)


def test_bytes_that_are_no_state():
    state = takvorn.Terminal().state
    for bytes_changed in (b"", state[1:], state + b"\0", b"\2" + state[1:], state[:-1] + b"\1"):
        with pytest.raises(ValueError):
            takvorn.Terminal.of(bytes_changed)
    for sizes in ((0, 80), (24, 1), (256, 80), (200, 200)):
        with pytest.raises(ValueError):
            takvorn.Terminal(sizes)
    with pytest.raises(ValueError):
        takvorn.Terminal().press("f1")


def test_a_terminal_is_checked():
    terminal = takvorn.Terminal()
    terminal.apply(bytes.fromhex("".join(SIGNON.split("\n")[1].split())))
    assert terminal.check(LAYOUT) == []
    terminal.apply(bytes.fromhex("F1C011C44B40"))
    (finding,) = terminal.check(LAYOUT)
    assert (finding.number, finding.length) == (11, 69)


def test_fields_of_a_terminal():
    terminal = takvorn.Terminal(default=(2, 10))
    assert terminal.fields == ()
    # Protected at 0 with two positions, unprotected at 3 with eight, protected, numeric and modified at 12 with seven.
    terminal.apply(bytes.fromhex("F5C31D60C1C21D401311404C1DF1"))
    assert terminal.fields == (takvorn.Span(0, 1, 2, 0x20), takvorn.Span(3, 4, 8, 0), takvorn.Span(12, 13, 7, 0x31))
    assert all(terminal.cells[it.attribute] == takvorn.Cell("attribute", it.bits) for it in terminal.fields)
    # A character that is typed into a field sets its modified data tag, which a copy of before has not.
    before = terminal.copy()
    terminal.press("type C1")
    assert [it.bits for it in terminal.fields] == [0x20, 0x01, 0x31]
    assert [it.bits for it in before.fields] == [0x20, 0, 0x31]
    # The field of an attribute at the last position begins at the first.
    terminal.apply(bytes.fromhex("F5C31140D31D40"))
    assert terminal.fields == (takvorn.Span(19, 0, 19, 0),)


def test_a_check_is_of_the_screen_as_it_stands():
    layout = 'default = "2x10"\n[[field]]\nname = "code"\nrow = 2\ncol = 9\nlength = 4\n'
    terminal = takvorn.Terminal(default=(2, 10))
    # An input from 18 over the end to 2, of five positions, and a protected field from 3 on.
    terminal.apply(bytes.fromhex("F5C21140D11D40131140C31D60"))
    (finding,) = terminal.check(layout)
    assert (finding.number, finding.length, finding.declared) == (11, 5, 4)
    before = terminal.state
    assert terminal.check(layout.replace("length = 4", "length = 5")) == []
    assert terminal.state == before
    with pytest.raises(takvorn.Refused):
        terminal.check("no layout")


def test_a_suite_of_a_folder(tmp_path):
    for name, text in (("good", SIGNON), ("flawed", SIGNON.replace("1DF0E2C9", "1DF1E2C9"))):
        (tmp_path / f"{name}.hex").write_text(text)
        (tmp_path / f"{name}.toml").write_bytes(LAYOUT.text)
    (tmp_path / "alone.hex").write_text(SIGNON)
    (tmp_path / ".hidden.hex").write_text(SIGNON)
    alone, flawed, good = takvorn.suite(tmp_path)
    assert (alone.name, alone.verdict) == (f"{tmp_path}/alone.hex", "refused")
    assert alone.refused.words == f"no {tmp_path}/alone.toml beside it"
    assert (flawed.name, flawed.verdict, [it.number for it in flawed.findings]) == (f"{tmp_path}/flawed", "no", [9])
    assert (good.name, good.verdict, good.findings) == (f"{tmp_path}/good", "yes", ())


def test_a_suite_of_named_screens():
    told = takvorn.suite([("one", LAYOUT, SIGNON), ("two", "no layout", SIGNON)])
    assert [(it.name, it.verdict) for it in told] == [("one", "yes"), ("two", "refused")]


# What a host says that speaks classic TN3270, up to its first record, and what a terminal says to it.
HOST = bytes.fromhex("FFFD18 FFFA1801FFF0 FFFD19 FFFB19 FFFD00 FFFB00") + SMALL + bytes.fromhex("FFEF")
REPLIES = bytes.fromhex("FFFB18 FFFA1800") + b"IBM-3278-2-E" + bytes.fromhex("FFF0 FFFB19 FFFD19 FFFB00 FFFD00")


def test_a_session():
    session = takvorn.Session()
    assert (session.agreed, session.takes_input) == (None, False)
    assert session.press("tab").did == "ignored"
    assert session.take(HOST) == REPLIES
    assert session.agreed == takvorn.Agreed(enhanced=False, responses=False, extended=True, model=2)
    assert session.takes_input
    assert session.press("type C1") == takvorn.Pressed("done", cursor=7)
    assert session.press("enter").sent == bytes.fromhex("7D40C71140C6C1FFEF")
    assert session.screen.text[0][:7] == " NAME A"
    assert session.screen.keyboard == "waiting"
    with pytest.raises(ValueError):
        session.press("no key")


def test_a_session_in_any_pieces():
    for length in range(1, 9):
        session = takvorn.Session(tolerant=False)
        assert b"".join(session.take(HOST[at : at + length]) for at in range(0, len(HOST), length)) == REPLIES
        terminal = takvorn.Terminal()
        terminal.apply(SMALL)
        assert session.terminal == terminal


def test_a_session_that_fails():
    session = takvorn.Session("IBM-3279-5", tolerant=False)
    with pytest.raises(takvorn.SessionFailed) as failed:
        session.take(bytes.fromhex("FFFD18 FFFA18FF41"))
    assert failed.value.fault == "W3"
    assert failed.value.due == REPLIES[:3]
    with pytest.raises(takvorn.SessionFailed):
        session.press("enter")
    with pytest.raises(ValueError):
        takvorn.Session("IBM-3278-9")


def test_a_session_goes_to_another_thread():
    session, told = takvorn.Session(), []
    other = threading.Thread(target=lambda: told.append(session.take(HOST[:9])))
    other.start()
    other.join()
    assert told[0] + session.take(HOST[9:]) == REPLIES


def test_threads_share_a_terminal():
    terminal = takvorn.Terminal()
    terminal.apply(SMALL)

    def press():
        for _ in range(300):
            terminal.press("tab")
            terminal.state

    threads = [threading.Thread(target=press) for _ in range(8)]
    for thread in threads:
        thread.start()
    for thread in threads:
        thread.join()
    assert terminal.status.cursor == 6
