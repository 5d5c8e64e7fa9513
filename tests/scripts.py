#!/usr/bin/env python3
"""Drives `script` as test tools do, over loopback: scripts.py PROGRAM [NAME..]; with `--s3270` for PROGRAM s3270 itself is driven.

The cases of scripts/ were recorded from s3270 4.1: NAME.script has the lines that are sent (`%sleep S` waits; the first may be `%host`,
the host on the command line, `%raw`, all lines at once, and `%crlf`; the last `%end`, no line end), NAME.host what the host serves, NAME.out
what is answered, with the port and the time masked, and NAME.sent what is sent to the host, without headers. Those of scripts/ours
are what is answered otherwise, each with its reason in DIFFERENCES below: s3270 has to fail them. Then come a client in the manner of
py3270, long scripts and lines, hosts that close after each of their bytes, scripts side by side, an output that is closed, files that
are written, screens that are judged, by `Check` and at each key (script_judges.py), and hostile lines (script_hostile.py). The last line is 'N passed, M failed'.
"""
import os
import re
import subprocess
import sys
import tempfile
import time
from concurrent.futures import ThreadPoolExecutor
from dataclasses import dataclass
from functools import partial
from typing import Callable, Iterator

from script_drive import Driver, Fault, Program, want
from script_hostile import hostile_lines
from script_hosts import ITEMS, MENU, SIGNON, WRONG, Host, serve
from script_judges import FLAWED, MENU_LAYOUT, SIGNON_LAYOUT, WIDE_LAYOUT, full_report, judged_forms, judged_text, judged_yes, refused_layouts, told_by
from script_words import ROWS, wrapped_as

CASES = os.path.join(os.path.dirname(os.path.abspath(__file__)), "scripts")
REFERENCE = ["s3270", "-model", "3278-2", "-utf8", "-codepage", "cp037"]
STATUS = re.compile(r"^([ULE] [FU] [PU] \S+ \S \d+ \d+ \d+ \d+ \d+ \S+) (\d+\.\d+|-)$")

# The cases of scripts/ours: what is answered otherwise than s3270 4.1 answers, and why.
DIFFERENCES = {
    "after-quit": "nothing is answered after Quit; there it is a race",
    "alternate-characters": "characters of the alternate set are `?`; there they are boxes of the code page",
    "blank-lines": "blank lines and comments are answered; there they end the process",
    "delete-in-a-row": "Delete moves the rest of the field in the cursor's row; there over rows",
    "enter-always-waits": "a key that sends always waits; there Set(aidWait,false) lets lines go on",
    "erase-on-an-attribute": "an error is said once; there twice",
    "error-without-margin": "after an error the cursor stays; there it goes to the margin",
    "field-round-the-end": "Home goes to the first open cell; there to the begin of its field",
    "first-screen-locked": "a first screen that doesn't free the keyboard leaves it locked; there it is free",
    "pf-past-the-last": "PF keys past 24 are said; there the process hangs",
    "refused": "the cause is said as data; there as a line of memory",
    "snap-wait": "Snap(Wait) is a fault; there it ends the process when output comes",
    "unknown-actions": "what runs commands, moves files or isn't of the profile is unknown",
    "whole-names": "names and words are whole; there their begins do",
}


# ---- the recorded cases


def masked(text: str, port: int) -> str:
    named = re.sub(rf"(:|host 127\.0\.0\.1 |port ){port}\b", r"\1PORT", text)
    return "\n".join(STATUS.sub(r"\1 T", line) for line in named.split("\n"))


def read_case(name: str, suffix: str) -> str:
    path = os.path.join(CASES, name + suffix)
    with open(path, encoding="utf8", errors="surrogateescape", newline="") as file:
        return file.read()


@dataclass
class Script:
    """The lines of a case, and how they are sent."""

    lines: list[str]
    marks: set[str]

    def text(self, address: str) -> bytes:
        end = "\r\n" if "%crlf" in self.marks else "\n"
        joined = "".join(line + end for line in self.lines)
        if "%end" in self.marks:
            joined = joined[:-len(end)]
        return encoded(joined, address)


def encoded(text: str, address: str) -> bytes:
    return text.replace("{HOST}", address).encode("utf8", "surrogateescape")


def script_of(text: str) -> Script:
    lines = text.split("\n")
    if lines[-1] == "":
        lines.pop()
    marks = set()
    while lines and lines[0] in ("%host", "%raw", "%crlf"):
        marks.add(lines.pop(0))
    if lines and lines[-1] == "%end":
        marks.add(lines.pop())
    return Script(lines, marks)


def drive(driver: Driver, script: Script, address: str) -> bytes:
    """Sends the lines in turn, each once the one before is answered."""
    end = b"\r\n" if "%crlf" in script.marks else b"\n"
    out = b""
    for line in script.lines:
        if line.startswith("%sleep "):
            time.sleep(float(line[7:]))
            continue
        if not driver.write(encoded(line, address) + end):
            return out + b"<closed>\n"
        out += driver.answer()
        if out.endswith(b">\n"):
            break
    return out


def play(program: Program, name: str) -> tuple[str, str, int | None]:
    """What a case answers and sends, and its status."""
    host = serve(read_case(name, ".host"))
    script = script_of(read_case(name, ".script"))
    driver = Driver(program, [host.address] if "%host" in script.marks else [])
    if "%raw" in script.marks:
        driver.write(script.text(host.address))
        out = b""
    else:
        out = drive(driver, script, host.address)
    more, status = driver.end()
    host.join(1)
    said = masked((out + more).decode("utf8", "backslashreplace"), host.port)
    return said, "".join(answer.hex().upper() + "\n" for answer in host.answers), status


def difference(program: Program, name: str) -> None:
    """A case of ours, which s3270 has to fail."""
    if program.is_ours:
        replay(program, name)
        return
    try:
        replay(program, name)
    except Fault:
        return
    raise Fault("s3270 answers the same")


def first_difference(expected: str, had: str) -> str:
    ours, theirs = had.split("\n"), expected.split("\n")
    for number, (one, other) in enumerate(zip(ours + [""], theirs + [""]), 1):
        if one != other:
            return f"line {number} is {one!r}, not {other!r}"
    return f"{len(ours)} lines, not {len(theirs)}"


def want_case(name: str, said: str, sent: str) -> None:
    for suffix, had in ((".out", said), (".sent", sent)):
        expected = read_case(name, suffix)
        want(had == expected, f"{name}{suffix}: {first_difference(expected, had)}")


def replay(program: Program, name: str) -> None:
    said, sent, status = play(program, name)
    want_case(name, said, sent)
    want(status == 0, f"{name}: its status is {status}")


def replay_judged(program: Program, folder: str, name: str) -> None:
    """A case whose screens are judged: the tool and the host see none of it, whatever is found."""
    said, sent, status = play(Program(program.words + ["--layouts", folder], True), name)
    want_case(name, said, sent)
    want(status in (0, 1), f"{name}: its status is {status}")


# ---- a client in the manner of py3270


class Refused(Exception):
    """An answer that ends with `error`, with its data put together."""


class Client:
    """Sends what py3270 and Robot Framework's library send, and reads of the answers what they read."""

    def __init__(self, driver: Driver, seconds: int = 5) -> None:
        self.driver, self.seconds = driver, seconds
        self.status: list[str] = []

    def do(self, line: str) -> list[str]:
        data, self.status, last = self.driver.ask(line)
        want(len(self.status) == 12, f"{line}: {len(self.status)} words in the status line")
        if last != "ok":
            raise Refused("".join(data))
        return data

    def is_connected(self) -> bool:
        self.do("Query(ConnectionState)")
        return self.status[3].startswith("C(")

    def wait_for_field(self) -> None:
        self.do(f"Wait({self.seconds}, InputField)")
        want(self.status[0] == "U", "the keyboard is locked after Wait")

    def move_to(self, row: int, column: int) -> None:
        self.do(f"MoveCursor({row - 1}, {column - 1})")

    def fill(self, row: int, column: int, text: str) -> None:
        self.move_to(row, column)
        self.do("DeleteField")
        quoted = text.replace('"', '\\"')
        self.do(f'String("{quoted}")')

    def get(self, row: int, column: int, length: int) -> str:
        data = self.do(f"Ascii({row - 1},{column - 1},{length})")
        want(len(data) == 1, f"{len(data)} lines of one row")
        return data[0]

    def has(self, text: str) -> bool:
        return any(text in self.get(row, 1, 80) for row in range(1, 25))

    def sees(self, text: str) -> bool:
        """Reads again and again, without a Wait, as `Wait Until String` does."""
        stop = time.time() + self.seconds
        while time.time() < stop:
            if self.has(text):
                return True
            time.sleep(0.1)
        return False

    def fails(self, line: str, words: str) -> None:
        try:
            self.do(line)
        except Refused as refused:
            want(words in str(refused), f"{line}: {refused}")
        else:
            raise Fault(f"{line}: no error")


SHOWN = f"""{SIGNON}
turn
{WRONG}
turn
{MENU}
turn
pause 300
{ITEMS}
pause 700
{MENU}
turn
{SIGNON}
turn
{MENU}
close
"""


def client_signs_on(client: Client) -> None:
    client.wait_for_field()
    want(client.status[:3] == ["U", "F", "U"] and client.status[4:10] == ["I", "2", "24", "80", "3", "19"], f"status {client.status}")
    want(client.get(1, 31, 7) == "SIGN ON", "no title")
    client.move_to(4, 20)
    client.do('String("BAD")')
    client.do("Enter")
    want(client.get(24, 2, 5) == "WRONG" and client.get(4, 20, 8) == "BAD     ", "no message over what was typed")
    client.fill(4, 20, "ANNA")
    client.fill(5, 20, 'SE"C')
    want(client.get(4, 20, 8) == "ANNA    " and client.get(5, 20, 8) == " " * 8, "not typed, or a password that is shown")
    client.move_to(1, 1)
    client.fails('String("X")', "Keyboard locked")
    want(client.status[0] == "L", "no lock after an error")
    client.do("Reset")
    want(client.status[0] == "U", "locked after Reset")
    client.move_to(4, 20)
    client.do("Enter")


def client_walks(client: Client) -> None:
    client.wait_for_field()
    want(client.has("1 LIST"), "no menu")
    want([len(line) for line in client.do("Ascii()")] == [80] * 24, "Ascii() isn't 24 lines of 80")
    client.do('String("1")')
    client.do("PF(8)")
    want(client.get(1, 2, 5) == "ITEMS", "no list after PF8")
    want(client.sees("1 LIST"), "a later record isn't seen by reading")
    client.fails("Nonsense()", "Unknown action: Nonsense")
    client.fails("PF(25)", "PF(): Invalid argument '25'")
    client.fails("Wait(0.3,Disconnect)", "Timed out")
    client.do("Clear")
    client.wait_for_field()
    want(client.get(1, 31, 7) == "SIGN ON", "no screen after Clear")
    with tempfile.TemporaryDirectory() as folder:
        path = os.path.join(folder, "screen.html")
        client.do(f"PrintText(html,file,{path})")
        with open(path, encoding="utf8") as file:
            page = file.read()
        want("<html" in page.lower() and "USERID" in page, "no page")
    client.do("PA(1)")
    want(client.has("MENU"), "no menu after PA1")
    client.do("Wait(5,Disconnect)")
    want(not client.is_connected() and client.has("MENU"), "connected still, or the screen is gone")
    client.fails("String(X)", "Canceled")


def as_py3270_does(program: Program) -> None:
    host = serve(SHOWN)
    driver = Driver(program)
    client = Client(driver)
    want(not client.is_connected(), "connected at first")
    client.do(f"Connect({host.address})")
    want(client.is_connected(), "not connected")
    client.fails(f"Connect({host.address})", "Already connected")
    client_signs_on(client)
    client_walks(client)
    client.do("Quit")
    want(driver.end() == (b"", 0), "more after Quit, or another status")
    host.join(2)
    expected = ["7DC4C611C4C3C2C1C4", "7DC4C311C4C3C1D5D5C111C5D3E2C57FC3", "F8C26B11C26AF1", "6D", "6C"]
    want([answer.hex().upper() for answer in host.answers] == expected, f"sent {host.answers!r}")


# ---- long scripts and lines


def answers_in(out: bytes) -> tuple[int, int]:
    """How many answers are good, and how many are errors."""
    lines = out.split(b"\n")
    return lines.count(b"ok"), lines.count(b"error")


def long_script(program: Program) -> None:
    """A script of 100,000 lines, each of which is answered once."""
    host = serve(SIGNON)
    lines = [f"Connect({host.address})"] + ["Query(Cursor)", "Tab"] * 49_999 + ["Quit"]
    driver = Driver(program)
    with ThreadPoolExecutor(1) as writer:
        writing = writer.submit(driver.write, "".join(line + "\n" for line in lines).encode())
        out = driver.rest(60)
        writing.result()
    want(answers_in(out) == (100_000, 0), f"{answers_in(out)} answers")
    want(out.count(b"data: 3 19\n") == 25_000 and out.count(b"data: 4 19\n") == 24_999, "another cursor")
    want(driver.end() == (b"", 0), "more after Quit, or another status")


def padded(line: str, length: int) -> str:
    return line + " " * (length - len(line))


def long_lines(program: Program) -> None:
    """A line of 65,536 bytes is taken, and of the next longer one only its end is looked for."""
    driver = Driver(program)
    data, _status, last = driver.ask(padded("Query(Cursor)", 65_536))
    want((data, last) == (["0 0"], "ok"), f"65,536 bytes: {data} {last}")
    data, _status, last = driver.ask(padded("Query(Cursor)", 65_537))
    want((data, last) == (["line too long"], "error"), f"65,537 bytes: {data} {last}")
    data, _status, last = driver.ask(padded("Query(Cursor)", 1_000_000))
    want((data, last) == (["line too long"], "error"), f"1,000,000 bytes: {data} {last}")
    data, _status, last = driver.ask("Query(Cursor)")
    want((data, last) == (["0 0"], "ok"), f"the line after: {data} {last}")
    want(driver.end() == (b"", 0), "more at the end, or another status")


# ---- hosts that close


PIECES = ["Query(ConnectionState)", "Ascii(0,0,8)", 'String("A")', "Enter", "Query(ConnectionState)", "Ascii(0,0,8)", "Reset", "Quit"]


def closed_after(program: Program, most: int) -> tuple[bool, int]:
    """Whether a session whose host closes after so many bytes came to a screen, and how many bytes it sent."""
    host = serve(SIGNON + "\nturn\n" + MENU + "\n", most)
    driver = Driver(program)
    _data, _status, last = driver.ask(f"Connect({host.address})")
    for line in PIECES:
        driver.ask(line)
    said, status = driver.end()
    want((said, status) == (b"", 0), f"after {most} bytes: {said!r}, status {status}")
    return last == "ok", host.sent_bytes


def closing_hosts(program: Program) -> None:
    """However much of its bytes the host sends before it closes, each line has one answer, and the process ends."""
    _is_shown, whole = closed_after(program, 1_000_000)
    with ThreadPoolExecutor(16) as at_once:
        shown = list(at_once.map(lambda most: closed_after(program, most)[0], range(whole + 1)))
    want(not shown[0] and shown[-1] and shown == sorted(shown), "Connect is done where no whole record came, or the other way round")


# ---- side by side


def one_of_many(program: Program, number: int) -> None:
    host = serve(SIGNON + "\nturn\n" + MENU + "\n")
    driver = Driver(program)
    user = f"U{number:04}"
    for line in (f"Connect({host.address})", f"String({user})", "Enter"):
        _data, _status, last = driver.ask(line)
        want(last == "ok", f"{user}: {line} is {last}")
    data, status, _last = driver.ask("Ascii(0,1,4)")
    want(data == ["MENU"] and status[3] == "C(127.0.0.1)", f"{user}: {data} {status}")
    driver.ask("Quit")
    driver.end()
    host.join(2)
    expected = b"\x7d\xc4\xc8\x11\xc4\xc3" + user.encode("cp037")
    want(host.answers == [expected], f"{user}: sent {host.answers!r}")


def side_by_side(program: Program) -> None:
    """50 scripts at once, each with its own host."""
    with ThreadPoolExecutor(50) as at_once:
        for done in [at_once.submit(one_of_many, program, number) for number in range(50)]:
            done.result()


def closed_output(program: Program) -> None:
    """Where no one reads its output any more, it ends, and tells so by its status."""
    driver = Driver(program)
    assert driver.process.stdout is not None
    driver.process.stdout.close()
    driver.write(b"Query(Cursor)\n" * 10_000)
    driver.close_input()
    try:
        status: int | None = driver.process.wait(10)
    except subprocess.TimeoutExpired:
        driver.process.kill()
        driver.process.wait()
        status = None
    want(status is not None, "it does not end")
    want(status == 3 or not program.is_ours, f"its status is {status}")


# ---- files, and screens that are judged


def write_file(folder: str, name: str, text: str) -> str:
    path = os.path.join(folder, name)
    with open(path, "w", encoding="utf8") as file:
        file.write(text)
    return path


def read_file(path: str) -> str:
    with open(path, encoding="utf8") as file:
        return file.read()


def connected(program: Program, text: str, more: list[str] | None = None) -> tuple[Host, Driver]:
    host = serve(text)
    driver = Driver(program, more)
    _data, _status, last = driver.ask(f"Connect({host.address})")
    want(last == "ok", "Connect is at fault")
    return host, driver


def pages(program: Program) -> None:
    """PrintText writes a page of the screen's rows, under either of its forms, and says why a file can't be written."""
    _host, driver = connected(program, SIGNON)
    with tempfile.TemporaryDirectory() as folder:
        for form in ("html,file,", "html,"):
            path = os.path.join(folder, "page.html")
            want(driver.ask(f"PrintText({form}{path})")[2] == "ok", f"PrintText({form}..) is at fault")
            page = read_file(path)
            rows, _status, _last = driver.ask("Ascii()")
            want(len(rows) == 24 and set(rows) <= set(page.splitlines()), "a page without the rows that Ascii says")
            want("USERID" in page, "a page without a label")
        data, _status, last = driver.ask(f"PrintText(html,file,{folder}/none/page.html)")
        want(last == "error" and len(data) == 1 and "No such file or directory" in data[0], f"a file in no folder: {data} {last}")
    want(driver.end() == (b"", 0), "more at the end, or another status")


def checks(program: Program) -> None:
    """Check says what `check` says of one turn, and `talk` of several."""
    host, driver = connected(program, f"{FLAWED}\nturn\n{SIGNON}\nturn\n{WRONG}\n")
    with tempfile.TemporaryDirectory() as folder:
        signon = write_file(folder, "signon.toml", SIGNON_LAYOUT)
        menu = write_file(folder, "menu.toml", MENU_LAYOUT)
        bad = write_file(folder, "bad.toml", "[[field]")
        wide = write_file(folder, "wide.toml", WIDE_LAYOUT)
        flawed = told_by(program, ["check", signon], FLAWED)
        want(len(flawed) == 1 and flawed[0].startswith("F11 userid length 69"), f"check says {flawed}")
        want(driver.ask(f"Check({signon})")[::2] == (flawed, "error"), "another answer than that of check to a field without end")
        want(driver.ask("Enter")[2] == "ok", "Enter is at fault")
        for path in (signon, menu):
            told = told_by(program, ["check", path], SIGNON)
            want(driver.ask(f"Check({path})")[::2] == (told, "ok" if told == ["yes"] else "error"), f"another answer than that of check to {path}")
        want(driver.ask("String(ANNA) Enter")[2] == "ok", "Enter is at fault")
        told = told_by(program, ["talk", signon, signon], f"{SIGNON}\nturn\n{WRONG}\n")
        want(driver.ask(f"Check({signon})")[::2] == (told, "ok" if told == ["yes"] else "error"), f"another answer than that of talk, {told}")
        refused = [
            ("Check()", "Check() requires 1 argument"),
            (f"Check({folder}/none.toml)", f"Check(): {folder}/none.toml: No such file or directory"),
            (f"Check({bad})", "Check(): layout refused: L1 NotToml"),
            (f"Check({wide})", "Check(): no device of these sizes"),
        ]
        for line, words in refused:
            want(driver.ask(line)[::2] == ([words], "error"), f"{line}: not {words}")
    want(driver.end() == (b"", 0), "more at the end, or another status")
    host.join(2)


def check_of_nothing(program: Program) -> None:
    driver = Driver(program)
    with tempfile.TemporaryDirectory() as folder:
        signon = write_file(folder, "signon.toml", SIGNON_LAYOUT)
        want(driver.ask(f"Check({signon})")[::2] == (["F2 no record"], "error"), "a check of no record")
    want(driver.end() == (b"", 0), "more at the end, or another status")


def cases_judged(program: Program) -> None:
    """Each case again, with layouts: the answers and what is sent are those of a run without."""
    with tempfile.TemporaryDirectory() as folder, ThreadPoolExecutor(8) as at_once:
        write_file(folder, "signon.toml", SIGNON_LAYOUT)
        write_file(folder, "menu.toml", MENU_LAYOUT)
        for done in [at_once.submit(replay_judged, program, folder, name) for name in case_names()]:
            done.result()


# ---- names of logical units

# What DEVICE-TYPE IS has after the device's name, and what is told of it.
GRANTS: list[tuple[bytes, str]] = [
    (b"\x01TERM3270", "TERM3270"),
    (b"\x01lower", "lower"),
    (b"\x01A B", "A B"),
    (b"\x01", ""),
    (b"", ""),
    (b"\x01" + b"ABCDEFGHIJ" * 5, "ABCDEFGHIJABCDEFGHIJABCDEFGHIJAB"),
]
HOSTILE_GRANTS: list[tuple[bytes, str]] = [
    (b"\x01A\nB\x07C\x7f\xc1\xff\xffz", "A?B?C???z"),
    (b"\x01AB\x01CD", "AB?CD"),
]


def lu_names(program: Program) -> None:
    """The name that the host granted is told, and none in a classic session, where it granted none, and once it is gone."""
    for granted, told in GRANTS + (HOSTILE_GRANTS if program.is_ours else []):
        host = serve(SIGNON, granted=granted)
        driver = Driver(program)
        want(driver.ask("Query(LuName)")[0] == [""], "a name before a connection")
        driver.ask(f"Connect({host.address})")
        want(driver.ask("Query(LuName)")[0] == [told], f"after {granted!r}: not {told}")
        driver.ask("Disconnect")
        want(driver.ask("Query(LuName)")[0] == [""], "a name after the connection")
        driver.end()
    _host, driver = connected(program, "classic\n" + SIGNON)
    want(driver.ask("Query(LuName)")[0] == [""], "a name in a classic session")
    driver.end()


# ---- the words of tools


def wrapper(_program: Program) -> None:
    """The words by which tools call s3270 become those of the program."""
    for call, expected, said in ROWS:
        fault = wrapped_as(call, expected, said)
        want(fault is None, f"{fault}")


# ---- all of them


OTHERS: list[tuple[str, Callable[[Program], None], bool]] = [
    ("client", as_py3270_does, False),
    ("long-script", long_script, False),
    ("long-lines", long_lines, True),
    ("closing-hosts", closing_hosts, False),
    ("side-by-side", side_by_side, False),
    ("closed-output", closed_output, False),
    ("lu-names", lu_names, False),
    ("wrapper", wrapper, False),
    ("pages", pages, True),
    ("cases-judged", cases_judged, True),
    ("checks", checks, True),
    ("check-of-nothing", check_of_nothing, True),
    ("hostile-lines", hostile_lines, True),
    ("judged-text", judged_text, True),
    ("judged-yes", judged_yes, True),
    ("judged-forms", judged_forms, True),
    ("refused-layouts", refused_layouts, True),
    ("full-report", full_report, True),
]


def case_names() -> list[str]:
    return sorted(name[:-7] for name in os.listdir(CASES) if name.endswith(".script"))


def tests_of(program: Program) -> Iterator[tuple[str, Callable[[], None]]]:
    """All tests of a program but those of OTHERS: they may run side by side."""
    for name in case_names():
        yield name, partial(replay, program, name)
    for name in DIFFERENCES:
        yield name, partial(difference, program, "ours/" + name)


def fault_of(test: Callable[[], None]) -> str | None:
    try:
        test()
    except (Fault, Refused, OSError, subprocess.SubprocessError, UnicodeDecodeError) as fault:
        return f"{type(fault).__name__}: {fault}"
    return None


def main(words: list[str]) -> int:
    if not words:
        print(__doc__, file=sys.stderr)
        return 2
    is_ours = words[0] != "--s3270"
    program = Program([words[0], "script", "--code-page", "037"] if is_ours else REFERENCE, is_ours)
    is_meant = words[1:].__contains__ if words[1:] else lambda _name: True
    others = [(name, partial(test, program)) for name, test, ours in OTHERS if (is_ours or not ours) and is_meant(name)]
    with ThreadPoolExecutor(8) as at_once:
        replayed = [(name, at_once.submit(fault_of, test)) for name, test in tests_of(program) if is_meant(name)]
        faults = [(name, done.result()) for name, done in replayed]
    faults += [(name, fault_of(test)) for name, test in others]
    failed = [(name, fault) for name, fault in faults if fault is not None]
    for name, fault in failed:
        print(f"{name}: {fault}")
    print(f"{len(faults) - len(failed)} passed, {len(failed)} failed")
    return 1 if failed else 0


if __name__ == "__main__":
    sys.exit(main(sys.argv[1:]))
