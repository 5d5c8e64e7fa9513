"""Tests of `script --layouts`: each screen on which a key sends is judged, and neither the tool nor the host sees any of it."""
import json
import os
import subprocess
import tempfile
import xml.etree.ElementTree
from dataclasses import dataclass

from script_drive import Program, want
from script_hosts import ITEMS, MENU, SIGNON, WRONG, serve

FLAWED = SIGNON.replace("11C44B1DF0", "")
SIGNON_LAYOUT = """[[field]]
name = "userid"
row = 4
col = 20
length = 8

[[field]]
name = "password"
row = 5
col = 20
length = 8
"""
MENU_LAYOUT = """[[field]]
name = "option"
row = 3
col = 11
length = 2
"""
# It matches the sign-on screen too, with an entry less.
SMALLER_LAYOUT = SIGNON_LAYOUT.split("\n\n")[0] + "\n"
WIDE_LAYOUT = 'alternate = "27x132"\n' + SIGNON_LAYOUT
LAYOUTS = {"signon.toml": SIGNON_LAYOUT, "menu.toml": MENU_LAYOUT, "a-smaller.toml": SMALLER_LAYOUT}


@dataclass
class Ran:
    """What a run said to the tool and on standard error, its status, and what went to the host."""

    said: str
    told: list[str]
    status: int
    sent: list[bytes]


def write_files(folder: str, files: dict[str, str]) -> str:
    os.makedirs(folder, exist_ok=True)
    for name, text in files.items():
        with open(os.path.join(folder, name), "w", encoding="utf8") as file:
            file.write(text)
    return folder


def told_by(program: Program, command: list[str], text: str) -> list[str]:
    """The lines that another command of the program prints of a text."""
    done = subprocess.run([program.words[0], *command], input=text.encode(), capture_output=True, check=False)
    return done.stdout.decode().splitlines()


def run(program: Program, more: list[str], screens: list[str], lines: list[str]) -> Ran:
    """A script over a host that serves these screens, the next after each key that sends."""
    host = serve("\nturn\n".join(screens) + "\n")
    script = "".join(line + "\n" for line in [f"Connect({host.address})", *lines])
    done = subprocess.run([*program.words, *more], input=script.encode(), capture_output=True, timeout=20, check=False)
    host.join(2)
    said = done.stdout.decode().replace(f"{host.port}", "PORT")
    return Ran(said, done.stderr.decode().splitlines(), done.returncode, host.answers)


SCREENS = [SIGNON, WRONG, MENU, ITEMS, FLAWED, FLAWED, SIGNON, SIGNON]
LINES = ["String(ANNA)", "Enter", "PF(3)", "String(1) Enter", "PA(1)", "Enter", "Enter", "Clear", "Quit"]


def reported(program: Program, folder: str) -> list[str]:
    """What a text reports of those screens: the sign-on screen, the same after its message, the menu, a screen of no layout, and one that is
    flawed, once."""
    signon = os.path.join(folder, "signon.toml")
    talk = told_by(program, ["talk", signon, signon], f"{SIGNON}\nturn\n{WRONG}\n")
    menu = told_by(program, ["check", os.path.join(folder, "menu.toml")], MENU)
    flawed = told_by(program, ["check", signon], FLAWED)
    lines = ["screen 1 signon.toml yes"]
    lines += ["screen 2 signon.toml yes"] if talk == ["yes"] else ["screen 2 signon.toml no", *talk]
    lines += ["screen 3 menu.toml yes"] if menu == ["yes"] else ["screen 3 menu.toml no", *menu]
    want(flawed != ["yes"], "no finding where the field has no end")
    return lines + ["screen 4 none", "screen 5 signon.toml no", *flawed]


def judged_text(program: Program) -> None:
    """Each screen on which a key sends has its line on standard error, by the layout that it matches, once; the answers and the bytes to the
    host are those of a run without layouts."""
    with tempfile.TemporaryDirectory() as folder:
        layouts = write_files(os.path.join(folder, "layouts"), {**LAYOUTS, "notes.txt": "no layout", ".hidden.toml": "no layout"})
        plain = run(program, [], SCREENS, LINES)
        judged = run(program, ["--layouts", layouts], SCREENS, LINES)
        want((judged.said, judged.sent) == (plain.said, plain.sent), "other answers, or other bytes to the host, than without layouts")
        want(plain.status == 0 and plain.told == [], f"without layouts: status {plain.status}, {plain.told}")
        want(len(plain.sent) == 7, f"{len(plain.sent)} answers to the host")
        expected = reported(program, layouts)
        want(judged.told == expected, f"reported {judged.told}, not {expected}")
        want(judged.status == 1, f"its status is {judged.status}")


def judged_yes(program: Program) -> None:
    """Without a finding the status is 0; a key that doesn't send judges nothing."""
    with tempfile.TemporaryDirectory() as folder:
        layouts = write_files(folder, LAYOUTS)
        lines = ["Enter", "MoveCursor(0,0)", "Key(x)", "Enter", "Reset", "Disconnect", "Enter", "PF(1)"]
        judged = run(program, ["--layouts", layouts], [SIGNON, SIGNON], lines)
        want(judged.told == ["screen 1 signon.toml yes"], f"reported {judged.told}")
        want(judged.status == 0, f"its status is {judged.status}")
        alone = run(program, ["--layouts", write_files(os.path.join(folder, "none"), {})], [SIGNON, MENU], ["Enter", "Quit"])
        want((alone.told, alone.status) == (["screen 1 none"], 0), f"of no layouts: {alone.told}, status {alone.status}")


def judged_forms(program: Program) -> None:
    """The report goes to a file, also as objects of JSON and as a document of JUnit."""
    with tempfile.TemporaryDirectory() as folder:
        layouts = write_files(os.path.join(folder, "layouts"), LAYOUTS)
        report = os.path.join(folder, "report")
        lines = reported(program, layouts)
        for form in ("text", "json", "junit"):
            words = ["--layouts", layouts, "--report", report, "--report-format", form]
            judged = run(program, words, SCREENS, LINES)
            want((judged.told, judged.status) == ([], 1), f"{form}: {judged.told}, status {judged.status}")
            with open(report, encoding="utf8") as file:
                text = file.read()
            if form == "text":
                want(text.splitlines() == lines, f"another report than on standard error: {text!r}")
            elif form == "json":
                *cases, totals = [json.loads(line) for line in text.splitlines()]
                want(len(cases) == 4 and totals["screens"] == 4, f"{len(cases)} objects, {totals}")
                want(totals["no"] == len([line for line in lines if line.endswith(" no")]), f"the totals are {totals}")
            else:
                document = xml.etree.ElementTree.fromstring(text)
                want(len(document.findall(".//testcase")) == 4, "other than 4 test cases")
                want(len(document.findall(".//failure")) > 0, "no failure")


def refused_layouts(program: Program) -> None:
    """A layout that is refused, or is for another terminal, is named before a line is read, and so is what can't be read or written."""
    with tempfile.TemporaryDirectory() as folder:
        layouts = write_files(os.path.join(folder, "layouts"), {**LAYOUTS, "bad.toml": "[[field]", "wide.toml": WIDE_LAYOUT})
        refused = run(program, ["--layouts", layouts], [SIGNON], ["Enter"])
        expected = [f"term3270: {layouts}/bad.toml: layout refused: L1 NotToml", f"term3270: {layouts}/wide.toml: no device of these sizes"]
        want((refused.said, refused.told, refused.status) == ("", expected, 2), f"of refused layouts: {refused}")
        missing = run(program, ["--layouts", f"{folder}/none"], [SIGNON], ["Enter"])
        want(missing.status == 3 and missing.said == "" and f"{folder}/none" in missing.told[0], f"of no folder: {missing}")
        good = write_files(os.path.join(folder, "good"), LAYOUTS)
        nowhere = run(program, ["--layouts", good, "--report", f"{folder}/none/report"], [SIGNON], ["Enter"])
        want(nowhere.status == 3 and nowhere.said == "" and "none/report" in nowhere.told[0], f"of a report in no folder: {nowhere}")
        for words in (["--report", "report"], ["--report-format", "json"], ["--layouts", good, "--report-format", "sarif"]):
            wrong = run(program, words, [SIGNON], ["Enter"])
            want(wrong.status == 2 and wrong.said == "", f"{words}: {wrong}")


def full_report(program: Program) -> None:
    """A report that can't be written changes no answer, and is told by the status."""
    with tempfile.TemporaryDirectory() as folder:
        layouts = write_files(folder, LAYOUTS)
        plain = run(program, [], SCREENS, LINES)
        judged = run(program, ["--layouts", layouts, "--report", "/dev/full"], SCREENS, LINES)
        want((judged.said, judged.sent) == (plain.said, plain.sent), "other answers, or other bytes to the host")
        want(judged.status == 3, f"its status is {judged.status}")
