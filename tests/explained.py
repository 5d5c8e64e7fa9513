"""Tries what the golden cases of `check --explain` tell to add, on a built program: explained.py PROGRAM.

The orders of a line `write: ` are added to the last record, and the lines below `add:` to the layout; then the finding above them
isn't found any more. The last line is 'N passed, M failed'.
"""
import pathlib
import subprocess
import sys
import tempfile

CASES = pathlib.Path(__file__).parent / "cases" / "check_explain"


def findings_in(text):
    """Each finding's line, and the lines under it."""
    found = []
    for line in text.splitlines():
        if not line.startswith(" "):
            found.append((line, []))
        else:
            found[-1][1].append(line)
    return found


def additions(lines):
    """What lines under a finding tell to add: a text for the layout, or orders for the records."""
    for at, line in enumerate(lines):
        if line == "  add:":
            yield "\n".join(it.strip() for it in lines[at + 1:] if it.startswith("    ")) + "\n", ""
        elif line.startswith("  write: "):
            yield "", line.removeprefix("  write: ")


def told_now(program, layout, records, entry, orders):
    """What is found once these are added, each by its words up to the keys."""
    with tempfile.NamedTemporaryFile("w", suffix=".toml") as file:
        file.write(layout + "\n" + entry)
        file.flush()
        ran = subprocess.run([program, "check", file.name], input=records.rstrip() + orders + "\n", capture_output=True, text=True)
    return [line.split(", keys")[0] for line in ran.stdout.splitlines()]


passed, failed = 0, 0
for case in sorted(CASES.iterdir()):
    words = [sys.argv[1], *(case / "args").read_text().split()]
    records = (case / "stdin").read_text() if (case / "stdin").exists() else ""
    text = subprocess.run(words, input=records, capture_output=True, text=True, cwd=case).stdout
    for finding, lines in findings_in(text):
        for entry, orders in additions(lines):
            layout = (case / "layout.toml").read_text()
            now = told_now(sys.argv[1], layout, records, entry, orders)
            is_gone = bool(now) and not now[0].startswith(("layout", "line")) and finding.split(", keys")[0] not in now
            passed, failed = passed + is_gone, failed + (not is_gone)
            if not is_gone:
                print(f"{case.name}: {finding} stays: {now}")
print(f"{passed} passed, {failed} failed")
sys.exit(failed != 0)
