"""Sees that each test program tells a row that is answered otherwise than its script says, and nothing of the others: of its own script, as it
stands, with every seventh answer changed, and without the last one. The last line is 'N passed, M failed'.
"""
import glob
import os
import subprocess
import sys

ROOT = os.path.dirname(os.path.dirname(os.path.abspath(__file__)))


def rows_of(lines):
    """The first line of each row that has an answer, and the line behind its answer."""
    for start in range(len(lines) - 1):
        if lines[start + 1].startswith("=") and not lines[start].startswith("="):
            yield start, next((it for it in range(start + 1, len(lines)) if not lines[it].startswith("=")), len(lines))


def with_changes(lines, rows):
    """The script with the first line of the answers of these rows changed."""
    changed = list(lines)
    for start, _ in rows:
        changed[start + 1] += " and more"
    return changed


def told(program, lines):
    """The status of a program and what it prints of a script. A row may name a file of its folder."""
    script = "".join(f"{it}\n" for it in lines)
    ran = subprocess.run([f"{program}/out/{os.path.basename(program)}"], cwd=program, input=script.encode(), stdout=subprocess.PIPE, stderr=subprocess.STDOUT, check=False)
    return ran.returncode, ran.stdout.decode()


def trials(lines):
    """Scripts by what was done to them, each with the rows that must be told."""
    rows = [*rows_of(lines)]
    seventh = rows[::7]
    yield "as it stands", lines, []
    yield "every seventh answer changed", with_changes(lines, seventh), seventh
    start, end = rows[-1]
    yield "without the last answer", lines[: start + 1] + lines[end:], rows[-1:]


def main():
    passed = failed = 0
    for program in sorted(glob.glob(f"{ROOT}/crates/*_tests")):
        with open(f"{program}/stdin", encoding="utf-8") as file:
            lines = file.read().splitlines()
        for what, script, rows in trials(lines):
            due = "".join(f"{line}\n" for start, end in rows for line in lines[start:end])
            good = told(program, script) == (0, due)
            passed, failed = passed + good, failed + (not good)
            print(f"{'ok' if good else 'NOT OK'}: {os.path.basename(program)}, {what}, {len(rows)} rows told")
    print(f"{passed} passed, {failed} failed")
    return 1 if failed else 0


if __name__ == "__main__":
    sys.exit(main())
