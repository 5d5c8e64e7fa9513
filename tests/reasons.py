"""Tries that standard error says why of the very line that standard output names: reasons.py PROGRAM.

Each golden case whose output is `line N refused` or `keys line N refused` is run again, and so is a case for each byte that a line of
records may have in its midst. There is one sentence, of line N, and its column is that of a byte that isn't a digit or a space. The last line
is 'N passed, M failed'.
"""
import pathlib
import re
import subprocess
import sys

CASES = pathlib.Path(__file__).parent / "cases"
LONGEST = 1_000_000
REFUSED = re.compile(rb"(?:keys )?line (\d+) refused\n")
SENTENCE = re.compile(rb"term3270: [^\n]+, line (\d+)(?:, column (\d+))?: [^\n]+\n")
DIGITS = b"0123456789ABCDEFabcdef"


def run(program, words, text, folder=None):
    ran = subprocess.run([program, *words], input=text, capture_output=True, cwd=folder)
    return ran.stdout, ran.stderr


def golden(program):
    """Each case with a line that is refused, and whether the sentence is of that line."""
    for case in sorted(CASES.glob("*/*")):
        wanted = case / "stdout"
        line = REFUSED.fullmatch(wanted.read_bytes()) if wanted.exists() else None
        path = case / "stdin"
        if line and not (path.exists() and path.stat().st_size > LONGEST) and not (case / "make-stdin").exists():
            words = (case / "args").read_text().splitlines() if (case / "args").exists() else []
            # `records --from buffer` says which line is refused, and not why.
            if "buffer" in words:
                continue
            _, said = run(program, words, path.read_bytes() if path.exists() else b"", case)
            sentence = SENTENCE.fullmatch(said)
            yield case, bool(sentence) and sentence[1] == line[1]


def bytes_of_lines(program):
    """Each byte between two digits, and whether the sentence has its column."""
    for byte in range(256):
        if byte in DIGITS + b" \n":
            continue
        printed, said = run(program, ["show"], b"# a comment\nF5 C" + bytes([byte]) + b"2\n")
        sentence = SENTENCE.fullmatch(said)
        yield f"the byte {byte:02X}", printed == b"line 2 refused\n" and bool(sentence) and sentence.groups() == (b"2", b"5")


program = str(pathlib.Path(sys.argv[1]).resolve())
passed = failed = 0
for name, holds in [*golden(program), *bytes_of_lines(program)]:
    passed, failed = passed + holds, failed + (not holds)
    if not holds:
        print(f"{name}: the sentence is of another line, or none")
print(f"{passed} passed, {failed} failed")
sys.exit(failed > 0)
