"""Tries that texts as characters are read again: characters.py PROGRAM.

The records of each golden case that `convert` takes are converted to lines with characters and back, which gives the bytes that lines with
digits give; and so are texts of each byte that a record may have, alone and among others. The last line is 'N passed, M failed'.
"""
import pathlib
import subprocess
import sys

CASES = pathlib.Path(__file__).parent / "cases"
LONGEST = 1_000_000


def run(program, words, text):
    ran = subprocess.run([program, *words], input=text, capture_output=True)
    return ran.returncode, ran.stdout


def sizes_of(text):
    """The line of sizes, which lines of orders don't have."""
    return b"".join(line + b"\n" for line in text.splitlines() if line.startswith(b"size"))


def inputs():
    for path in sorted(CASES.glob("*/*/stdin")):
        if path.stat().st_size <= LONGEST:
            yield path, path.read_bytes()
    for byte in range(256):
        yield f"the byte {byte:02X}", b"F5C2%02X\nF1C3C1%02X%02X7DC1%02X00\n" % (byte, byte, byte, byte)


program = str(pathlib.Path(sys.argv[1]).resolve())
passed = failed = 0
for name, text in inputs():
    status, digits = run(program, ["convert"], text)
    if status != 0:
        continue
    _, characters = run(program, ["convert", "--chars"], text)
    sizes = sizes_of(text)
    due = run(program, ["convert", "--back"], sizes + digits)
    found = run(program, ["convert", "--back", "--chars"], sizes + characters)
    mixed = run(program, ["convert", "--back", "--chars"], sizes + digits)
    if due == found == mixed and characters.count(b"\n") == digits.count(b"\n"):
        passed += 1
    else:
        failed += 1
        print(f"{name}: characters are converted back to other records")
print(f"{passed} passed, {failed} failed")
sys.exit(failed > 0)
