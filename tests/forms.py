"""Tries what the golden cases of a built program have in common: forms.py PROGRAM.

Each line of JSON that they print is what a parser reads and writes again; the text of `show` with looks is, without them, what
`show` prints; and `records` prints the same with each byte of its input in a line of its own, the numbers of lines aside. The
last line is 'N passed, M failed'.
"""
import json
import pathlib
import re
import subprocess
import sys

CASES = pathlib.Path(__file__).parent / "cases"
LONGEST = 1_000_000
LOOKS = re.compile(rb"\x1b\[[0-9;]*m")
PIECE = re.compile(rb"([<>] 0x)[0-9a-f]+( +)([0-9A-Fa-f]+)")
NUMBER = re.compile(rb"\bline \d+")


def words_of(case):
    """The words of a case's command."""
    args = case / "args"
    return args.read_text().split("\n")[: args.read_text().count("\n")] if args.exists() else []


def status_of(case):
    return int((case / "status").read_text()) if (case / "status").exists() else 0


def wanted(case):
    return (case / "stdout").read_bytes() if (case / "stdout").exists() else b""


def input_of(case):
    """The input of a case where it is a file, and not a large one."""
    path = case / "stdin"
    return path.read_bytes() if path.exists() and path.stat().st_size <= LONGEST else None


def run(program, words, text):
    ran = subprocess.run([program, *words], input=text, capture_output=True)
    return ran.stdout, ran.returncode


def is_written_again(line):
    return json.dumps(json.loads(line), ensure_ascii=False, separators=(",", ":")) == line


def json_again():
    """Each case that prints JSON, and whether each of its lines is written again as it stands."""
    for case in sorted(CASES.glob("*/*")):
        words = words_of(case)
        if {"json", "sarif"} & set(words) and wanted(case).startswith(b"{"):
            yield case, all(is_written_again(it) for it in wanted(case).decode().splitlines())


def bare_looks(program):
    """Each case of `show` as text, and whether its text with looks has the same characters."""
    for case in sorted(CASES.glob("show/*")):
        if words_of(case) == ["show"] and input_of(case) is not None:
            text, status = run(program, ["show", "--color", "always"], input_of(case))
            yield case, (LOOKS.sub(b"", text), status) == (wanted(case), status_of(case))


def in_pairs(front, digits):
    return [front + digits[at : at + 2] for at in range(0, len(digits), 2)]


def cut(line):
    """The lines of a line's bytes, each in one of its own, or the line where it has none."""
    piece = PIECE.fullmatch(line)
    if piece:
        return in_pairs(piece[1] + b"0" + piece[2], piece[3])
    return in_pairs(b"", line) if re.fullmatch(rb"[0-9A-Fa-f]+", line) else [line]


def single_bytes(program):
    """Each case of `records`, and whether it prints the same with each byte in a line of its own."""
    for case in sorted(CASES.glob("records/*")):
        if input_of(case) is not None:
            lines = [part for line in input_of(case).splitlines() for part in cut(line)]
            text, status = run(program, words_of(case), b"".join(it + b"\n" for it in lines))
            same = NUMBER.sub(b"line", text) == NUMBER.sub(b"line", wanted(case))
            yield case, same and status == status_of(case)


def main(program):
    passed = failed = 0
    for kind, found in (("JSON", json_again()), ("looks", bare_looks(program)), ("single bytes", single_bytes(program))):
        for case, good in found:
            passed, failed = passed + good, failed + (not good)
            if not good:
                print(f"{kind}: {case.relative_to(CASES)} differs")
    print(f"{passed} passed, {failed} failed")
    return failed != 0 or passed == 0


if __name__ == "__main__":
    sys.exit(main(sys.argv[1]))
