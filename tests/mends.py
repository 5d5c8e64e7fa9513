#!/usr/bin/env python3
"""mends.py PROGRAM: does in the sources of the golden cases what the help of each finding says, and looks whether the finding is gone.

A stopper is put in before the DFHMSD TYPE=FINAL of the mapset, or before the next DFHMDI; other changes are made at the line that is told. A help
that leaves the choice to people, as a smaller LENGTH, is passed. The last line is 'N passed, M failed'."""
import json, pathlib, re, subprocess, sys, tempfile

PROGRAM = pathlib.Path(sys.argv[1]).resolve()
CASES = pathlib.Path(__file__).resolve().parent / "cases" / "check_map"
ATTRB = re.compile(r"ATTRB=(\([^)]*\)|[^ ,]+)", re.I)
POS = re.compile(r"POS=(\([^)]*\)|\d+)", re.I)


def found(source, words):
    with tempfile.TemporaryDirectory() as folder:
        path = f"{folder}/screen.bms"
        pathlib.Path(path).write_text(source)
        run = subprocess.run([PROGRAM, "check", "--map", path, "--format", "json", *words], capture_output=True, text=True)
        return [json.loads(line) for line in run.stdout.splitlines()]


def findings(lines):
    return [it for it in lines if "rule" in it]


def ends(lines, number):
    """The index of the line after the map that has this line: of the next DFHMDI, or of FINAL."""
    for index in range(number, len(lines)):
        if re.search(r"\bDFHMDI\b|\bTYPE=FINAL\b", lines[index], re.I):
            return index
    return len(lines)


def with_attrb(line, wanted):
    return ATTRB.sub(lambda m: wanted, line, count=1) if ATTRB.search(line) else re.sub(r"(POS=(?:\([^)]*\)|\d+))", rf"\1,{wanted}", line, count=1, flags=re.I)


def mended(source, finding):
    """The source with what the help says, or None where it leaves the choice to people."""
    lines, number, text = source.split("\n"), finding["source"]["line"], finding["help"]
    if text.startswith("end it by a stopper:\n"):
        return "\n".join([*(lines[: ends(lines, number)]), text.split("\n")[1], *lines[ends(lines, number) :]])
    if stopper := re.match(r"write (POS=\(\d+,\d+\)) at the stopper of line (\d+), ", text):
        at = int(stopper[2]) - 1
        lines[at] = POS.sub(stopper[1], lines[at], count=1)
        return "\n".join(lines)
    if attrb := re.search(r"(?:protect it|take FSET away) by (ATTRB=\S+)$", text):
        lines[number - 1] = with_attrb(lines[number - 1], attrb[1])
        return "\n".join(lines)
    if moved := re.match(r"move it to (POS=\(\d+,\d+\)) or behind, ", text):
        lines[number - 1] = POS.sub(moved[1], lines[number - 1], count=1)
        return "\n".join(lines)
    return None


def main():
    passed = failed = 0
    for folder in sorted(CASES.iterdir()):
        words = (folder / "args").read_text().split("\n")[3:]
        words = [word for word in words if word]
        try:
            source = (folder / "screen.bms").read_text()
        except UnicodeDecodeError:
            continue
        before = findings(found(source, words))
        for finding in before:
            if "help" not in finding:
                failed += 1
                print(f"{folder.name}: no help for {finding['words']}")
                continue
            changed = mended(source, finding)
            if changed is None:
                continue
            after = found(changed, words)
            refused = after and after[-1]["verdict"] == "refused"
            left = [it for it in findings(after) if (it["rule"], it.get("field"), it["map"]) == (finding["rule"], finding.get("field"), finding["map"])]
            is_gone = not refused and not left
            passed, failed = passed + is_gone, failed + (not is_gone)
            if not is_gone:
                print(f"{folder.name}: {finding['words']}: {finding['help']!r}: {after}")
    print(f"{passed} passed, {failed} failed")
    return failed != 0 or passed == 0


sys.exit(main())
