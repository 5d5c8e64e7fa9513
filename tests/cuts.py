#!/usr/bin/env python3
"""cuts.py PROGRAM: cuts sources of BMS maps at every byte, and asks for what the front of each says.

Each front is checked as text, and in turn mapped, checked as JSON, as a log of SARIF, and shown: each answers with the status 0, 1
or 2, those of one front agree, and a front that is refused is told by the same words. The last line is 'N passed, M failed'."""
import json, pathlib, subprocess, sys, tempfile

PROGRAM = pathlib.Path(sys.argv[1]).resolve()
ROOT = pathlib.Path(__file__).resolve().parent.parent
CASES = ["crlf", "group_date", "occurs_lines", "operand_at_edge", "overlap"]
SOURCES = [ROOT / "examples" / "signon.bms"] + [ROOT / "tests" / "cases" / "check_map" / name / "screen.bms" for name in CASES]


def ran(path, *words):
    run = subprocess.run([PROGRAM, *words], input=b"", capture_output=True)
    return run.returncode, run.stdout.decode()


def refused_json(text):
    lines = [json.loads(line) for line in text.splitlines()]
    return lines[0]["words"] if lines[0].get("verdict") == "refused" and len(lines) == 1 else None


def refused_log(text):
    results = json.loads(text)["runs"][0]["results"]
    return results[0]["message"]["text"] if [it["ruleId"] for it in results] == ["map-refused"] else None


def fault_of(path, count):
    """What is wrong with the answers to the front in this file."""
    status, text = ran(path, "check", "--map", path)
    if status not in (0, 1, 2) or not text.endswith("\n"):
        return f"check: status {status}"
    words = text[:-1] if text.startswith("map refused: ") else None
    if (status == 2) != (words is not None and text.count("\n") == 1):
        return f"check: status {status} with {text!r}"
    if count % 4 == 0:
        other, told = ran(path, "map", path)
        said = told[:-1] if told.startswith("map refused: ") else None
        wanted = 2 if status == 2 else 0
    elif count % 4 == 1:
        other, told = ran(path, "check", "--map", path, "--format", "json")
        said, wanted = refused_json(told), status
    elif count % 4 == 2:
        other, told = ran(path, "check", "--map", path, "--format", "sarif")
        said, wanted = refused_log(told), status
    else:
        other, told = ran(path, "show", "--map", path)
        said = told[:-1] if told.startswith("map refused: ") else None
        wanted = 2 if status == 2 else 0
    if other != wanted or said != words:
        return f"status {other}, wanted {wanted}: {said!r} for {words!r}"
    return None


def main():
    passed = failed = 0
    with tempfile.TemporaryDirectory() as folder:
        path = f"{folder}/front.bms"
        for source in SOURCES:
            whole = source.read_bytes()
            for count in range(len(whole) + 1):
                pathlib.Path(path).write_bytes(whole[:count])
                fault = fault_of(path, count)
                passed, failed = passed + (fault is None), failed + (fault is not None)
                if fault:
                    print(f"{source.parent.name}/{source.name}, {count} bytes: {fault}")
    print(f"{passed} passed, {failed} failed")
    return failed != 0 or passed == 0


sys.exit(main())
