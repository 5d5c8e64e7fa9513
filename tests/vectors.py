"""Sees that the cases of vectors/ are what is made of their scripts, that they are of their schema, that the runner agrees with the program, by
its own driver and by the lines of vectors/lines.py, that it tells a terminal which doesn't agree, and that the
rules which the cases name are those of docs/PROFILE.md: vectors.py PROGRAM. The last line is 'N passed, M failed'.
"""
import json
import os
import re
import subprocess
import sys

ROOT = os.path.dirname(os.path.dirname(os.path.abspath(__file__)))
VECTORS = os.path.join(ROOT, "vectors")
# What no terminal is asked for: a read that is applied, and the writing of records.
WITHOUT_A_CASE = {"A3 NotAWrite", "U1 AddressOutside", "U2 BadText", "U3 BadPairs", "U4 BadCode", "U5 NotAllowed"}
# Where the rules stand whose rows, or whose heading alone, cases must name.
ROWS = ["What orders do", "Refusals of an outbound record", "Refusals", "The operator's keys", "Insert mode, duplicate and field mark"]
HEADINGS = ["Sizes", "Commands", "Buffer addresses", "Six-bit codes", "Field attributes", "Attention identifiers", "The buffer", "What commands do",
            "What the write control character does", "What the terminal sends", "Tokens of a stream", "Limits and refusals", "The header of a TN3270E record", "The terminal",
            "Refusals of a session"]


def lines_of(path):
    with open(os.path.join(ROOT, path), encoding="utf-8") as file:
        return file.read().splitlines()


def all_cases():
    for name in sorted(os.listdir(os.path.join(VECTORS, "cases"))):
        yield name.removesuffix(".jsonl"), [json.loads(it) for it in lines_of(f"vectors/cases/{name}")]


def profile():
    """The headings of docs/PROFILE.md, and below each the first cells of its tables' rows."""
    rules, heading = {}, None
    for line in lines_of("docs/PROFILE.md"):
        if found := re.match(r"#+ (.*?)(?: \(.*\))?$", line):
            heading = found[1]
            rules.setdefault(heading, [])
        elif found := re.match(r"\| (.+?) \|", line):
            rules[heading].append(found[1])
        elif heading:
            # Two rules stand in sentences.
            rules[heading] += re.findall(r"Settling(?=: from)|H[12] \w+", line)
    return rules


def files_told():
    """The table of vectors/README.md: the rules of each file."""
    lines = lines_of("vectors/README.md")
    rows = (re.match(r"\| `(\w+)` \| (.*) \|$", line) for line in lines[lines.index("| File | Rules |"):])
    return {found[1]: set(found[2].split("; ")) for found in rows if found}


def differing(wanted, found, what):
    return [f"{what}: {it}" for it in sorted(wanted ^ found)]


def rules_agree():
    rules, files = profile(), files_told()
    told = {name: {rule for case in cases for rule in case["rules"]} for name, cases in all_cases()}
    wrong = differing(set(files), set(told), "a file that one of README.md and cases/ lacks")
    for name in set(files) & set(told):
        wrong += differing(files[name], told[name], f"{name}, a rule that one of README.md and cases/ lacks")
    known = {*rules, *(row for rows in rules.values() for row in rows)}
    named = {rule for each in told.values() for rule in each}
    wrong += [f"no heading and no row: {it}" for it in sorted(named - known)]
    wanted = {*HEADINGS, *(row for heading in ROWS for row in rules[heading] if row not in ("Refusal", "Key", "Stroke", "Order", "---"))}
    return wrong + [f"a rule without a case: {it}" for it in sorted(wanted - named - WITHOUT_A_CASE)]


def schema_holds():
    """By jsonschema, of whichever Python has it."""
    check = ("import json, sys, jsonschema\nvalid = jsonschema.Draft7Validator(json.load(open('schema.json')))\n"
             "bad = [f'{json.loads(it)[\"id\"]}: {e.message}' for name in sys.argv[1:] for it in open(name) for e in valid.iter_errors(json.loads(it))]\nprint(*bad, sep='\\n')")
    names = [f"cases/{it}" for it in sorted(os.listdir(os.path.join(VECTORS, "cases")))]
    for python in (sys.executable, "/usr/bin/python3"):
        if subprocess.run([python, "-c", "import jsonschema"], capture_output=True, check=False).returncode == 0:
            return subprocess.run([python, "-c", check, *names], cwd=VECTORS, capture_output=True, text=True, check=True).stdout.split("\n")[:-1][1:]
    return None


def counts_hold():
    cases = [case for _, each in all_cases() for case in each]
    wrong = [] if len(cases) >= 1500 else [f"{len(cases)} cases"]
    return wrong + ([] if 10 * sum(case.get("paper", False) for case in cases) >= len(cases) else ["less than a tenth was worked out on paper"])


def run(*words):
    return subprocess.run(words, capture_output=True, text=True, check=False)


def runs(program):
    made = run(os.path.join(VECTORS, "make"), program, "--check")
    yield "the cases are what is made of their scripts", made.stdout.splitlines()[-12:] if made.returncode else []
    runner = os.path.join(VECTORS, "run")
    own = run(runner, "term3270", "--program", program)
    yield "the program agrees with each case", own.stdout.splitlines()[-12:] if own.returncode else []
    adapter = f"{sys.executable} {os.path.join(ROOT, 'vectors/lines.py')} {program}"
    files = [os.path.join(VECTORS, "cases", it) for it in ("program_tab.jsonl", "erasing.jsonl", "refusals.jsonl")]
    lines = run(runner, "lines", "--program", adapter, *files)
    yield "a terminal that speaks lines agrees", lines.stdout.splitlines()[-12:] if lines.returncode else []
    told = [run(runner, *it) for it in (["term3270", "--program", "/nowhere"], ["lines"], ["term3270", "--program", program, "/nowhere.jsonl"])]
    yield "a runner that has nothing to try says so", [it.stderr[-300:] for it in told if it.returncode != 2 or "error: " not in it.stderr or "Traceback" in it.stderr]
    wrong = run(runner, "lines", "--program", f"{adapter} --wrong", "--format", "junit", files[0])
    yield "a terminal that leaves Program Tab's nulls out is told", [] if wrong.returncode == 1 and "<failure>program_tab/after-text" in wrong.stdout else [wrong.stdout[-500:]]


def main(program):
    passed = failed = skipped = 0
    results = [("rules", rules_agree()), ("the schema", schema_holds()), ("the number of cases", counts_hold()), *runs(os.path.abspath(program))]
    for name, wrong in results:
        if wrong is None:
            skipped += 1
            print(f"{name}: python3-jsonschema is not installed, left out")
        else:
            passed, failed = passed + (not wrong), failed + bool(wrong)
            print(f"{name}: {'as wanted' if not wrong else ''}", *wrong, sep="\n  " if wrong else "")
    print(f"{passed} passed, {failed} failed" + (f", {skipped} skipped" if skipped else ""))
    return failed != 0


if __name__ == "__main__":
    sys.exit(main(*sys.argv[1:]))
