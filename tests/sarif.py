"""Reads each golden log of SARIF under the folders of tests/cases, and looks for the properties that services ask for.

The last line is 'N passed, M failed'. With a program, its version is compared with the logs'.
"""
import json
import pathlib
import subprocess
import sys

import golden

CASES = pathlib.Path(__file__).parent / "cases"
RULES = [*(f"F{n}" for n in range(1, 15)), "refused"]
MAP_RULES = [*RULES, "M1", "M2", "map-refused"]
# Each golden log, and the rules that it lists: that of the pen where it is asked for, those of maps after the others, and that of a suite last.
LOGS = {
    "check_sarif/*/stdout": RULES,
    "check_pen/sarif*/stdout": [*RULES, "F15"],
    "talk_sarif/*/stdout": RULES,
    "check_map_sarif/*/stdout": MAP_RULES,
    "suite/sarif*/stdout": [*MAP_RULES, "accepted"],
}
# What each object must have, by the standard (2.1.0, sections 3.13 to 3.52) and by what GitHub asks for.
DRIVER = {"name": str, "version": str, "rules": list}
RULE = {"id": str, "name": str, "shortDescription": dict, "fullDescription": dict, "help": dict, "defaultConfiguration": dict}
RESULT = {"ruleId": str, "ruleIndex": int, "level": str, "message": dict, "locations": list}


def lacks(wanted, found):
    return [key for key, kind in wanted.items() if not isinstance(found.get(key), kind)]


def faults_of_region(region):
    columns = {"startColumn", "endColumn"} & set(region)
    if not isinstance(region.get("startLine"), int) or region["startLine"] < 1:
        yield "startLine"
    if len(columns) == 1 or columns and not 1 <= region["startColumn"] < region["endColumn"]:
        yield "columns"


def faults_of_result(result, rules):
    yield from lacks(RESULT, result)
    if rules[result["ruleIndex"]]["id"] != result["ruleId"]:
        yield "ruleIndex is another rule's"
    if not result["message"].get("text") or len(result["locations"]) != 1:
        yield "no text, or not one location"
    place = result["locations"][0]["physicalLocation"]
    uri = place["artifactLocation"]["uri"]
    if not uri or any(c not in "-._~/:%" and not (c.isascii() and c.isalnum()) for c in uri):
        yield f"uri {uri}"
    yield from faults_of_region(place["region"])
    for related in result.get("relatedLocations", []):
        if not related["message"].get("text") or related["physicalLocation"]["artifactLocation"]["uri"] != uri:
            yield "a related location without a text, or in another file"
        yield from faults_of_region(related["physicalLocation"]["region"])


def faults_of_log(log, rules, version):
    if log.get("version") != "2.1.0" or "sarif-2.1.0" not in log.get("$schema", "") or len(log.get("runs", [])) != 1:
        yield "version, $schema or runs"
    driver = log["runs"][0]["tool"]["driver"]
    yield from lacks(DRIVER, driver)
    if version is not None and driver["version"] != version:
        yield f"version {driver['version']}, the program says {version}"
    for rule in driver["rules"]:
        yield from lacks(RULE, rule)
        if not all(rule[key].get("text") for key in ("shortDescription", "fullDescription", "help")):
            yield f"texts of {rule['id']}"
        if rule["defaultConfiguration"].get("level") not in ("none", "note", "warning", "error"):
            yield f"level of {rule['id']}"
    if [rule["id"] for rule in driver["rules"]] != rules:
        yield "the rules' ids"
    for result in log["runs"][0]["results"]:
        yield from faults_of_result(result, driver["rules"])


def faults_of_file(path, rules, version):
    text = path.read_text()
    return [*faults_of_log(json.loads(text), rules, version), *(["not one line"] if text.count("\n") != 1 else [])]


def main(program):
    version = subprocess.run([program, "--version"], capture_output=True, text=True).stdout.split()[-1] if program else None
    logs = ((path, rules) for glob, rules in LOGS.items() for path in sorted(CASES.glob(glob)))
    return golden.tell((path.parent.name, faults_of_file(path, rules, version)) for path, rules in logs)


if __name__ == "__main__":
    sys.exit(main(sys.argv[1] if len(sys.argv) > 1 else None))
