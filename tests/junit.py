"""Reads each golden report of JUnit by an XML parser, and looks for what readers of such reports require.

The last line is 'N passed, M failed'. The schema is the one that Jenkins publishes (junit-10.xsd), as far as reports without times
have its parts: the elements, their attributes, and the counts of a suite, which are those of its test cases.
"""
import pathlib
import sys
import xml.etree.ElementTree as ElementTree

import golden

CASES = pathlib.Path(__file__).parent / "cases"
# What each element may hold, and the attributes that it must and may have.
HOLDS = {"testsuites": {"testsuite"}, "testsuite": {"testcase"}, "testcase": {"failure", "error", "system-out"}, "failure": set(), "error": set(), "system-out": set()}
MUST = {"testsuites": set(), "testsuite": {"name", "tests", "failures", "errors"}, "testcase": {"name", "classname"}, "failure": {"message"}, "error": {"message"}, "system-out": set()}


def faults_of(element):
    """What is wrong with an element and with those in it."""
    if set(element.attrib) != MUST[element.tag]:
        yield f"attributes of {element.tag}: {sorted(element.attrib)}"
    if any(not value for value in element.attrib.values()):
        yield f"an empty attribute of {element.tag}"
    if HOLDS[element.tag] and (element.text or "").strip():
        yield f"text in {element.tag}"
    for inner in element:
        if inner.tag not in HOLDS[element.tag]:
            yield f"{inner.tag} in {element.tag}"
        else:
            yield from faults_of(inner)


def faults_of_suite(suite):
    """Where the counts of a suite aren't those of its test cases, or two have one name."""
    cases = suite.findall("testcase")
    found = {"tests": len(cases), "failures": len(suite.findall("testcase/failure")), "errors": len(suite.findall("testcase/error"))}
    for key, count in found.items():
        if suite.get(key) != str(count):
            yield f"{key} are {suite.get(key)}, and {count} are there"
    if len({case.get("name") for case in cases}) != len(cases):
        yield "two test cases of one name"
    for case in cases:
        if len(case.findall("failure")) + len(case.findall("error")) > 1:
            yield f"{case.get('name')} fails twice"


def faults_of_report(text):
    root = ElementTree.fromstring(text)
    if root.tag != "testsuites" or len(root) != 1:
        yield "not one suite"
    yield from faults_of(root)
    for suite in root:
        yield from faults_of_suite(suite)


def faults_of_file(path):
    try:
        return list(faults_of_report(path.read_bytes()))
    except ElementTree.ParseError as error:
        return [str(error)]


if __name__ == "__main__":
    sys.exit(golden.tell((path.parent.name, faults_of_file(path)) for path in sorted(CASES.glob("suite/junit*/stdout"))))
