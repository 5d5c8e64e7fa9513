"""What libexec/s3270 makes of the words by which test tools call s3270."""
import os
import shlex
import subprocess
import tempfile

WRAPPER = os.path.join(os.path.dirname(os.path.abspath(__file__)), "..", "libexec", "s3270")

# A call's words; those that the program is called with, or its status where the program isn't called; what is said on standard error.
ROWS: list[tuple[str, str | int, list[str]]] = [
    ("", "script", []),
    ("localhost:3270", "script localhost:3270", []),
    ("-xrm 's3270.unlockDelay: False' -model 2", "script --device IBM-3278-2", ["-xrm s3270.unlockDelay is left out"]),
    ("-model 3278-2 -utf8 -codepage cp037", "script --device IBM-3278-2 --code-page 037", []),
    ("-model 3279-4-E", "script --device IBM-3279-4-E", []),
    ("-model 5-E", "script --device IBM-3278-5-E", []),
    ("-charset bracket", "script --code-page bracket", []),
    ("-charset us-intl host", "script host --code-page 037", []),
    ("-codepage cp273", "script", ["-codepage cp273 is left out"]),
    ("-script -utf8 -trace -trace host", "script host", ["-trace is left out"]),
    ("-port 992 host", "script host:992", []),
    ("-port 992 host:23", "script host:23", ["-port is left out"]),
    ("-port 992 LU01@host", "script LU01@host:992", []),
    ("-port 992 [::1]", "script [::1]:992", []),
    ("-port 992", "script", ["-port is left out"]),
    ("-xrm 's3270.model: 3278-4' -xrm '*port: 3270' -xrm 'x3270.codePage: us' host", "script host:3270 --device IBM-3278-4 --code-page 037", []),
    ("-set monoCase -clear blankFill -set monoCase", "script", ["-set monoCase is left out", "-clear blankFill is left out"]),
    ("-connecttimeout 5 -tracefile 'a b' -devname X", "script",
     ["-connecttimeout is left out", "-tracefile is left out", "-devname is left out"]),
    ("-- host", "script host", []),
    ("-version", 2, ["no such option: -version"]),
    ("--version", "--version", []),
    ("-model", 2, ["a word is missing after -model"]),
    ("one two", 2, ["one host too many: two"]),
    ("TERM3270_SCRIPT='--layouts screens --report r.txt' -model 2 host",
     "script host --device IBM-3278-2 --layouts screens --report r.txt", []),
]


def wrapped_as(call: str, expected: str | int, said: list[str]) -> str | None:
    """What is wrong with a row."""
    words = shlex.split(call)
    environment = dict(os.environ)
    while words and words[0].startswith("TERM3270_"):
        name, _, value = words.pop(0).partition("=")
        environment[name] = value
    with tempfile.TemporaryDirectory() as folder:
        program = os.path.join(folder, "program")
        with open(program, "w", encoding="utf8") as file:
            file.write("#!/bin/sh\nprintf '%s\\n' \"$@\"\n")
        os.chmod(program, 0o755)
        environment["TERM3270"] = program
        done = subprocess.run([WRAPPER, *words], capture_output=True, text=True, env=environment, check=False)
    told = [line.removeprefix("s3270: ") for line in done.stderr.splitlines()]
    had: str | int = done.returncode or " ".join(done.stdout.splitlines())
    if (had, told) != (expected, said):
        return f"{call}: {had} {told}"
    return None
