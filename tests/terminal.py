"""Tries what the program says at a terminal, and that it says nothing of it elsewhere: terminal.py PROGRAM.

It runs with a pseudoterminal as standard input or standard error: the line that tells what is waited for and how it ends, and where
`serve` listens. With a pipe in place of the terminal neither is said. The last line is 'N passed, M failed'.
"""
import os
import pathlib
import pty
import re
import select
import socket
import subprocess
import sys
import time

EXAMPLES = pathlib.Path(__file__).parent.parent / "examples"
LONGEST = 20
PROMPT = b"records in hexadecimal, ends with Ctrl-D; --help shows an example\n"
END = b"\x04"


def read_until(end, wanted, seconds):
    """What comes until a text is in it, or so many seconds have passed."""
    told = b""
    until = time.monotonic() + seconds
    while wanted not in told and time.monotonic() < until:
        if select.select([end], [], [], 0.2)[0]:
            try:
                piece = os.read(end, 4096)
            except OSError:
                break
            if not piece:
                break
            told += piece
    return told.replace(b"\r\n", b"\n")


def typed(program, words, text):
    """What is said on standard error where these lines are typed, and then Ctrl-D."""
    ours, theirs = pty.openpty()
    ran = subprocess.Popen([program, *words], stdin=theirs, stdout=subprocess.DEVNULL, stderr=subprocess.PIPE)
    os.close(theirs)
    said = read_until(ran.stderr.fileno(), b"\n", 5)
    os.write(ours, text + END)
    try:
        _, more = ran.communicate(timeout=LONGEST)
    except subprocess.TimeoutExpired:
        ran.kill()
        _, more = ran.communicate()
        return b"not ended"
    finally:
        os.close(ours)
    return said + more


def piped(program, words, text):
    ran = subprocess.run([program, *words], input=text, stdout=subprocess.DEVNULL, stderr=subprocess.PIPE, timeout=LONGEST)
    return ran.stderr


def free_port():
    with socket.socket() as one:
        one.bind(("127.0.0.1", 0))
        return one.getsockname()[1]


def served(program, at_terminal):
    """What `serve` says on standard error before a terminal comes and goes."""
    port = free_port()
    words = [program, "serve", str(EXAMPLES / "signon.toml"), "--port", str(port), "--count", "1"]
    ours, theirs = pty.openpty() if at_terminal else os.pipe()
    with open(EXAMPLES / "signon.hex", "rb") as records:
        ran = subprocess.Popen(words, stdin=records, stdout=subprocess.DEVNULL, stderr=theirs)
    os.close(theirs)
    said = read_until(ours, b"listening on", LONGEST if at_terminal else 1)
    for _try in range(50):
        try:
            socket.create_connection(("127.0.0.1", port), 1).close()
            break
        except OSError:
            time.sleep(0.2)
    try:
        ran.wait(LONGEST)
    except subprocess.TimeoutExpired:
        ran.kill()
        ran.wait()
    said += read_until(ours, b"\0", 1)
    os.close(ours)
    return said, port


def tries(program):
    record = b"F5C21D60C1\n"
    yield "show waits for records", typed(program, ["show"], record) == PROMPT
    yield "show of a pipe", piped(program, ["show"], record) == b""
    layout = str(EXAMPLES / "signon.toml")
    yield "check waits for records", typed(program, ["check", layout], record) == PROMPT
    back = b"commands and orders, one a line, ends with Ctrl-D; --help shows an example\n"
    yield "convert --back waits for orders", typed(program, ["convert", "--back"], b"EW C2\n") == back
    yield "convert --back --chars waits for orders", typed(program, ["convert", "--back", "--chars"], b"EW C2\n") == back
    flawed = typed(program, ["show"], b"XY\n")
    yield "a line that is refused is told after it", flawed == PROMPT + b"term3270: standard input, line 1, column 1: 'X' is no hexadecimal digit\n"
    said, port = served(program, True)
    yield "serve says where it listens", re.match(b"listening on 127.0.0.1 port %d\n" % port, said) is not None
    said, _ = served(program, False)
    yield "serve says nothing of it to a pipe", b"listening" not in said


program = str(pathlib.Path(sys.argv[1]).resolve())
passed = failed = 0
for name, holds in tries(program):
    passed, failed = passed + holds, failed + (not holds)
    if not holds:
        print(f"{name}: otherwise")
print(f"{passed} passed, {failed} failed")
sys.exit(failed > 0)
