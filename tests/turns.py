#!/usr/bin/env python3
"""Leads terminals through the screens of applications, over loopback: turns.py PROGRAM [NAME..]

Each trial is a function below. The application is the README's sign-on and menu; its terminals are `attach`, s3270 by a script where it
is installed, and bytes. The last line is 'N passed, M failed'.
"""
import pathlib
import shutil
import socket
import subprocess
import sys
import tempfile
import threading
import time

sys.path.insert(0, str(pathlib.Path(__file__).parent))
from many import CLASSIC, received, run_trials

EXAMPLES = pathlib.Path(__file__).parent.parent / "examples"
LONGEST = 60


def record_of(name):
    """The bytes of a record of the examples, as they go out in a classic session."""
    lines = (EXAMPLES / name).read_text().splitlines()
    return bytes.fromhex("".join(line for line in lines if not line.startswith("#"))) + b"\xff\xef"


# What a classic session begins with: what the terminal sends and what it gets, up to the first screen.
HELLO, HEARD = CLASSIC[0], CLASSIC[1][: CLASSIC[1].index(bytes.fromhex("FFFD00FFFB00")) + 6]

SIGN_ON, MENU = record_of("signon.hex"), record_of("menu.hex")


def ended(hexadecimal):
    return bytes.fromhex(hexadecimal) + b"\xff\xef"


class Serve:
    """The program with an application, or other words, at a port that is free."""

    def __init__(self, program, *words, offer=None):
        with socket.create_server(("127.0.0.1", 0)) as free:
            self.port = free.getsockname()[1]
        offer = offer or ["--turns", str(EXAMPLES / "application.toml")]
        self.output = tempfile.TemporaryFile("w+b")
        self.program = subprocess.Popen([program, "serve", *offer, "--port", str(self.port), *words], stdin=subprocess.DEVNULL,
                                        stdout=self.output, stderr=subprocess.DEVNULL)
        for _ in range(200):
            wanted = f":{self.port:04X} 00000000:0000 0A"
            if any(wanted in line for line in open("/proc/net/tcp")):
                break
            time.sleep(0.05)

    def line(self):
        return socket.create_connection(("127.0.0.1", self.port), timeout=LONGEST)

    def printed(self):
        self.output.seek(0)
        return self.output.read().decode()

    def end(self, seconds=LONGEST):
        """The status, and what was printed."""
        try:
            status = self.program.wait(seconds)
        except subprocess.TimeoutExpired:
            self.program.kill()
            self.program.wait()
            status = "it did not end"
        return status, self.printed()


def walk(serve, steps):
    """A terminal that sends each answer and waits for the screen after it: what is wrong."""
    with serve.line() as line:
        line.sendall(HELLO)
        wanted = HEARD + SIGN_ON
        got = received(line, len(wanted))
        if got != wanted:
            return [f"first it got {got.hex()}"]
        for sent, wanted in steps:
            line.sendall(ended(sent))
            got = received(line, len(wanted) or 1)
            if got != wanted:
                return [f"after {sent} it got {got.hex()}"]
    return []


ENTER, PF3, PF12, CLEAR, PA1 = "7DC5D411C4C3C111C5D3E2", "F3C4C3", "7CC4C3", "6D", "6C"


def compared(serve, status, text, seconds=LONGEST):
    got = serve.end(seconds)
    return [] if got == (status, text) else [f"status {got[0]}, printed {got[1]!r}"]


def worked(program):
    """The sign-on, the menu, back to the sign-on, and the end: each key leads where the manifest says."""
    serve = Serve(program, "--count", "1")
    wrong = walk(serve, [(ENTER, MENU), (PF3, SIGN_ON), (ENTER, MENU), (PF12, b"")])
    text = "terminal 1 screen signon aid 7D\nuserid C1\npassword E2\nterminal 1 screen menu aid F3\n"
    return wrong + compared(serve, 0, text + text.replace("F3", "7C"))


def again(program):
    """A key without an entry shows the screen again, Clear too."""
    serve = Serve(program, "--count", "1")
    wrong = walk(serve, [(CLEAR, SIGN_ON), (PA1, SIGN_ON), (ENTER, MENU), (CLEAR, MENU), (PF12, b"")])
    return wrong + compared(serve, 0, "terminal 1 screen signon aid 6D\nterminal 1 screen signon aid 6C\n"
                            "terminal 1 screen signon aid 7D\nuserid C1\npassword E2\nterminal 1 screen menu aid 6D\n"
                            "terminal 1 screen menu aid 7C\n")


def undeclared(program):
    """An answer with a field that isn't the layout's ends the session by its fault, after what was answered before."""
    serve = Serve(program, "--count", "1")
    with serve.line() as line:
        line.sendall(HELLO)
        received(line, len(HEARD + SIGN_ON))
        line.sendall(ended(ENTER))
        received(line, len(MENU))
        line.sendall(ended("7DC4C3114040C1"))
        line.recv(1)
    return compared(serve, 3, "terminal 1 screen signon aid 7D\nuserid C1\npassword E2\nterminal 1 fault B1\n")


def raw(program):
    """The bytes of each answer, as they were sent."""
    serve = Serve(program, "--count", "1", "--raw")
    wrong = walk(serve, [(ENTER, MENU), (PF12, b"")])
    return wrong + compared(serve, 0, f"terminal 1 screen signon aid 7D\nuserid C1\npassword E2\nsent {ENTER}\n"
                            f"terminal 1 screen menu aid 7C\nsent {PF12}\n")


def any_records(program):
    """Records of any kind, of sizes that their file says: any answer ends the session."""
    with tempfile.TemporaryDirectory() as folder:
        path = pathlib.Path(folder, "any.hex")
        path.write_text("size 24x80 43x80\n7EC3 C1C2\nF1C2 114040 C3\n")
        serve = Serve(program, "--count", "2", offer=["--any", "--records", str(path)])
        for sent in ("7D5B6B C1", "6D"):
            with serve.line() as line:
                line.sendall(HELLO.replace(b"IBM-3278-2", b"IBM-3278-4"))
                received(line, len(HEARD) + 14)
                line.sendall(ended(sent))
                line.recv(4096)
        return compared(serve, 0, "terminal 1 aid 7D cursor 1771\nsent 7D5B6BC1\nterminal 2 aid 6D\nsent 6D\n")


def deaf(program):
    """Terminals that never read a record of 32,000 FF, each sent twice, end when they were idle, and keep no other waiting."""
    with tempfile.TemporaryDirectory() as folder:
        path = pathlib.Path(folder, "any.hex")
        path.write_text("F5C3" + "FF" * 32000 + "\n")
        serve = Serve(program, "--count", "21", "--at-once", "21", "--idle", "3", offer=["--any", "--records", str(path)])
        wrong, lines = [], []
        for _ in range(20):
            line = socket.socket()
            line.setsockopt(socket.SOL_SOCKET, socket.SO_RCVBUF, 2304)
            line.connect(("127.0.0.1", serve.port))
            line.sendall(HELLO)
            lines.append(line)
        begun = time.time()
        with serve.line() as line:
            line.sendall(HELLO)
            wanted = HEARD + bytes.fromhex("F5C3") + b"\xff" * 64000 + b"\xff\xef"
            if received(line, len(wanted)) != wanted:
                wrong.append("the terminal that reads got something else")
            line.sendall(ended("6D"))
            line.recv(1)
        took = time.time() - begun
        status, text = serve.end()
        for line in lines:
            line.close()
        if took > 1 or status != 3 or text.count(" fault N12\n") != 20 or "terminal 21 aid 6D\nsent 6D\n" not in text:
            wrong.append(f"it took {took:.1f} seconds, status {status}, printed {text!r}")
        return wrong


def crowd(program):
    """60 at once, a third of which stop on the way: the lines of each stand together."""
    serve = Serve(program, "--count", "60", "--at-once", "60", "--idle", "3")
    wrong = []

    def good():
        wrong.extend(walk(serve, [(ENTER, MENU), (PF3, SIGN_ON), (ENTER, MENU), (PF12, b"")]))

    def stops():
        with serve.line() as line:
            line.sendall(HELLO + ended(ENTER))
            try:
                while line.recv(4096):
                    pass
            except OSError:
                pass

    threads = [threading.Thread(target=stops if number % 3 == 0 else good) for number in range(60)]
    for thread in threads:
        thread.start()
    for thread in threads:
        thread.join()
    status, text = serve.end()
    one = "terminal K screen signon aid 7D\nuserid C1\npassword E2\nterminal K screen menu aid F3\n"
    whole = [text.count((one + one.replace("F3", "7C")).replace("K", str(number))) for number in range(1, 61)]
    if sum(whole) != 40 or text.count(" fault N12\n") != 20 or status != 3:
        wrong.append(f"{sum(whole)} whole, {text.count(' fault N12')} idle, status {status}")
    return wrong


def terminated(program):
    """SIGTERM in the middle: the lines of the terminals that ended before are there, whole, and no others."""
    serve = Serve(program, "--count", "0", "--at-once", "10")
    wrong = walk(serve, [(ENTER, MENU), (PF12, b"")])
    text = "terminal 1 screen signon aid 7D\nuserid C1\npassword E2\nterminal 1 screen menu aid 7C\n"
    with serve.line() as line:
        line.sendall(HELLO + ended(ENTER))
        received(line, len(HEARD + SIGN_ON + MENU))
        for _ in range(100):
            if serve.printed() == text:
                break
            time.sleep(0.05)
        serve.program.terminate()
        return wrong + compared(serve, -15, text, 5)


def by_s3270(program):
    """s3270 signs on by a script, chooses, and ends: its screens, and what is printed."""
    if not shutil.which("s3270"):
        return []
    serve = Serve(program, "--count", "1")
    script = ["Wait(10,InputField)", "String(AB)", "Tab", "String(C)", "Enter", "Wait(10,InputField)", "Ascii(0,30,4)", "String(7)", "Enter",
              "Wait(10,InputField)", "Ascii(0,30,4)", "PF(12)", "Quit"]
    ran = subprocess.run(["s3270", "-model", "3278-2", f"127.0.0.1:{serve.port}"], input="\n".join(script) + "\n", text=True, capture_output=True, timeout=LONGEST)
    shown = [line[6:] for line in ran.stdout.splitlines() if line.startswith("data: ")]
    wrong = [] if shown == ["MENU", "MENU"] else [f"it showed {shown}: {ran.stdout!r}"]
    return wrong + compared(serve, 0, "terminal 1 screen signon aid 7D\nuserid C1C2\npassword C3\nterminal 1 screen menu aid 7D\nchoice F7\n"
                            "terminal 1 screen menu aid 7C\n")


TRIALS = [worked, again, undeclared, raw, any_records, deaf, crowd, terminated, by_s3270]


if __name__ == "__main__":
    sys.exit(run_trials("turns", TRIALS, sys.argv[1:]))
