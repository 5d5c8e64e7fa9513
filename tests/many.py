#!/usr/bin/env python3
"""Runs `serve` for many terminals at once, over loopback: many.py PROGRAM [NAME..]

Each trial is a function below. Its terminals are threads: good ones work a whole session and answer with a number of their own, the
others stall, reset, flood, probe or close. The last line is 'N passed, M failed'.
"""
import fcntl
import os
import pathlib
import random
import re
import resource
import select
import socket
import struct
import subprocess
import sys
import tempfile
import threading
import time

LAYOUT = 'default = "24x80"\n[[field]]\nname = "code"\nrow = 1\ncol = 4\nlength = 3\n'
RECORD = "F5C21D60C11D40131140C61DF0"
LONGEST = 60

# How long a terminal waits at most for its turn, on a machine that does nothing else.
SOON = 1.0


def bytes_of(text):
    return bytes.fromhex(text.replace(" ", ""))


# What a terminal sends, up to its answer, and what it gets, in an enhanced session and in a classic one.
ENHANCED = (
    bytes_of("FFFB28 FFFA28020749424D2D333237382D32FFF0 FFFA28030702FFF0 020000000000FFEF 0000000000"),
    bytes_of("FFFD28 FFFA280802FFF0 FFFA28020449424D2D333237382D32015445524D33323730FFF0 FFFA28030402FFF0"
             "0000020000" + RECORD + "FFEF"),
)
CLASSIC = (
    bytes_of("FFFC28 FFFB18 FFFA180049424D2D333237382D32FFF0 FFFB19FFFD19 FFFB00FFFD00"),
    bytes_of("FFFD28 FFFD18 FFFA1801FFF0 FFFD19FFFB19 FFFD00FFFB00" + RECORD + "FFEF"),
)


def answer(number):
    """Enter, with three digits in the field."""
    return bytes_of("7D40C4 1140C3") + f"{number:03}".encode("cp037") + b"\xff\xef"


def digits(number):
    return f"{number:03}".encode("cp037").hex().upper()


class Serve:
    """The program, at a port that is free, with what it printed."""

    def __init__(self, program, *words, files=None, output=None):
        self.folder = tempfile.TemporaryDirectory()
        layout = pathlib.Path(self.folder.name, "layout.toml")
        layout.write_text(LAYOUT)
        with socket.create_server(("127.0.0.1", 0)) as free:
            self.port = free.getsockname()[1]
        limit = files and (lambda: resource.setrlimit(resource.RLIMIT_NOFILE, (files, files)))
        self.output = open(pathlib.Path(self.folder.name, "stdout"), "w+b")
        self.program = subprocess.Popen([program, "serve", layout, "--port", str(self.port), *words], stdin=subprocess.PIPE,
                                        stdout=self.output if output is None else output, stderr=subprocess.PIPE, preexec_fn=limit)
        self.program.stdin.write(RECORD.encode() + b"\n")
        self.program.stdin.close()
        for _ in range(200):
            if self.is_listening():
                break
            time.sleep(0.05)

    def is_listening(self):
        """Whether the system says that somebody listens there: a call would be a terminal."""
        wanted = f":{self.port:04X} 00000000:0000 0A"
        return any(wanted in line for line in open("/proc/net/tcp"))

    def line(self, address="127.0.0.1"):
        line = socket.create_connection(("127.0.0.1", self.port), timeout=LONGEST, source_address=(address, 0))
        line.setsockopt(socket.IPPROTO_TCP, socket.TCP_NODELAY, 1)
        return line

    def printed(self):
        self.output.flush()
        return pathlib.Path(self.output.name).read_text()

    def end(self, seconds=LONGEST):
        """The status, and what was printed."""
        try:
            status = self.program.wait(seconds)
        except subprocess.TimeoutExpired:
            self.program.kill()
            self.program.wait()
            status = "it did not end"
        text = self.printed()
        self.program.stderr.close()
        self.output.close()
        self.folder.cleanup()
        return status, text

    def stop(self):
        self.program.kill()
        return self.end()


def received(line, size):
    """So many bytes, or what comes up to the line's end."""
    came = b""
    while len(came) < size:
        more = line.recv(size - len(came))
        if not more:
            break
        came += more
    return came


# ---- terminals: each gives what is wrong, or None


def good(serve, number, session=ENHANCED, pieces=None, address="127.0.0.1"):
    """Works a session to its end, cut at random where pieces are given."""
    sent, wanted = session[0] + answer(number), session[1]
    with serve.line(address) as line:
        if pieces is None:
            line.sendall(sent)
        else:
            at = 0
            while at < len(sent):
                size = pieces.randrange(1, 20)
                line.sendall(sent[at:at + size])
                at += size
                time.sleep(pieces.random() / 50)
        got = received(line, len(wanted))
        more = b""
        try:
            more = line.recv(1)
        except OSError:
            pass
    return None if got + more == wanted else f"terminal of {number} got {(got + more).hex()}"


def stalls(serve, front):
    """Sends a front of a session, and then nothing until the host goes."""
    with serve.line() as line:
        line.sendall(front)
        try:
            while line.recv(4096):
                pass
        except OSError:
            pass


def resets(serve, front):
    line = serve.line()
    line.sendall(front)
    line.setsockopt(socket.SOL_SOCKET, socket.SO_LINGER, struct.pack("ii", 1, 0))
    line.close()


def floods(serve, data, times):
    """Sends so much without reading, and then waits for the end."""
    with serve.line() as line:
        try:
            for _ in range(times):
                line.sendall(data)
            while line.recv(65536):
                pass
        except OSError:
            pass


def closes(serve):
    serve.line().close()


def drips(serve, data, seconds):
    """A byte a while, until the host goes, or so many seconds passed."""
    with serve.line() as line:
        end = time.time() + seconds
        try:
            for byte in data:
                if time.time() > end:
                    break
                line.sendall(bytes([byte]))
                time.sleep(0.3)
        except OSError:
            pass


def together(*works):
    """Runs them side by side: what is wrong."""
    wrong = []

    def run(work):
        try:
            told = work()
        except OSError as error:
            told = f"a terminal that should go well: {error}"
        if told:
            wrong.append(told)

    threads = [threading.Thread(target=run, args=(work,)) for work in works]
    for thread in threads:
        thread.start()
    for thread in threads:
        thread.join()
    return wrong


def quietly(work):
    """A terminal to which anything may happen."""
    def run():
        try:
            work()
        except OSError:
            pass
    return run


# ---- what is printed


def told(text):
    """The terminals by number: the lines of each."""
    terminals, number = {}, None
    for line in text.splitlines():
        found = re.match(r"terminal ([0-9]+) ", line)
        if found:
            number = int(found[1])
            if number in terminals:
                raise AssertionError(f"terminal {number} is told twice")
            terminals[number] = []
        terminals[number].append(line)
    return terminals


def answers_in(text):
    return sorted(re.findall(r"terminal [0-9]+ aid 7D\ncode ([0-9A-F]+)\n", text))


def faults_in(text):
    return re.findall(r"^terminal [0-9]+ fault ([A-Z0-9]+)$", text, re.M)


def wrong_answers(text, numbers):
    wanted = sorted(digits(number) for number in numbers)
    got = answers_in(text)
    return [] if got == wanted else [f"answers {got}, wanted {wanted}"]


# ---- trials


def crowd(program):
    """200 at once, half of which do as they like: each of the others gets its screen and its lines."""
    chance = random.Random(3270)
    serve = Serve(program, "--count", "200", "--at-once", "200", "--idle", "3")
    works = []
    for number in range(100):
        session = (ENHANCED, CLASSIC)[number % 2]
        pieces = None if number % 5 else random.Random(number)
        works.append(lambda number=number, session=session, pieces=pieces: good(serve, number, session, pieces))
    whole = ENHANCED[0] + answer(1)
    for number in range(20):
        front = whole[:chance.randrange(len(whole) - 1)]
        works.append(quietly(lambda front=front: stalls(serve, front)))
        works.append(quietly(lambda front=front: resets(serve, front)))
        noise = chance.randbytes(chance.randrange(1, 5000))
        works.append(quietly(lambda noise=noise: stalls(serve, noise)))
        works.append(quietly(lambda: closes(serve)))
        probe = (b"GET / HTTP/1.1\r\nHost: a\r\n\r\n", b"\x16\x03\x01\x02\x00\x01\x00\x01\xfc\x03\x03" + bytes(500),
                 b"\xff\xfd\x01" * 20, b"A" * 65536)[number % 4]
        times = 1 if number % 4 < 2 else 50000 // len(probe) + 100
        works.append(quietly(lambda probe=probe, times=times: floods(serve, probe, times)))
    chance.shuffle(works)
    wrong = together(*works)
    status, text = serve.end()
    wrong += wrong_answers(text, range(100))
    if sorted(told(text)) != list(range(1, 201)):
        wrong.append("not each terminal is told once")
    if len(faults_in(text)) != 100:
        wrong.append(f"{len(faults_in(text))} faults")
    if status != 3:
        wrong.append(f"status {status}")
    return wrong


def idle(program):
    """Those of which nothing comes end as N12, in the time that was said, and not before; a byte now and then holds a terminal."""
    serve = Serve(program, "--count", "6", "--at-once", "6", "--idle", "2")
    begun = time.time()
    wrong = together(*[quietly(lambda: stalls(serve, b"")) for _ in range(3)],
                     quietly(lambda: stalls(serve, ENHANCED[0])),
                     quietly(lambda: drips(serve, ENHANCED[0], 4)), lambda: good(serve, 7))
    took = time.time() - begun
    status, text = serve.end()
    wrong += wrong_answers(text, [7])
    if sorted(faults_in(text)) not in (["N12"] * 4 + ["N8"], ["N10"] + ["N12"] * 4):
        wrong.append(f"faults {faults_in(text)}")
    if not 2 <= took < 6 or status != 3:
        wrong.append(f"took {took:.1f} seconds, status {status}")
    return wrong


def limits(program):
    """What floods a session in whole tokens is ended by a limit, and costs the next terminal nothing."""
    serve = Serve(program, "--count", "0", "--at-once", "10", "--answers", "1")
    together(*[quietly(lambda: floods(serve, b"\xff\xfd\x01" * 1000, 70)) for _ in range(3)],
             *[quietly(lambda: floods(serve, b"\xff\xfe\x01" * 1000, 70)) for _ in range(2)],
             *[quietly(lambda: floods(serve, b"\xff\xf1" * 1000, 105)) for _ in range(3)])
    begun = time.time()
    wrong = together(lambda: good(serve, 8))
    took = time.time() - begun
    status, text = serve.end()
    wrong += wrong_answers(text, [8])
    if took > SOON or status != 0:
        wrong.append(f"took {took:.1f} seconds, status {status}")
    if not set(faults_in(text)) <= {"N4", "N8", "N13", "N14"} or "N14" not in faults_in(text):
        wrong.append(f"faults {faults_in(text)}")
    return wrong


def scan(program):
    """5,000 connections that close at once use up no answer, and the next terminal is served within a second."""
    serve = Serve(program, "--count", "0", "--at-once", "20", "--answers", "5")
    for _ in range(5000):
        closes(serve)
    wrong = []
    for number in range(5):
        begun = time.time()
        wrong += together(lambda number=number: good(serve, number))
        if time.time() - begun > SOON:
            wrong.append(f"terminal {number} waited {time.time() - begun:.1f} seconds")
    status, text = serve.end()
    wrong += wrong_answers(text, range(5))
    if status != 0:
        wrong.append(f"status {status}")
    return wrong


def held(program):
    """500 connections that stay hold no more places than there are, and those behind them are served once these are idle."""
    serve = Serve(program, "--count", "0", "--at-once", "1000", "--answers", "20")
    lines = [serve.line() for _ in range(500)]
    begun = time.time()
    wrong = together(*[lambda number=number: good(serve, number) for number in range(20)])
    if time.time() - begun > 2 * SOON:
        wrong.append(f"it took {time.time() - begun:.1f} seconds")
    status, text = serve.end()
    for line in lines:
        line.close()
    wrong += wrong_answers(text, range(20))
    if status != 0 or faults_in(text):
        wrong.append(f"status {status}, faults {faults_in(text)}")
    return wrong


def per_second(program):
    """A flood from one address gets in as often as the limit says, and no line tells of the others; another address isn't kept waiting."""
    serve = Serve(program, "--count", "0", "--at-once", "1000", "--answers", "21", "--per-second", "5")
    begun, ends, seen = time.time(), time.time() + 3, [0, 0]

    def flood():
        while time.time() < ends:
            try:
                with serve.line() as line:
                    seen[1 if line.recv(1) else 0] += 1
            except OSError:
                seen[0] += 1

    def others(address):
        wrong = []
        for number in range(5):
            came = time.time()
            told = good(serve, number, address=address)
            wrong += [told] if told else []
            if time.time() - came > SOON:
                wrong.append(f"{address} waited {time.time() - came:.1f} seconds")
            time.sleep(0.5)
        return wrong[0] if wrong else None

    wrong = together(*[flood for _ in range(20)], *[lambda address=address: others(address) for address in ("127.0.0.2", "127.0.0.3", "127.0.0.4", "127.0.0.5")])
    took = time.time() - begun
    if not 5 <= seen[1] <= 5 * (int(took) + 1) or seen[0] < 100:
        wrong.append(f"of a flood {seen[1]} got in in {took:.1f} seconds, and {seen[0]} did not")
    time.sleep(1)
    wrong += together(lambda: good(serve, 9))
    status, text = serve.end()
    wrong += wrong_answers(text, [9, *range(5), *range(5), *range(5), *range(5)])
    if status != 0 or len(faults_in(text)) > seen[1] + 20:
        wrong.append(f"status {status}, {len(faults_in(text))} faults")
    return wrong


def few_files(program):
    """Descriptors run out: those that wait are served later, and nobody is lost."""
    serve = Serve(program, "--count", "100", "--at-once", "100", files=64)
    wrong = together(*[lambda number=number: good(serve, number, CLASSIC, random.Random(number)) for number in range(100)])
    status, text = serve.end()
    wrong += wrong_answers(text, range(100))
    if status != 0:
        wrong.append(f"status {status}")
    return wrong


def terminated(program):
    """SIGTERM ends it, with the lines of all that ended before, each whole."""
    serve = Serve(program, "--count", "0", "--at-once", "50")
    lines = [serve.line() for _ in range(10)]
    wrong = together(*[lambda number=number: good(serve, number) for number in range(20)])
    for _ in range(50):
        if len(answers_in(serve.printed())) == 20:
            break
        time.sleep(0.1)
    serve.program.terminate()
    status, text = serve.end(5)
    for line in lines:
        line.close()
    wrong += wrong_answers(text, range(20))
    if status != -15:
        wrong.append(f"status {status}")
    return wrong


def in_turn(program):
    """One at a time, as without --at-once: the second is served once the first has gone."""
    serve = Serve(program, "--count", "3", "--at-once", "1")
    first = serve.line()
    first.sendall(ENHANCED[0])
    wrong = [] if received(first, len(ENHANCED[1])) == ENHANCED[1] else ["the first terminal"]
    second = serve.line()
    second.settimeout(0.5)
    try:
        second.recv(1)
        wrong.append("the second was served beside the first")
    except TimeoutError:
        pass
    first.sendall(answer(1))
    second.settimeout(LONGEST)
    second.sendall(CLASSIC[0] + answer(2))
    if received(second, len(CLASSIC[1])) != CLASSIC[1]:
        wrong.append("the second terminal")
    first.close()
    second.close()
    wrong += together(lambda: good(serve, 3))
    status, text = serve.end()
    wanted = "".join(f"terminal {number} aid 7D\ncode {digits(number)}\n" for number in (1, 2, 3))
    if text != wanted or status != 0:
        wrong.append(f"status {status}, printed {text!r}")
    return wrong


def closed_output(program):
    """A reader that has gone ends it, at the lines that can't be written."""
    serve = Serve(program, "--count", "0", "--at-once", "5", "--answers", "2")
    wrong = together(lambda: good(serve, 1))
    serve.stop()
    with tempfile.TemporaryDirectory() as folder:
        layout = pathlib.Path(folder, "layout.toml")
        layout.write_text(LAYOUT)
        ours, theirs = os.pipe()
        os.close(ours)
        other = Serve.__new__(Serve)
        with socket.create_server(("127.0.0.1", 0)) as free:
            other.port = free.getsockname()[1]
        ran = subprocess.Popen([program, "serve", layout, "--port", str(other.port), "--count", "0", "--at-once", "5"],
                               stdin=subprocess.PIPE, stdout=theirs)
        os.close(theirs)
        ran.stdin.write(RECORD.encode() + b"\n")
        ran.stdin.close()
        for _ in range(100):
            if other.is_listening():
                break
            time.sleep(0.05)
        together(quietly(lambda: good(other, 2)))
        try:
            status = ran.wait(5)
        except subprocess.TimeoutExpired:
            ran.kill()
            status = "it did not end"
    return wrong + ([] if status == 3 else [f"status {status}"])


def soon(serve, number, session=ENHANCED):
    """Works a session, and tells where that took long."""
    begun = time.time()
    wrong = good(serve, number, session)
    took = time.time() - begun
    return wrong or (f"terminal of {number} waited {took:.1f} seconds" if took > SOON else None)


def full_output(program):
    """Standard output that takes nothing: that is said once, each terminal is served soon, and the status is 3 at the end."""
    with open("/dev/full", "wb") as full:
        serve = Serve(program, "--count", "0", "--at-once", "5", "--answers", "10", output=full)
        wrong = []
        for number in range(10):
            wrong += together(lambda number=number: soon(serve, number))
        try:
            serve.program.wait(5)
        except subprocess.TimeoutExpired:
            serve.program.kill()
        said = serve.program.stderr.read().decode()
        status, _ = serve.end(5)
    if said != "term3270: standard output: No space left on device (os error 28)\n":
        wrong.append(f"said {said!r}")
    return wrong + ([] if status == 3 else [f"status {status}"])


def all_read(ours):
    """What comes of a pipe, up to its end."""
    with open(ours, "rb") as pipe:
        return pipe.read().decode()


def unread_output(program):
    """Standard output that nobody reads: each terminal is served soon, in turn and many at once, and once it is read all lines are there."""
    ours, theirs = os.pipe()
    fcntl.fcntl(theirs, 1031, 4096)
    serve = Serve(program, "--count", "600", "--at-once", "300", output=theirs)
    os.close(theirs)
    wrong = []
    for number in range(300):
        wrong += together(lambda number=number: soon(serve, number, (ENHANCED, CLASSIC)[number % 2]))
    for first in range(300, 600, 50):
        wrong += together(*[lambda number=number: soon(serve, number) for number in range(first, first + 50)])
    if serve.program.poll() is not None:
        wrong.append("it ended before its lines were read")
    text = all_read(ours)
    status, _ = serve.end()
    wrong += wrong_answers(text, range(600))
    if sorted(told(text)) != list(range(1, 601)):
        wrong.append("not each terminal is told once")
    return wrong + ([] if status == 0 else [f"status {status}"])


def prompt_output(program):
    """A terminal's lines come as it ends, where somebody reads."""
    ours, theirs = os.pipe()
    serve = Serve(program, "--count", "5", "--at-once", "5", output=theirs)
    os.close(theirs)
    wrong = []
    with open(ours, "rb", buffering=0) as pipe:
        for number in range(5):
            wrong += together(lambda number=number: good(serve, number))
            came = select.select([pipe], [], [], SOON)[0]
            text = pipe.read(4096).decode() if came else ""
            if text != f"terminal {number + 1} aid 7D\ncode {digits(number)}\n":
                wrong.append(f"of terminal {number + 1} came {text!r}")
    status, _ = serve.end()
    return wrong + ([] if status == 0 else [f"status {status}"])


TRIALS = [crowd, idle, limits, scan, held, per_second, few_files, terminated, in_turn, closed_output, full_output, unread_output, prompt_output]


def run_trials(kind, trials, words):
    """Runs the trials of these names, or all, with a program, and prints what is wrong: PROGRAM [NAME..]. Whether one failed."""
    program, names = os.path.abspath(words[0]), words[1:]
    passed = failed = 0
    for trial in trials:
        if names and trial.__name__ not in names:
            continue
        wrong = trial(program)
        for line in wrong[:10]:
            print(f"{kind} {trial.__name__}: {line}")
        if wrong:
            failed += 1
        else:
            passed += 1
    print(f"{passed} passed, {failed} failed")
    return failed > 0


if __name__ == "__main__":
    sys.exit(run_trials("many", TRIALS, sys.argv[1:]))
