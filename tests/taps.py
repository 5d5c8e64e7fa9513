#!/usr/bin/env python3
"""Puts `tap` between terminals and hosts over loopback: taps.py PROGRAM.

What each side gets is compared with what the other sent, byte for byte, however it was cut, with both at once, with ends handed on, and with
many terminals side by side. What is printed is compared with what `records` prints of a trace of the same pieces; what is said of screens with
what `check`, `draft` and `bind` print of them; and `suite` is asked of what is left in a folder. The last line is 'N passed, M failed'.
"""
import os
import random
import re
import shutil
import socket
import struct
import subprocess
import sys
import tempfile
import threading
import time

PROGRAM = os.path.abspath(sys.argv[1])
LONGEST = 20
IAC, EOR = b"\xff", b"\xff\xef"
passed = failed = 0


def tell(name, wanted, found):
    global passed, failed
    if wanted == found:
        passed += 1
    else:
        failed += 1
        print(f"{name}: wanted {str(wanted)[:300]}, found {str(found)[:300]}")


def free_port():
    with socket.create_server(("127.0.0.1", 0)) as it:
        return it.getsockname()[1]


class Tap:
    """The program between a port of ours and a host of ours."""

    def __init__(self, count, host_port=None, options=()):
        self.host = socket.create_server(("127.0.0.1", 0), backlog=200) if host_port is None else None
        self.host_port = host_port or self.host.getsockname()[1]
        self.port = free_port()
        words = [PROGRAM, "tap", "127.0.0.1", "--port", str(self.host_port), "--listen-port", str(self.port), "--count", str(count), *options]
        # A file takes what is printed at any time; a pipe that nobody reads would hold the tap.
        self.printed = tempfile.TemporaryFile()
        self.program = subprocess.Popen(words, stdout=self.printed, stderr=subprocess.PIPE)

    def pair(self):
        """A terminal, and the host's end of its line."""
        return self.terminal(), self.accepted()

    def terminal(self):
        end = time.time() + LONGEST
        while True:
            try:
                it = socket.create_connection(("127.0.0.1", self.port), LONGEST)
                it.settimeout(LONGEST)
                return it
            except ConnectionRefusedError:
                if time.time() > end:
                    raise
                time.sleep(0.02)

    def accepted(self):
        self.host.settimeout(LONGEST)
        it, _ = self.host.accept()
        it.settimeout(LONGEST)
        return it

    def end(self):
        """What was printed, said on standard error, and the status."""
        status = None
        try:
            _, said = self.program.communicate(timeout=LONGEST)
            status = self.program.returncode
        except subprocess.TimeoutExpired:
            self.program.kill()
            _, said = self.program.communicate()
        if self.host:
            self.host.close()
        self.printed.seek(0)
        return self.printed.read().decode(), said.decode(), "no end" if status is None else status


def read_all(line):
    found = bytearray()
    try:
        while part := line.recv(65536):
            found += part
    except OSError as error:
        return bytes(found) + str(error).encode()
    return bytes(found)


def read_some(line, count):
    found = b""
    while len(found) < count and (part := line.recv(count - len(found))):
        found += part
    return found


def send_cut(line, data, cut):
    """Sends data in pieces of these lengths, in turn, and then the end."""
    at, turn = 0, 0
    while at < len(data):
        line.sendall(data[at : at + cut[turn % len(cut)]])
        at += cut[turn % len(cut)]
        turn += 1
    line.shutdown(socket.SHUT_WR)


def crossed(tap, one, other, cut):
    """What both ends of a pair get where both send at once."""
    terminal, host = tap.pair()
    senders = [threading.Thread(target=send_cut, args=it) for it in ((terminal, one, cut), (host, other, cut))]
    got = {}
    readers = [threading.Thread(target=lambda n, it: got.__setitem__(n, read_all(it)), args=it) for it in (("host", host), ("terminal", terminal))]
    for it in senders + readers:
        it.start()
    for it in senders + readers:
        it.join(LONGEST)
    terminal.close()
    host.close()
    return got.get("host"), got.get("terminal")


def bytes_pass():
    rows = [("a byte at a time", 3000, [1]), ("pieces of all lengths", 200_000, [1, 2, 3, 4095, 4096, 4097, 16_383, 16_385]), ("a megabyte at once", 1_000_000, [1_000_000])]
    for name, size, cut in rows:
        tap = Tap(1)
        one, other = (random.Random(f"{name} {it}").randbytes(size) for it in "ab")
        host, terminal = crossed(tap, one, other, cut)
        tell(f"{name}, to the host", (len(one), True), (len(host or b""), host == one))
        tell(f"{name}, to the terminal", (len(other), True), (len(terminal or b""), terminal == other))
        tell(f"{name}, the status", 0, tap.end()[2])


def many_pass():
    tap, found = Tap(100), []
    host_ends = []

    def serve():
        for _ in range(100):
            host_ends.append(tap.accepted())
        for it in host_ends:
            threading.Thread(target=echo, args=(it,)).start()

    def echo(line):
        data = read_all(line)
        line.sendall(data[::-1])
        line.close()

    def work(number):
        line = tap.terminal()
        data = random.Random(number).randbytes(20_000)
        line.sendall(data)
        line.shutdown(socket.SHUT_WR)
        found.append(read_all(line) == data[::-1])
        line.close()

    workers = [threading.Thread(target=serve)] + [threading.Thread(target=work, args=(it,)) for it in range(100)]
    for it in workers:
        it.start()
    for it in workers:
        it.join(2 * LONGEST)
    tell("a hundred terminals at once", 100, found.count(True))
    printed, _, status = tap.end()
    tell("a hundred terminals at once, the status", 0, status)
    tell("a hundred terminals at once, each is told", (100, 100), (len(re.findall(r"^# terminal \d+ connected$", printed, re.M)), len(re.findall(r"^# terminal \d+ ended$", printed, re.M))))


# A session: pieces, each with the side that sends it. The host asks for TN3270E, and sends two screens; the terminal answers by Enter and PF3.
SESSION = [
    ("<", bytes.fromhex("FFFD28")),
    (">", bytes.fromhex("FFFB28")),
    ("<", bytes.fromhex("FFFA280802FFF0")),
    (">", bytes.fromhex("FFFA280207") + b"IBM-3278-2-E" + bytes.fromhex("FFF0")),
    ("<", bytes.fromhex("FFFA280204") + b"IBM-3278-2-E" + bytes.fromhex("FFF0")),
    (">", bytes.fromhex("FFFA28030702FFF0")),
    ("<", bytes.fromhex("FFFA28030402FFF0")),
    ("<", bytes.fromhex("0000000000F5C21D60C11D4013") + EOR),
    (">", bytes.fromhex("00000000007D40C31140C3C1FFFFC2") + EOR),
    ("<", bytes.fromhex("0000000001F3000501FF") + b"\xff" + bytes.fromhex("02") + EOR),
    (">", bytes.fromhex("0000000001880000") + EOR),
    ("<", bytes.fromhex("0000000002F1C3") + bytes.fromhex("1140401D60C1") + EOR),
    (">", bytes.fromhex("0000000002F34040") + EOR),
]


def is_answer(line):
    return not line.startswith("#")


def records(words, trace):
    ran = subprocess.run([PROGRAM, "records", *words], input=trace.encode(), capture_output=True, timeout=LONGEST)
    return re.sub(r" at line \d+", " at line 1", ran.stdout.decode()).splitlines()


def handed_on(terminal, host, pieces):
    """Whether each of these pieces arrives before the next is sent, and then the end of either side, and nothing else."""
    good = True
    for side, data in pieces:
        one, other = (host, terminal) if side == "<" else (terminal, host)
        one.sendall(data)
        good = good and read_some(other, len(data)) == data
    for it in (terminal, host):
        it.shutdown(socket.SHUT_WR)
    return good and (read_all(terminal), read_all(host)) == (b"", b"")


def session_told(name, pieces):
    """A session of these pieces, each sent once the one before it has arrived; and what is told of it."""
    tap = Tap(1)
    terminal, host = tap.pair()
    good = handed_on(terminal, host, pieces)
    tell(f"{name}, bytes", True, good)
    printed, said, status = tap.end()
    lines = printed.splitlines()
    trace = "".join(f"{side} 0x0   {data.hex()}\n" for side, data in pieces)
    inner = lines[1:-1]
    tell(f"{name}, first and last", ("# terminal 1 connected", "# terminal 1 ended", 0, ""), (lines[0], lines[-1], status, said))
    tell(f"{name}, the host's side", records(["--turns"], trace), [it for it in inner if not it.startswith("# answer ")])
    answers = [it for it in records(["--answers", "--all"], trace) if is_answer(it)]
    tell(f"{name}, the answers", [f"# answer {it}" for it in answers], [it for it in inner if it.startswith("# answer ")])
    return inner


def sessions_are_told():
    inner = session_told("a session", SESSION)
    kinds = [it if it == "turn" or it.startswith("# answer") else "record" for it in inner if it == "turn" or it.startswith("# answer") or is_answer(it)]
    wanted = ["record", "# answer 7D40C31140C3C1FFC2", "turn", "# answer 880000", "record", "# answer F34040"]
    tell("a turn stands after the answer", [it for it in wanted if it != "# answer 880000"], [it for it in kinds if it != "# answer 880000"])
    session_told("a session, a byte at a time", [(side, bytes([byte])) for side, data in SESSION for byte in data])


def faults_are_told():
    tap = Tap(1)
    terminal, host = tap.pair()
    garbage = bytes.fromhex("FFFA18FFF1") + random.Random(7).randbytes(5000)
    host.sendall(garbage)
    tell("garbage is handed on", garbage, read_some(terminal, len(garbage)))
    terminal.sendall(b"\xff\xfa\x18\xff\xf1")
    tell("garbage is handed on to the host", b"\xff\xfa\x18\xff\xf1", read_some(host, 5))
    terminal.close()
    host.close()
    printed, _, status = tap.end()
    tell("a fault is told once, as a comment", (["# terminal 1 connected", "# line 1 fault W3 BadSub", "# terminal 1 ended"], 0), (printed.splitlines(), status))


def ends_are_handed_on():
    tap = Tap(3)
    terminal, host = tap.pair()
    terminal.shutdown(socket.SHUT_WR)
    tell("the terminal's end reaches the host", b"", host.recv(1))
    host.sendall(b"late")
    tell("the host's bytes come after it", b"late", read_some(terminal, 4))
    host.close()
    tell("the host's end reaches the terminal", b"", terminal.recv(1))
    terminal.close()
    terminal, host = tap.pair()
    terminal.setsockopt(socket.SOL_SOCKET, socket.SO_LINGER, struct.pack("ii", 1, 0))
    terminal.close()
    tell("a terminal that resets ends its host", b"", read_all(host)[:0])
    host.close()
    terminal, host = tap.pair()
    host.sendall(b"next")
    tell("the next terminal is served", b"next", read_some(terminal, 4))
    terminal.close()
    host.close()
    tell("ends, the status", 0, tap.end()[2])


def a_deaf_side_stops_the_other():
    tap = Tap(1)
    terminal, host = tap.pair()
    terminal.settimeout(1)
    sent = 0
    try:
        while sent < 64_000_000:
            sent += terminal.send(b"z" * 65536)
    except TimeoutError:
        pass
    tell("a host that reads nothing stops the terminal", True, sent < 64_000_000)
    terminal.shutdown(socket.SHUT_WR)
    tell("and gets all of it", sent, len(read_all(host)))
    host.close()
    terminal.close()
    tell("deaf, the status", 0, tap.end()[2])


def a_host_that_refuses():
    tap = Tap(1, free_port())
    line = tap.terminal()
    tell("a host that refuses: the terminal sees an end", b"", line.recv(1))
    line.close()
    printed, said, status = tap.end()
    tell("a host that refuses: it is said", (True, 3), ("Connection refused" in said, status))
    tap = Tap(1, free_port())
    line = tap.terminal()
    line.sendall(b"x")
    tell("a host that refuses a terminal that speaks first: an end", b"", read_all(line)[:0])
    line.close()
    printed, said, status = tap.end()
    tell("a host that refuses a terminal that speaks first: it is said", (True, 3), ("Connection refused" in said, status))


def a_host_that_resets():
    tap = Tap(1)
    terminal, host = tap.pair()
    host.sendall(b"some")
    tell("a host that resets: its bytes", b"some", read_some(terminal, 4))
    host.setsockopt(socket.SOL_SOCKET, socket.SO_LINGER, struct.pack("ii", 1, 0))
    host.close()
    tell("a host that resets: the terminal sees an end", b"", read_all(terminal)[:0])
    terminal.close()
    _, said, status = tap.end()
    tell("a host that resets: it is said, and was reached", (True, 0), ("Connection reset" in said, status))


def it_can_be_ended():
    tap = Tap(2)
    terminal, host = tap.pair()
    host.sendall(bytes.fromhex("FFFD28"))
    read_some(terminal, 3)
    tap.program.terminate()
    printed, _, _ = tap.end()
    tell("ended by a signal, what was told is there", "# terminal 1 connected\n", printed[:23])
    tell("ended by a signal, both sides see it", (b"", b""), (read_all(terminal)[:0], read_all(host)[:0]))


# The bytes of a host that asks what the terminal is, and shows a screen with colors; and of the terminal that answers.
QUERY = bytes.fromhex("0000000000F3000501FFFF02") + EOR
QUERY_REPLY = bytes.fromhex("000000000088000E81810000020050001801000A") + EOR
COLORS = bytes.fromhex("0000000001F5C3") + bytes.fromhex("11405D2902C0F042F2C1C2") + bytes.fromhex("11C3F82903C04041F242F4") + EOR
COLORS_ANSWER = bytes.fromhex("00000000017DC3F911C3F9C1") + EOR


def colored(terminal, host):
    """A session with a structured query and colors: what each end gets."""
    got = {}

    def play():
        got["host"] = b""
        for wanted, due in ((len(QUERY_REPLY), QUERY), (len(COLORS_ANSWER), COLORS)):
            host.sendall(due)
            got["host"] += read_some(host, wanted)
        host.shutdown(socket.SHUT_WR)
        got["host"] += read_all(host)

    player = threading.Thread(target=play)
    player.start()
    found = read_some(terminal, len(QUERY))
    terminal.sendall(QUERY_REPLY)
    found += read_some(terminal, len(COLORS))
    terminal.sendall(COLORS_ANSWER)
    terminal.shutdown(socket.SHUT_WR)
    found += read_all(terminal)
    player.join(LONGEST)
    for it in (terminal, host):
        it.close()
    return found, got["host"]


def a_query_and_colors_pass():
    listener = socket.create_server(("127.0.0.1", 0))
    terminal = socket.create_connection(listener.getsockname(), LONGEST)
    host, _ = listener.accept()
    for it in (terminal, host):
        it.settimeout(LONGEST)
    without = colored(terminal, host)
    listener.close()
    tap = Tap(1)
    tell("a query and colors, as without a tap", without, colored(*tap.pair()))
    tell("a query and colors, the status", 0, tap.end()[2])


# ---- screens, judged and left

# A sign-on screen, its layout, and the same without the attribute that ends the user id; a menu, of which no layout is in the folder.
SIGNON = "F5C3 11405D1DF0E2C9C7D540D6D5 11C3F81DF0E4E2C5D9C9C4 11C4C21D4013 11C44B1DF0 11C5C81DF0D7C1E2E2E6D6D9C4 11C5D21D4C 11C55B1DF0".replace(" ", "")
SIGNON_LAYOUT = """default = "24x80"
alternate = "24x80"
screen = "default"

[[field]]
name = "userid"
row = 4
col = 20
length = 8
kind = "input"

[[field]]
name = "password"
row = 5
col = 20
length = 8
kind = "input"
"""
OVERRUN = SIGNON.replace("11C44B1DF0", "")
MENU = "F5C3 1140401DF0D4C5D5E4 11C2601DF0D6D7E3C9D6D5 11C2E91D4013 11C26C1DF0".replace(" ", "")
LOCKED = "F5C1" + SIGNON[4:]
# Enter with ANNA and SECRET at the sign-on screen; Enter with 1 at the menu; PA1, which sends no field.
SIGNED = "7DC5D911C4C3C1D5D5C111C5D3E2C5C3D9C5E3"
CHOSEN = "7DC26B11C26AF1"
PA1 = "6C"


def record(hexadecimal):
    return bytes.fromhex(hexadecimal).replace(IAC, IAC + IAC) + EOR


def folders():
    folder = tempfile.mkdtemp(prefix="taps")
    layouts, out = os.path.join(folder, "layouts"), os.path.join(folder, "out")
    os.mkdir(layouts)
    os.mkdir(out)
    with open(os.path.join(layouts, "signon.toml"), "w") as it:
        it.write(SIGNON_LAYOUT)
    return folder, layouts, out


def played(pieces, options):
    """What is printed of records of plain TN3270, and of bytes; what is said; the status; and whether all were handed on."""
    tap = Tap(1, options=options)
    terminal, host = tap.pair()
    good = handed_on(terminal, host, pieces)
    return (*tap.end(), good)


def said_of(printed):
    """The lines that are said of screens, and the records and turns among which they stand."""
    return [it for it in printed.splitlines() if not re.match(r"# (terminal|device|record|connection) ", it)]


def ran(words, text):
    return subprocess.run([PROGRAM, *words], input=text, capture_output=True, text=True, timeout=LONGEST).stdout.splitlines()


def screens_are_judged():
    folder, layouts, out = folders()
    layout = os.path.join(layouts, "signon.toml")
    pieces = [("<", record(SIGNON)), (">", record(SIGNED)), ("<", record(MENU)), (">", record(CHOSEN)), ("<", record(OVERRUN)), (">", record(SIGNED)), ("<", record(LOCKED)), (">", record(PA1))]
    printed, said, status, good = played(pieces, ["--layouts", layouts])
    found = ran(["check", layout], OVERRUN)
    locked = ran(["check", layout], LOCKED)
    bound = [f"# {it}" for it in ran(["bind", layout, "--text"], SIGNED)[1:]]
    wanted = [SIGNON, f"# answer {SIGNED}", "# screen signon: yes", *bound, "turn", MENU, f"# answer {CHOSEN}", "# screen unknown", f"# {ran(['draft'], MENU)[0]}"]
    wanted += ["turn", OVERRUN, f"# answer {SIGNED}", *[f"# screen signon: {it}" for it in found], *bound]
    wanted += ["turn", LOCKED, f"# answer {PA1}", *[f"# screen signon: {it}" for it in locked]]
    tell("screens are judged where they are answered", wanted, said_of(printed))
    tell("the findings of check are there", (True, True), (found[0].startswith("F11 "), locked[0].startswith("F5 ")))
    tell("screens, all is handed on", (True, "", 0), (good, said, status))
    single = [(side, bytes([byte])) for side, data in pieces for byte in data]
    tell("the same a byte at a time", printed, played(single, ["--layouts", layouts])[0])
    plain = played(pieces, [])[0].splitlines()
    tell("without layouts the same, but what is said of screens", plain, [it for it in printed.splitlines() if not re.match(r"# (screen|userid|password|default) ", it)])
    with open(os.path.join(layouts, "a-menu.toml"), "w") as it:
        it.write("\n".join(ran(["draft"], MENU)))
    printed, _, _, _ = played(pieces[2:4], ["--layouts", layouts])
    tell("a screen of another layout", [MENU, f"# answer {CHOSEN}", "# screen a-menu: yes", "# option 1"], said_of(printed))
    reads = [("<", record(SIGNON)), ("<", record("F6")), (">", record("60" + SIGNED[2:])), (">", record(SIGNED))]
    printed, _, _, _ = played(reads, ["--layouts", layouts])
    tell("an answer to a read isn't the operator's", [SIGNON, "F6", f"# answer 60{SIGNED[2:]}", f"# answer {SIGNED}", "# screen signon: yes", *bound], said_of(printed))
    shutil.rmtree(folder)


def broken_layouts_are_told():
    folder, layouts, out = folders()
    with open(os.path.join(layouts, "bad.toml"), "w") as it:
        it.write("no layout")
    words = [PROGRAM, "tap", "127.0.0.1", "--port", "1", "--listen-port", str(free_port()), "--count", "1", "--layouts"]
    found = subprocess.run([*words, layouts], capture_output=True, text=True, timeout=LONGEST)
    tell("a layout that is none", (2, "", True), (found.returncode, found.stdout, "bad.toml: layout refused: L1 NotToml" in found.stderr))
    found = subprocess.run([*words, os.path.join(folder, "none")], capture_output=True, text=True, timeout=LONGEST)
    tell("a folder that isn't there", (3, "", True), (found.returncode, found.stdout, "No such file" in found.stderr))
    shutil.rmtree(folder)


def listed(out):
    return sorted(os.listdir(out))


def screens_are_left():
    folder, layouts, out = folders()
    # The same form twice, once with another title; a screen that nobody can answer.
    again = SIGNON.replace("E2C9C7D540D6D5", "E2C9C7D540D6C6")
    pieces = [("<", record(SIGNON)), (">", record(SIGNED)), ("<", record(again)), (">", record(SIGNED)), ("<", record(MENU)), (">", record(CHOSEN)), ("<", record(LOCKED)), (">", record(PA1))]
    printed, said, status, good = played(pieces, ["--out", out])
    tell("screens are left once for each form", ["screen-1.hex", "screen-1.toml", "screen-2.hex", "screen-2.toml"], listed(out))
    tell("left screens, nothing more is printed", (played(pieces, [])[0], "", 0, True), (printed, said, status, good))
    for number, hexadecimal in ((1, SIGNON), (2, MENU)):
        with open(os.path.join(out, f"screen-{number}.hex")) as it:
            tell(f"the records of screen {number}", hexadecimal + "\n", it.read())
        with open(os.path.join(out, f"screen-{number}.toml")) as it:
            tell(f"the draft of screen {number}", ran(["draft"], hexadecimal), it.read().splitlines())
    tell("the folder is checked as yes", "2 screens, 2 yes, 0 no, 0 findings, 0 accepted", ran(["suite", out], "")[-1])
    with open(os.path.join(out, "screen-4.toml"), "w") as it:
        it.write("mine")
    printed, said, status, good = played(pieces, ["--out", out])
    tell("a run more leaves its own", ["screen-1.hex", "screen-1.toml", "screen-2.hex", "screen-2.toml", "screen-3.hex", "screen-3.toml", "screen-4.toml", "screen-5.hex", "screen-5.toml"], listed(out))
    with open(os.path.join(out, "screen-4.toml")) as it:
        tell("a file that is there is left as it is", ("mine", "", 0, True), (it.read(), said, status, good))
    printed, said, status, good = played(pieces, ["--out", os.path.join(folder, "none")])
    tell("a folder that can't be written is told", (2, 0, True), (said.count("No such file"), status, good))
    shutil.rmtree(folder)


def a_session_is_recorded():
    """A terminal of this program, and s3270 where it is there, through the tap to `serve`."""
    for name in ("attach", "s3270"):
        if name == "s3270" and not shutil.which("s3270"):
            print("s3270 through the tap: skipped, it isn't installed")
            continue
        folder, layouts, out = folders()
        port = free_port()
        serve = subprocess.Popen([PROGRAM, "serve", os.path.join(layouts, "signon.toml"), "--port", str(port), "--count", "1"], stdin=subprocess.PIPE, stdout=subprocess.PIPE)
        serve.stdin.write(SIGNON.encode())
        serve.stdin.close()
        tap = Tap(1, port, ["--layouts", layouts, "--out", out])
        time.sleep(0.5)
        if name == "attach":
            keys = os.path.join(folder, "keys")
            with open(keys, "w") as it:
                it.write("type C1\ntype D5\ntab\ntype E2\nenter\n")
            subprocess.run([PROGRAM, "attach", "127.0.0.1", keys, "--port", str(tap.port)], capture_output=True, timeout=LONGEST)
        else:
            script = 'Wait(5,InputField)\nString("AN")\nTab\nString("S")\nEnter\nWait(5,Disconnect)\nQuit\n'
            subprocess.run(["s3270", "-model", "2", f"127.0.0.1:{tap.port}"], input=script.encode(), capture_output=True, timeout=LONGEST)
        printed, said, status = tap.end()
        lines = [it for it in said_of(printed) if not it.startswith("# answer ")]
        tell(f"{name} through the tap to serve", [SIGNON, "# screen signon: yes", "# userid AN", "# password S"], lines)
        tell(f"{name}, the status", ("", 0, 0), (said, status, serve.wait(LONGEST)))
        tell(f"{name}, the folder is checked as yes", "1 screen, 1 yes, 0 no, 0 findings, 0 accepted", ran(["suite", out], "")[-1])
        serve.stdout.close()
        shutil.rmtree(folder)


def a_closed_output_ends_it():
    tap_port, host = free_port(), socket.create_server(("127.0.0.1", 0))
    words = [PROGRAM, "tap", "127.0.0.1", "--port", str(host.getsockname()[1]), "--listen-port", str(tap_port)]
    reader, writer = os.pipe()
    program = subprocess.Popen(words, stdout=writer, stderr=subprocess.DEVNULL)
    os.close(writer)
    os.close(reader)
    time.sleep(0.5)
    terminal = socket.create_connection(("127.0.0.1", tap_port), LONGEST)
    terminal.settimeout(LONGEST)
    tell("a closed output ends it", 3, program.wait(LONGEST))
    tell("a closed output ends it, and the terminal sees it", b"", read_all(terminal)[:0])
    terminal.close()
    host.close()


def main():
    for part in (bytes_pass, many_pass, sessions_are_told, a_query_and_colors_pass, faults_are_told, ends_are_handed_on, a_deaf_side_stops_the_other, a_host_that_refuses, a_host_that_resets, screens_are_judged, broken_layouts_are_told, screens_are_left, a_session_is_recorded, a_closed_output_ends_it, it_can_be_ended):
        try:
            part()
        except OSError as error:
            tell(part.__name__, "no fault of a socket", error)
    print(f"{passed} passed, {failed} failed")
    return 1 if failed else 0


if __name__ == "__main__":
    sys.exit(main())
