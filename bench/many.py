#!/usr/bin/env python3
"""Terminals at once: many.py PROGRAM [N]

N terminals, 1,000 by default, on loopback, each with a whole session of three screens of an application, all shown the first before
any answers. Printed are the seconds, the sessions a second, the seconds of processor and the most memory that the host took: of
`serve --turns --at-once N`; of a plain host of asyncio, below, that prints the same lines; and of `serve` with the terminals one after
the other.
"""
import asyncio
import os
import pathlib
import resource
import socket
import subprocess
import sys
import tempfile
import time

HERE = pathlib.Path(__file__).resolve()
sys.path.insert(0, str(HERE.parent.parent / "tests"))
from turns import EXAMPLES, HEARD, HELLO, MENU, SIGN_ON, ended, record_of

# The sign-on, the menu, and the menu's screen once more under a name of its own: what leads from each to the next, or to the end.
SCREENS = (("signon", "signon", "enter"), ("menu", "menu", "enter"), ("detail", "menu", "pf12"))
STEPS = ((SIGN_ON, "7DC5D411C4C3C111C5D3E2"), (MENU, "7DC4C311C4C3F7"), (MENU, "7CC4C3"))
ONE = ("terminal K screen signon aid 7D\nuserid C1\npassword E2\nterminal K screen menu aid 7D\nchoice F7\n"
       "terminal K screen detail aid 7C\n")


def application(folder):
    """The manifest of the application, with its files."""
    text, names = f'start = "{SCREENS[0][0]}"\n', [name for name, _, _ in SCREENS] + ["end"]
    for at, (name, files, key) in enumerate(SCREENS):
        for kind in ("hex", "toml"):
            pathlib.Path(folder, f"{name}.{kind}").write_text((EXAMPLES / f"{files}.{kind}").read_text())
        text += f'[[screen]]\nname = "{name}"\nrecords = "{name}.hex"\nlayout = "{name}.toml"\n[screen.next]\n{key} = "{names[at + 1]}"\n'
    manifest = pathlib.Path(folder, "application.toml")
    manifest.write_text(text)
    return manifest


# ---- a plain host, as one writes it for a test: classic sessions, no limits

IAC, SE, SB, WILL, WONT, DO = 0xFF, 0xF0, 0xFA, 0xFB, 0xFC, 0xFD
FIELDS = {"signon": {"userid": 259, "password": 339}, "menu": {"choice": 259}, "detail": {"choice": 259}}


def address(pair):
    return (pair[0] & 0x3F) * 64 + (pair[1] & 0x3F)


def fields_in(answer):
    """The places and the characters of the fields of an answer."""
    found, at = [], 3
    while at < len(answer):
        if answer[at] == 0x11:
            found.append((address(answer[at + 1:at + 3]), bytearray()))
            at += 3
        else:
            found[-1][1].append(answer[at])
            at += 1
    return found


class Host(asyncio.Protocol):
    """A session: what came that is no whole token yet, the record so far, and the screen that is shown."""
    came, left = 0, 0

    def connection_made(self, transport):
        Host.came += 1
        self.number, self.transport = Host.came, transport
        self.rest, self.record, self.screen, self.lines = b"", bytearray(), None, []
        transport.write(bytes((IAC, DO, 0x28)))

    def connection_lost(self, error):
        Host.left += 1

    def data_received(self, data):
        data, at = self.rest + data, 0
        while at < len(data):
            if data[at] != IAC:
                self.record.append(data[at])
                at += 1
                continue
            end = data.find(bytes((IAC, SE)), at) + 2 if data[at + 1:at + 2] == b"\xfa" else at + (3 if data[at + 1:at + 2] in (b"\xfb", b"\xfc", b"\xfd", b"\xfe") else 2)
            if end < at + 2 or end > len(data):
                break
            self.token(data[at + 1:end])
            at = end
        self.rest = data[at:]

    def token(self, token):
        if token == b"\xef":
            answer, self.record = bytes(self.record), bytearray()
            self.answered(answer)
        elif token == b"\xff":
            self.record.append(IAC)
        elif token == bytes((WONT, 0x28)):
            self.transport.write(bytes((IAC, DO, 0x18)))
        elif token == bytes((WILL, 0x18)):
            self.transport.write(bytes((IAC, SB, 0x18, 1, IAC, SE)))
        elif token[:2] == bytes((SB, 0x18)):
            self.transport.write(bytes((IAC, DO, 0x19, IAC, WILL, 0x19)))
        elif token == bytes((DO, 0x19)):
            self.transport.write(bytes((IAC, DO, 0x00, IAC, WILL, 0x00)))
        elif token == bytes((DO, 0x00)):
            self.shows(0)

    def shows(self, screen):
        self.screen = screen
        self.transport.write(STEPS[screen][0])

    def answered(self, answer):
        name = SCREENS[self.screen][0]
        self.lines.append(f"terminal {self.number} screen {name} aid {answer[0]:02X}\n")
        places = {place: field for field, place in FIELDS[name].items()}
        for place, characters in fields_in(answer):
            self.lines.append(f"{places[place]} {characters.hex().upper()}\n")
        if self.screen + 1 < len(STEPS):
            self.shows(self.screen + 1)
        else:
            sys.stdout.write("".join(self.lines))
            self.transport.close()


async def host(port, count):
    loop = asyncio.get_running_loop()
    server = await loop.create_server(Host, "127.0.0.1", port, backlog=1024)
    while Host.left < count:
        await asyncio.sleep(0.005)
    server.close()


# ---- terminals


async def terminal(port, number, ready, together):
    reader, writer = await asyncio.open_connection("127.0.0.1", port)
    writer.write(HELLO)
    front = HEARD
    for screen, sent in STEPS:
        got = await reader.readexactly(len(front + screen))
        if got != front + screen:
            raise AssertionError(f"terminal {number} got {got.hex()}")
        if together and front:
            ready.append(number)
            while len(ready) < together:
                await asyncio.sleep(0.01)
        front = b""
        writer.write(ended(sent))
    await reader.read()
    writer.close()


async def side_by_side(port, count):
    ready = []
    await asyncio.gather(*[terminal(port, number, ready, count) for number in range(count)])


async def in_turn(port, count):
    for number in range(count):
        await terminal(port, number, [], 0)


def is_listening(port):
    return any(f":{port:04X} 00000000:0000 0A" in line for line in open("/proc/net/tcp"))


def measure(name, words, count, run):
    """The seconds of a host that these words start with its port, from the first terminal to its end."""
    with socket.create_server(("127.0.0.1", 0)) as free:
        port = free.getsockname()[1]
    with tempfile.TemporaryFile("w+b") as output:
        program = subprocess.Popen([str(port) if word == "PORT" else word for word in words], stdout=output, stdin=subprocess.DEVNULL)
        while not is_listening(port):
            time.sleep(0.01)
        begun = time.time()
        asyncio.run(run(port, count))
        _, status, used = os.wait4(program.pid, 0)
        took = time.time() - begun
        program.returncode = status
        output.seek(0)
        text = output.read().decode()
    whole = sum(ONE.replace("K", str(number)) in text for number in range(1, count + 1))
    if status or whole != count or len(text) != sum(len(ONE.replace("K", str(number))) for number in range(1, count + 1)):
        sys.exit(f"{name}: status {status}, {whole} of {count} terminals are told")
    print(f"{name}: {took:.2f} s, {count / took:.0f} sessions a second, {used.ru_utime + used.ru_stime:.2f} s of processor, "
          f"{used.ru_maxrss / 1024:.1f} MB")
    return took


def main():
    if sys.argv[1] == "--host":
        asyncio.run(host(int(sys.argv[2]), int(sys.argv[3])))
        return
    program = os.path.abspath(sys.argv[1])
    count = int(sys.argv[2]) if len(sys.argv) > 2 else 1000
    wanted = min(resource.getrlimit(resource.RLIMIT_NOFILE)[1], 65536)
    resource.setrlimit(resource.RLIMIT_NOFILE, (wanted, resource.getrlimit(resource.RLIMIT_NOFILE)[1]))
    with tempfile.TemporaryDirectory() as folder:
        serve = [program, "serve", "--turns", str(application(folder)), "--port", "PORT", "--count", str(count)]
        ours = measure(f"serve --turns, {count} terminals at once", serve + ["--at-once", str(count)], count, side_by_side)
        theirs = measure(f"a plain host of asyncio, {count} at once", [sys.executable, str(HERE), "--host", "PORT", str(count)], count, side_by_side)
        turns = measure(f"serve --turns, {count} in turn", serve, count, in_turn)
    print(f"terminals at once: ratio to the plain host {ours / theirs:.2f}, to one after the other {ours / turns:.2f}")


if __name__ == "__main__":
    main()
