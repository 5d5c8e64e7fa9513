"""Hosts for tests of the command `script`: each serves records to one terminal over loopback, and keeps what it answers.

A host is told by a text. Its first lines may be `classic`, for a session without TN3270E, and `refuse`, where nothing listens. Each other line
is a record in hexadecimal, `turn` (an answer is waited for), `pause N` (so many milliseconds) or `close`. Empty lines and those
of `#` say nothing. After the last line the host reads on until the terminal closes.
"""
import socket
import threading
import time
from typing import Iterator

Step = tuple[str, bytes | float]

RECORD_END = b"\xff\xef"
CONNECT = b"\x01TERM3270"
NEGOTIATED = b"\xff\xfd\x19\xff\xfb\x19\xff\xfd\x00\xff\xfb\x00"


class Gone(Exception):
    """The line was closed, or so many bytes were sent as the host was to send."""


def steps_of(text: str) -> tuple[set[str], list[Step]]:
    """What a host is told: its words, and its steps."""
    words: set[str] = set()
    steps: list[Step] = []
    for line in text.splitlines():
        parts = line.split()
        if not parts or parts[0].startswith("#"):
            continue
        if parts[0] in ("classic", "refuse"):
            words.add(parts[0])
        elif parts[0] == "pause":
            steps.append(("pause", int(parts[1]) / 1000))
        elif parts[0] in ("turn", "close"):
            steps.append((parts[0], 0.0))
        else:
            steps.append(("record", bytes.fromhex("".join(parts))))
    return words, steps


def records_in(stream: bytes) -> Iterator[tuple[bytes, bytes]]:
    """The records of a stream, each with what comes after it."""
    start = at = 0
    while at + 1 < len(stream):
        if stream[at] != 0xFF:
            at += 1
        elif stream[at + 1] == 0xEF:
            yield stream[start:at].replace(b"\xff\xff", b"\xff"), stream[at + 2:]
            start = at = at + 2
        else:
            at += 2


class Host(threading.Thread):
    """A host of one terminal. With `most` it closes once it has sent so many bytes. `granted` is what it says after the device's name."""

    def __init__(self, text: str, most: int | None = None, granted: bytes = CONNECT) -> None:
        super().__init__(daemon=True)
        words, self.steps = steps_of(text)
        self.classic = "classic" in words
        self.listener: socket.socket | None = socket.create_server(("127.0.0.1", 0))
        self.port: int = self.listener.getsockname()[1]
        self.line: socket.socket | None = None
        self.came = b""
        self.answers: list[bytes] = []
        self.sent_bytes = 0
        self.most = most
        self.granted = granted
        if "refuse" in words:
            self.listener.close()
            self.listener = None

    @property
    def address(self) -> str:
        return f"127.0.0.1:{self.port}"

    # ---- bytes

    def send(self, data: bytes) -> None:
        assert self.line is not None
        if self.most is not None and self.sent_bytes + len(data) > self.most:
            self.line.sendall(data[:self.most - self.sent_bytes])
            self.sent_bytes = self.most
            raise Gone
        self.line.sendall(data)
        self.sent_bytes += len(data)

    def read(self) -> None:
        assert self.line is not None
        more = self.line.recv(4096)
        if not more:
            raise Gone
        self.came += more

    def up_to(self, end: bytes) -> bytes:
        while end not in self.came:
            self.read()
        found, _, self.came = self.came.partition(end)
        return found

    def take(self, *expected: bytes) -> None:
        """Takes these bytes out of what comes, wherever they stand."""
        for one in expected:
            while one not in self.came:
                self.read()
            self.came = self.came.replace(one, b"", 1)

    # ---- sessions

    def agree_classic(self) -> None:
        self.send(b"\xff\xfd\x18")
        self.take(b"\xff\xfb\x18")
        self.send(b"\xff\xfa\x18\x01\xff\xf0")
        self.up_to(b"\xff\xf0")
        self.send(NEGOTIATED)
        self.take(b"\xff\xfb\x19", b"\xff\xfd\x19", b"\xff\xfb\x00", b"\xff\xfd\x00")

    def agree_enhanced(self) -> bytes:
        """Agrees on TN3270E. Gives the byte that asks for a response, where responses are agreed."""
        self.send(b"\xff\xfd\x28")
        self.take(b"\xff\xfb\x28")
        self.send(b"\xff\xfa\x28\x08\x02\xff\xf0")
        device = self.up_to(b"\xff\xf0")[5:].partition(b"\x01")[0]
        self.send(b"\xff\xfa\x28\x02\x04" + device + self.granted + b"\xff\xf0")
        asked = set(self.up_to(b"\xff\xf0")[5:])
        granted = bytes(asked & {2})
        if asked <= {2}:
            self.send(b"\xff\xfa\x28\x03\x04" + granted + b"\xff\xf0")
        else:
            self.send(b"\xff\xfa\x28\x03\x07" + granted + b"\xff\xf0")
            self.up_to(b"\xff\xf0")
        return b"\x02" if granted else b"\x00"

    def answer(self) -> None:
        """Waits for a record of 3270 data."""
        while True:
            for record, rest in records_in(self.came):
                self.came = rest
                if self.classic or record[:1] == b"\x00":
                    self.answers.append(record if self.classic else record[5:])
                    return
                break
            else:
                self.read()

    def play(self) -> None:
        responds = b"\x00"
        if self.classic:
            self.agree_classic()
        else:
            responds = self.agree_enhanced()
        number = 0
        for what, value in self.steps:
            if isinstance(value, bytes):
                header = b"" if self.classic else b"\x00\x00" + responds + number.to_bytes(2, "big")
                self.send((header + value).replace(b"\xff", b"\xff\xff") + RECORD_END)
                number += 1
            elif what == "pause":
                time.sleep(value)
            elif what == "turn":
                self.answer()
            else:
                assert self.line is not None
                self.line.shutdown(socket.SHUT_WR)
                break
        while True:
            self.answer()

    def run(self) -> None:
        if self.listener is None:
            return
        try:
            self.line, _peer = self.listener.accept()
            self.line.setsockopt(socket.IPPROTO_TCP, socket.TCP_NODELAY, 1)
            self.play()
        except (Gone, OSError):
            pass
        finally:
            if self.line is not None:
                self.line.close()
            self.listener.close()


def serve(text: str, most: int | None = None, granted: bytes = CONNECT) -> Host:
    host = Host(text, most, granted)
    host.start()
    return host


# ---- records

SIGNON = "F5C311405D1DF0E2C9C7D540D6D511C3F81DF0E4E2C5D9C9C411C4C21D401311C44B1DF011C5C81DF0D7C1E2E2E6D6D9C411C5D21D4C11C55B1DF0"
MENU = "F5C31140401DF0D4C5D5E411C2601DF0D6D7E3C9D6D511C2E91D401311C26C1DF011C5C41DF0F140D3C9E2E34040F240D3C5C1E5C5"
ITEMS = "F5C31140401DF0C9E3C5D4E211C3F91D401311C37D1DF0"
WRONG = "F1C2115CF1E6D9D6D5C711C4C313"
