"""A TN3270 host on a socket of this machine, for one terminal at a time."""

import socket

IAC, SE, SB, WILL, WONT, DO, DONT, EOR = 0xFF, 0xF0, 0xFA, 0xFB, 0xFC, 0xFD, 0xFE, 0xEF
BINARY, TERMINAL_TYPE, END_OF_RECORD, TN3270E = 0x00, 0x18, 0x19, 0x28
# An option that no terminal has: what was sent before it has been looked at where its refusal comes.
FENCE, FENCE_ANSWER = bytes([IAC, DO, 0x63]), bytes([IAC, WONT, 0x63])
READ_BUFFER = bytes([0xF2])


class Gone(Exception):
    """The terminal closed the line, or nothing came in time."""


class Host:
    def __init__(self, seconds=10):
        self.listener = socket.create_server(("127.0.0.1", 0))
        self.port = self.listener.getsockname()[1]
        self.seconds = seconds

    def accept(self):
        """Takes the next terminal, and agrees on nothing yet."""
        self.listener.settimeout(self.seconds)
        try:
            self.line, _ = self.listener.accept()
        except OSError as error:
            raise Gone("no terminal came") from error
        self.line.setsockopt(socket.IPPROTO_TCP, socket.TCP_NODELAY, 1)
        self.line.settimeout(self.seconds)
        self.bytes = b""

    def classic(self):
        """Agrees on a session without TN3270E (RFC 1576)."""
        self.put(bytes([IAC, DO, TERMINAL_TYPE]))
        self.until(bytes([IAC, WILL, TERMINAL_TYPE]))
        self.put(bytes([IAC, SB, TERMINAL_TYPE, 1, IAC, SE]))
        self.until(bytes([IAC, SE]))
        for option in (END_OF_RECORD, BINARY):
            self.put(bytes([IAC, DO, option, IAC, WILL, option]))
            self.until(bytes([IAC, DO, option]))
        self.bytes = b""
        self.fenced()

    def enhanced(self, functions):
        """Agrees on a session with TN3270E and these functions, whatever the terminal asks for (RFC 2355, section 7)."""
        self.put(bytes([IAC, DO, TN3270E]))
        self.until(bytes([IAC, WILL, TN3270E]))
        self.put(bytes([IAC, SB, TN3270E, 8, 2, IAC, SE]))
        self.until(bytes([IAC, SB, TN3270E, 2, 7]))
        name = self.until(bytes([IAC, SE])).split(b"\0")[0].split(b"\1")[0]
        self.put(bytes([IAC, SB, TN3270E, 2, 4]) + name + b"\1LU1" + bytes([IAC, SE]))
        self.until(bytes([IAC, SB, TN3270E, 3, 7]))
        self.until(bytes([IAC, SE]))
        self.put(bytes([IAC, SB, TN3270E, 3, 7]) + functions + bytes([IAC, SE]))
        self.until(bytes([IAC, SB, TN3270E, 3, 4]) + functions + bytes([IAC, SE]))
        self.bytes = b""
        self.fenced()

    def put(self, some):
        try:
            self.line.sendall(some)
        except OSError as error:
            raise Gone("the terminal closed") from error

    def until(self, end):
        """What came up to these bytes."""
        while end not in self.bytes:
            try:
                more = self.line.recv(65536)
            except OSError as error:
                raise Gone(f"no {end.hex()} came") from error
            if not more:
                raise Gone("the terminal closed")
            self.bytes += more
        before, _, self.bytes = self.bytes.partition(end)
        return before

    def send(self, record):
        self.put(record.replace(b"\xff", b"\xff\xff") + bytes([IAC, EOR]))

    def fenced(self):
        """All that came up to the answer to a question that is asked now: the records in it, the last one open."""
        self.put(FENCE)
        return self.until(FENCE_ANSWER)

    def answers(self):
        """The records that the terminal sent up to now."""
        return [it.replace(b"\xff\xff", b"\xff") for it in self.fenced().split(bytes([IAC, EOR]))[:-1]]

    def answers_to(self, record):
        self.send(record)
        return self.answers()

    def close(self):
        self.line.close()
