"""s3270, worked by its script language at a host of ours."""

import re
import socket
import subprocess
import time

from parts.drivers import READ_BUFFER, heard, records_in, upper
from parts.host import EOR, IAC, Host
from parts.screen import cells_of, device_of, place_in, screen_json, sizes_of

TN3270E = "FFFD28"
# Verbs and subnegotiations.
NEGOTIATED = re.compile(rb"\xff[\xfb-\xfe].|\xff\xfa.*?\xff\xf0", re.DOTALL)
WRITES = {0x01, 0xF1, 0x05, 0xF5, 0x0D, 0x7E}
ACTIONS = {
    "tab": "Tab()", "backtab": "BackTab()", "newline": "Newline()", "home": "Home()", "eraseeof": "EraseEOF()", "eraseinput": "EraseInput()",
    "delete": "Delete()", "reset": "Reset()", "left": "Left()", "right": "Right()", "up": "Up()", "down": "Down()", "enter": "Enter()",
    "clear": "Clear()", "insert": "Insert()", "dup": "Dup()", "fieldmark": "FieldMark()",
}


def action(key):
    if key.startswith("type "):
        return f"Key(U+{ord(bytes.fromhex(key[5:]).decode('cp037')):04X})"
    if key[:2] in ("pf", "pa") and key[2:].isdigit():
        return f"{key[:2].upper()}({key[2:]})"
    return ACTIONS[key]


def frees(piece, has_header):
    """Whether the last record in a piece is a write whose bit 02 frees the keyboard."""
    *_, record = [b"", *NEGOTIATED.sub(b"", piece).split(bytes([IAC, EOR]))[:-1]]
    record = record.replace(b"\xff\xff", b"\xff")
    if has_header:
        record = record[5:] if record[:1] == b"\0" else b""
    return len(record) > 1 and record[0] in WRITES and bool(record[1] & 2)


def cells_told(lines):
    """The cells that ReadBuffer(Ebcdic) prints, which tells characters from orders."""
    cells = []
    for word in " ".join(it.removeprefix("data: ") for it in lines if it.startswith("data: ")).split():
        if found := re.match(r"SF\(c0=(..)", word):
            cells.append((int(found[1], 16) & 0x3F,))
        elif found := re.match(r"GE\((..)\)", word):
            cells.append([int(found[1], 16)])
        elif not word.startswith("SA("):
            cells.append(int(word, 16))
    return cells


def rows_by_columns(size):
    rows, columns = cells_of(size)
    return rows * columns


class S3270:
    name = "s3270"

    def __init__(self, program="s3270"):
        self.program = program
        self.host = Host()
        with socket.create_server(("127.0.0.1", 0)) as unused:
            self.port = unused.getsockname()[1]
        self.process = None

    def close(self):
        if self.process:
            self.process.kill()
            self.process.communicate()
            self.process = None

    def start(self, device, prefix=""):
        """A new terminal of this device, that calls our host."""
        self.close()
        words = [self.program, "-model", device.removeprefix("IBM-").removesuffix("-E"), "-codepage", "cp037", "-set", "unlockDelay=false",
                 "-scriptport", str(self.port), f"{prefix}127.0.0.1:{self.host.port}"]
        self.process = subprocess.Popen(words, stdin=subprocess.PIPE, stdout=subprocess.DEVNULL, stderr=subprocess.DEVNULL)
        self.host.accept()
        self.actions = None

    def connected(self):
        """The port at which actions are taken at once; those of its standard input wait until the host frees the keyboard."""
        for _ in range(500):
            try:
                return socket.create_connection(("127.0.0.1", self.port), timeout=20)
            except ConnectionRefusedError:
                time.sleep(0.01)
        raise EOFError("s3270 takes no actions")

    def act(self, said):
        """Does an action, and returns its data lines and the status line."""
        if self.actions is None:
            line = self.connected()
            self.actions, self.told = line.makefile("w"), line.makefile("r")
        self.actions.write(f"{said}\n")
        self.actions.flush()
        lines = []
        while (line := self.told.readline()) and line not in ("ok\n", "error\n"):
            lines.append(line.rstrip("\n"))
        if not line:
            raise EOFError("s3270 ended")
        return lines

    def session(self, case):
        self.start(case["device"])
        keys = [*case["keys"]]

        def press(piece):
            """Presses the next key after a record that frees the keyboard, and returns what comes."""
            if not keys or not frees(piece, "functions" in case or TN3270E in case["host"][0]):
                return b""
            try:
                self.act("Set(aidWait,false)")
            except EOFError:
                # Before a session is ready there is nothing to press.
                return b""
            self.act(action(keys.pop(0)))
            return self.host.fenced()

        replies, is_over = heard(self.host, case, press)
        self.host.close()
        self.close()
        return {"terminal": replies} | ({"ends": "closed"} if is_over else {})

    def result(self, case):
        if "host" in case:
            return self.session(case)
        device = device_of(case)
        if device is None:
            return None
        self.start(device, "N:")
        self.host.classic()
        self.act("Set(aidWait,false,blankFill,false)")
        answers = self.sent(records_in(case, "records"))
        for key in case.get("keys", []):
            self.act(action(key))
        answers += self.host.answers()
        answers += self.sent(records_in(case, "then"))
        # The status line has U where the keyboard is free. It doesn't tell an error from waiting for the host.
        is_free = self.act("Query(Cursor)")[-1][0] == "U"
        wanted = case["screen"]["keyboard"]
        keyboard = "free" if is_free else "waiting" if wanted == "free" else wanted
        cells = cells_told(self.act("ReadBuffer(Ebcdic)"))
        *_, buffer = self.host.answers_to(READ_BUFFER)
        self.host.close()
        self.close()
        size = next(it for it in sizes_of(case)[:2] if rows_by_columns(it) == len(cells))
        aid, cursor = buffer[0], place_in(buffer[1:3])
        return {"screen": screen_json(size, cells, cursor, keyboard, aid), "answers": upper(answers)}

    def sent(self, records):
        return [answer for record in records for answer in self.host.answers_to(record)]
