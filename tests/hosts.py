#!/usr/bin/env python3
"""Runs `attach` against hosts that do otherwise than the profile, over loopback: hosts.py PROGRAM [NAME..]

Each host is a function below, which says whether it got the terminal's answer to its screen. It is played to `attach`, whose line
and status are those of the second column of HOSTS, and to `attach --tolerant`, which gets through wherever the third says so.
The keys are a character and Enter. All hosts run side by side. The last line is 'N passed, M failed'.
"""
import os
import re
import socket
import subprocess
import sys
import tempfile
import time
from concurrent.futures import ThreadPoolExecutor


def bytes_of(text):
    return bytes.fromhex(text.replace(" ", ""))


SIGN_ON = bytes_of("F5C3 11405D1DF0E2C9C7D540D6D5 11C3F81DF0E4E2C5D9C9C4 11C4C21D4013 11C44B1DF0")
BLANK = bytes_of("F540")
BIND = bytes_of("31010303B1B03080008787F8C7000200000000184018507F0000000000000000")
ANSWER = rb"\x7d..\x11..[^\xff]*\xff\xef"


class Gone(Exception):
    """The terminal closed the line."""


class Host:
    """One end of a line, with what came and was not yet looked at."""

    def __init__(self, line):
        self.line, self.came, self.functions, self.bound = line, b"", b"", False
        line.setsockopt(socket.IPPROTO_TCP, socket.TCP_NODELAY, 1)

    def send(self, data):
        try:
            self.line.sendall(data)
        except OSError as error:
            raise Gone from error

    def want(self, pattern, seconds=2.0):
        """What the pattern finds in what comes, or None where it doesn't come in time."""
        end = time.time() + seconds
        while True:
            found = re.search(pattern, self.came, re.S)
            if found:
                self.came = self.came[found.end():]
                return found
            left = end - time.time()
            if left <= 0:
                return None
            self.line.settimeout(left)
            try:
                more = self.line.recv(65536)
            except TimeoutError:
                return None
            except OSError as error:
                raise Gone from error
            if not more:
                raise Gone
            self.came += more

    def sub(self, words):
        self.send(b"\xff\xfa" + bytes_of(words) + b"\xff\xf0")

    def record(self, data, data_type=None, flag=0, number=0):
        header = b"" if data_type is None else bytes([data_type, 0, flag, 0, number])
        self.send((header + data).replace(b"\xff", b"\xff\xff") + b"\xff\xef")

    # ---- TN3270E

    def begin(self):
        self.send(bytes_of("FFFD28"))
        return self.want(rb"\xff[\xfb\xfc]\x28")

    def ask_device(self):
        self.sub("28 0802")
        found = self.want(rb"\xff\xfa\x28\x02\x07([^\xff]*)\xff\xf0")
        return found and found[1]

    def grant_device(self, name, resource=b"LU0001"):
        joined = b"" if resource is None else b"\x01" + resource
        self.send(b"\xff\xfa\x28\x02\x04" + name + joined + b"\xff\xf0")

    def asked_functions(self):
        found = self.want(rb"\xff\xfa\x28\x03\x07([^\xff]*)\xff\xf0")
        return found and found[1]

    def grant_functions(self, functions):
        self.send(b"\xff\xfa\x28\x03\x04" + functions + b"\xff\xf0")
        self.functions = functions

    def named(self, name_of):
        """Negotiates, with the name that this gives for the one that was asked for."""
        self.begin()
        name = self.ask_device()
        self.grant_device(name_of(name))
        self.grant_functions(self.asked_functions() or b"")

    def enhanced(self):
        self.named(lambda name: name)

    def show(self, data=SIGN_ON, flag=0, number=0):
        """A record of 3270 data, after a BIND-IMAGE where that is agreed."""
        if 0 in self.functions and not self.bound:
            self.bound = True
            self.record(BIND, 3)
        self.record(data, 0, flag, number)

    def answered(self, seconds=3.0):
        return self.want(rb"\x00\x00\x00.." + ANSWER, seconds) is not None

    def shown(self):
        self.show()
        return self.answered()

    # ---- classic TN3270

    def type_agreed(self):
        self.send(bytes_of("FFFD18"))
        self.want(rb"\xff\xfb\x18")
        self.sub("1801")
        self.want(rb"\xff\xfa\x18\x00([^\xff]*)\xff\xf0")

    def classic(self):
        self.type_agreed()
        self.send(bytes_of("FFFD19 FFFB19"))
        self.want(rb"\xff\xfb\x19")
        self.want(rb"\xff\xfd\x19")
        self.send(bytes_of("FFFD00 FFFB00"))
        self.want(rb"\xff\xfb\x00")
        self.want(rb"\xff\xfd\x00")

    def shown_classic(self):
        self.record(SIGN_ON)
        return self.want(ANSWER, 3.0) is not None


def plain(host):
    host.enhanced()
    return host.shown()


def functions_none(host):
    host.begin()
    host.grant_device(host.ask_device())
    host.asked_functions()
    host.grant_functions(b"")
    return host.shown()


def functions_more(host):
    host.begin()
    host.grant_device(host.ask_device())
    host.asked_functions()
    host.grant_functions(b"\x00\x02\x04\x01")
    if host.want(rb"\xff\xfc\x28", 1) is None:
        return False
    host.classic()
    return host.shown_classic()


def functions_twice(host):
    host.begin()
    host.grant_device(host.ask_device())
    asked = host.asked_functions()
    host.grant_functions(asked[::-1] + asked[:1])
    return host.shown()


def functions_asked_none(host):
    host.begin()
    host.grant_device(host.ask_device())
    host.asked_functions()
    host.sub("28 0307")
    host.want(rb"\xff\xfa\x28\x03\x04\xff\xf0")
    return host.shown()


def functions_asked_all(host):
    host.begin()
    host.grant_device(host.ask_device())
    host.asked_functions()
    host.sub("28 0307 0001020304")
    found = host.want(rb"\xff\xfa\x28\x03([\x04\x07])([^\xff]*)\xff\xf0")
    if found and found[1] == b"\x07":
        host.grant_functions(found[2])
    return host.shown()


def functions_crossed(host):
    host.begin()
    host.grant_device(host.ask_device())
    host.sub("28 0307 02")
    host.want(rb"\xff\xfa\x28\x03\x04\x02\xff\xf0", 1)
    return host.shown()


def functions_again(host):
    host.enhanced()
    host.show(BLANK)
    host.sub("28 0307")
    return host.want(rb"\xff\xfa\x28\x03\x04\xff\xf0", 1) is not None and host.shown()


def device_asked_twice(host):
    host.begin()
    host.sub("28 0802")
    host.grant_device(host.ask_device())
    host.grant_functions(host.asked_functions())
    return host.shown()


def device_again_in_functions(host):
    host.begin()
    host.grant_device(host.ask_device())
    host.asked_functions()
    host.grant_device(host.ask_device() or b"IBM-3278-2")
    host.grant_functions(host.asked_functions() or b"\x02")
    return host.shown()


def device_again_when_ready(host):
    host.enhanced()
    host.show(BLANK)
    time.sleep(0.1)
    host.grant_device(host.ask_device() or b"IBM-3278-2", b"LU0002")
    host.grant_functions(host.asked_functions() or b"\x02")
    return host.shown()


def device_extended(host):
    host.named(lambda name: name + b"-E")
    return host.shown()


def device_3279(host):
    host.named(lambda name: name.replace(b"3278", b"3279"))
    return host.shown()


def device_model_4(host):
    """Its screen has 43 rows: the Erase/Write Alternate is good there alone."""
    host.named(lambda name: b"IBM-3278-4-E")
    host.show(b"\x7e" + SIGN_ON[1:] + bytes_of("11F56F1DF0"))
    return host.answered()


def device_dynamic(host):
    host.named(lambda name: b"IBM-DYNAMIC")
    return host.shown()


def device_long_resource(host):
    host.begin()
    host.grant_device(host.ask_device(), b"TCPA0001")
    host.grant_functions(host.asked_functions() or b"")
    return host.shown()


def device_without_resource(host):
    host.begin()
    host.grant_device(host.ask_device(), None)
    host.grant_functions(host.asked_functions() or b"")
    return host.shown()


def bound(host):
    host.enhanced()
    host.record(BIND, 3)
    return host.shown()


def unbound(host):
    host.enhanced()
    host.record(BIND, 3)
    host.show(BLANK)
    host.record(b"\x01", 4)
    host.record(BIND, 3)
    return host.shown()


def sscp_first(host):
    host.enhanced()
    host.record("WAIT".encode("cp037"), 7)
    return host.shown()


def greeting(host):
    host.send(b"Welcome to SYSA\r\n")
    host.enhanced()
    return host.shown()


def greeting_classic(host):
    host.send(b"Welcome to SYSA\r\n")
    host.classic()
    return host.shown_classic()


def text(host):
    host.enhanced()
    host.record(b"Welcome\r\n", 5)
    return host.shown()


def empty_before(host):
    host.send(bytes_of("FFEF"))
    host.enhanced()
    return host.shown()


def empty_once_ready(host):
    host.enhanced()
    host.send(bytes_of("FFEF"))
    return host.shown()


def header_alone(host):
    host.enhanced()
    host.show(b"", 2, 1)
    return host.want(rb"\x02\x00\x00\x00\x01\x00\xff\xef", 0.5) is not None and host.shown()


def empty_classic(host):
    host.classic()
    host.send(bytes_of("FFEF"))
    return host.shown_classic()


def type_9(host):
    host.enhanced()
    host.record(b"x", 9)
    return host.shown()


def type_8(host):
    host.enhanced()
    host.record(b"", 8)
    return host.shown()


def timing_mark(host):
    host.send(bytes_of("FFFD06"))
    before = host.want(rb"\xff[\xfb\xfc]\x06", 1)
    host.enhanced()
    host.send(bytes_of("FFFD06"))
    return before is not None and host.want(rb"\xff[\xfb\xfc]\x06", 1) is not None and host.shown()


def other_options(host):
    host.send(bytes_of("FFFB01 FFFB03 FFFD03 FFFD1F FFFD27 FFFD2A FFFD23 FFFD2E"))
    host.enhanced()
    return host.shown()


def rejected(host):
    host.begin()
    host.ask_device()
    host.sub("28 0206 0504")
    if host.want(rb"\xff\xfc\x28", 1) is None:
        return False
    host.classic()
    return host.shown_classic()


def dont_enhanced(host):
    host.begin()
    host.send(bytes_of("FFFE28"))
    host.want(rb"\xff\xfc\x28", 1)
    host.classic()
    return host.shown_classic()


def dont_enhanced_when_ready(host):
    host.enhanced()
    host.send(bytes_of("FFFE28"))
    host.want(rb"\xff\xfc\x28", 1)
    host.classic()
    return host.shown_classic()


def type_asked_twice(host):
    host.type_agreed()
    host.type_agreed()
    host.send(bytes_of("FFFD19 FFFB19 FFFD00 FFFB00"))
    host.want(rb"\xff\xfd\x00")
    return host.shown_classic()


def binary_off_and_on(host):
    host.classic()
    host.send(bytes_of("FFFC00 FFFE00"))
    time.sleep(0.1)
    host.send(bytes_of("FFFD00 FFFB00"))
    time.sleep(0.1)
    return host.shown_classic()


def binary_off(host):
    host.classic()
    host.send(bytes_of("FFFC00 FFFE00"))
    time.sleep(0.1)
    return host.shown_classic()


def passed_commands(host):
    host.enhanced()
    host.send(bytes_of("FFF1 FFF6 FFF9"))
    return host.shown()


def screen_without_input(host):
    host.enhanced()
    host.show(bytes_of("F5C3 11405D1DF0E2E8E2C1"))
    time.sleep(0.3)
    return host.shown()


def screen_in_two_records(host):
    host.enhanced()
    host.show(bytes_of("F5C3"))
    time.sleep(0.05)
    host.show(b"\xf1" + SIGN_ON[1:])
    return host.answered()


def odd_numbers(host):
    host.enhanced()
    for number in (9, 9, 3):
        host.show(BLANK, 2, number)
        host.want(rb"\x02\x00\x00\x00.\x00\xff\xef", 0.5)
    return host.shown()


QUERY = bytes_of("F3 0005 01FF02")
REPLIES = bytes_of("88 0007 8180 8081A6 0017 8181 0100 0050 0018 01 000A 02E5 0002 006F 09 0C 0780 0011 81A6 0000 0B 01 00 0050 0018 0050 0018")


def queried(host):
    host.enhanced()
    host.show(QUERY, 2, 1)
    host.want(rb"\x02\x00[\x00\x01]\x00\x01.\xff\xef", 0.5)
    return host.shown()


def queried_without_responses(host):
    host.begin()
    host.grant_device(host.ask_device())
    host.asked_functions()
    host.sub("28 0307")
    host.want(rb"\xff\xfa\x28\x03\x04\xff\xf0")
    host.show(QUERY)
    return host.want(re.escape(REPLIES) + rb"\xff\xef", 1.0) is not None and host.shown()


def queried_list_classic(host):
    host.classic()
    host.record(bytes_of("F3 0007 01FF03 00 86"))
    return host.want(re.escape(bytes_of("88 0004 81FFFF")) + rb"\xff\xef", 1.0) is not None and host.shown_classic()


def screen_in_field(host):
    host.enhanced()
    field = bytes_of("4000") + SIGN_ON
    host.show(b"\xf3" + (len(field) + 2).to_bytes(2, "big") + field)
    return host.answered()


def erase_reset(host):
    host.enhanced()
    host.show(bytes_of("F3 0004 0300"))
    return host.shown()


def silent(host):
    time.sleep(1.0)
    return False


# the host; what `attach` prints, without 'answers', and its status; whether `attach --tolerant` gets through
HOSTS = [
    (plain, "keys 0", True),
    (functions_none, "N2 3", True),
    (functions_more, "N2 3", True),
    (functions_twice, "keys 0", True),
    (functions_asked_none, "keys 0", True),
    (functions_asked_all, "keys 0", True),
    (functions_crossed, "keys 0", True),
    (functions_again, "N3 3", True),
    (device_asked_twice, "keys 0", True),
    (device_again_in_functions, "N3 3", True),
    (device_again_when_ready, "N3 3", True),
    (device_extended, "N3 3", True),
    (device_3279, "N3 3", True),
    (device_model_4, "N3 3", True),
    (device_dynamic, "N3 3", True),
    (device_long_resource, "keys 0", True),
    (device_without_resource, "keys 0", True),
    (bound, "keys 0", True),
    (unbound, "keys 0", True),
    (sscp_first, "keys 0", True),
    (greeting, "H2 3", True),
    (greeting_classic, "closed 0", True),
    (text, "keys 0", True),
    (empty_before, "N5 3", True),
    (empty_once_ready, "H1 3", True),
    (header_alone, "closed 0", True),
    (empty_classic, "keys 0", True),
    (type_9, "H2 3", True),
    (type_8, "keys 0", True),
    (timing_mark, "keys 0", True),
    (other_options, "keys 0", True),
    (rejected, "N1 3", True),
    (dont_enhanced, "keys 0", True),
    (dont_enhanced_when_ready, "N4 3", True),
    (type_asked_twice, "keys 0", True),
    (binary_off_and_on, "N4 3", True),
    (binary_off, "N4 3", True),
    (passed_commands, "keys 0", True),
    (screen_without_input, "keys 0", True),
    (screen_in_two_records, "keys 0", True),
    (odd_numbers, "keys 0", True),
    (queried, "keys 0", True),
    (queried_without_responses, "closed 0", True),
    (queried_list_classic, "closed 0", True),
    (screen_in_field, "closed 0", True),
    (erase_reset, "keys 0", True),
    (silent, "closed 0", False),
]


def played(program, keys, host_of, options):
    """Whether the host got its answer, and the last word and the status of what `attach` said."""
    listening = socket.socket()
    listening.bind(("127.0.0.1", 0))
    listening.listen(1)
    listening.settimeout(10)
    port = str(listening.getsockname()[1])
    words = [program, "attach", *options, "127.0.0.1", keys, "--port", port]
    attached = subprocess.Popen(words, stdin=subprocess.DEVNULL, stdout=subprocess.PIPE, stderr=subprocess.STDOUT, text=True)
    line, _ = listening.accept()
    listening.close()
    try:
        got = host_of(Host(line))
    except Gone:
        got = False
    time.sleep(0.1)
    line.close()
    try:
        said = attached.communicate(timeout=5)[0]
    except subprocess.TimeoutExpired:
        attached.kill()
        said = attached.communicate()[0] + " hangs"
    return got, f"{(said.split() or ['nothing'])[-1]} {attached.returncode}"


def judged(program, keys, row):
    host_of, wanted, through = row
    found = []
    _, strict = played(program, keys, host_of, [])
    if strict != wanted:
        found.append(f"host {host_of.__name__}: attach said {strict}, wanted {wanted}")
    got, tolerant = played(program, keys, host_of, ["--tolerant", "--expect", "1"])
    due = "keys 0" if through else "closed 1"
    if (got, tolerant) != (through, due):
        found.append(f"host {host_of.__name__}: attach --tolerant said {tolerant} and {'got' if got else 'got not'} through, wanted {due}")
    return found


def main():
    program, names = os.path.abspath(sys.argv[1]), sys.argv[2:]
    rows = [row for row in HOSTS if not names or row[0].__name__ in names]
    with tempfile.TemporaryDirectory() as folder:
        keys = os.path.join(folder, "keys")
        with open(keys, "w", encoding="ascii") as file:
            file.write("type C1\nenter\n")
        with ThreadPoolExecutor(8) as pool:
            found = list(pool.map(lambda row: judged(program, keys, row), rows))
    for lines in found:
        for one in lines:
            print(one)
    failed = sum(1 for lines in found if lines)
    print(f"{len(rows) - failed} passed, {failed} failed")
    return failed > 0


if __name__ == "__main__":
    sys.exit(main())
