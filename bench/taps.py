#!/usr/bin/env python3
"""Sessions through the tap beside the same without it: taps.py PROGRAM [N]

Three rows, each of the least seconds of nine runs with and without `tap`, in turn, and their ratio:

- a session: s3270, driven by a script, connects to a host, agrees on TN3270E, and answers N full screens, 1,000 by default, by Enter.
  This is the session that a user has; its ratio is to be 1.2 at most.
- bulk: 4 MB each way at once.
- to and fro: 4 N screens between two ends of ours that do nothing else, each end waiting for the other: the worst case of any relay.
"""
import os
import shutil
import socket
import subprocess
import sys
import threading
import time

EOR = b"\xff\xef"
SCREEN = bytes.fromhex("F5C3") + bytes(0xC1 + it % 9 for it in range(1920)) + EOR
# Erase/Write: a screen of 24 rows with a title, 40 fields of text and an input field with the cursor.
FIELDS = b"".join(b"\x1d\xf0" + bytes([0xC1 + it % 9]) * 38 for it in range(40))
FULL = bytes.fromhex("F5C3 114040") + FIELDS + bytes.fromhex("11 D5D5 1D40 13") + EOR
ANSWER = bytes.fromhex("7D4040") + EOR
BULK = 4_000_000
IAC, DO, WILL, SB, SE, E = 255, 253, 251, 250, 240, 40


def free_port():
    with socket.create_server(("127.0.0.1", 0)) as it:
        return it.getsockname()[1]


def read_exactly(line, count):
    while count:
        part = line.recv(min(count, 65536))
        if not part:
            raise AssertionError("an end")
        count -= len(part)


def read_to(line, end, held=b""):
    """What comes up to these bytes, and after them."""
    while end not in held:
        part = line.recv(65536)
        if not part:
            raise AssertionError("an end")
        held += part
    front, _, rest = held.partition(end)
    return front, rest


def nodelay(line):
    line.setsockopt(socket.IPPROTO_TCP, socket.TCP_NODELAY, 1)


def host_of_session(listener, count):
    """TN3270E without functions, and then a screen after each answer."""
    line, _ = listener.accept()
    nodelay(line)
    line.sendall(bytes([IAC, DO, E]))
    _, held = read_to(line, bytes([IAC, WILL, E]))
    line.sendall(bytes([IAC, SB, E, 8, 2, IAC, SE]))
    asked, held = read_to(line, bytes([IAC, SE]), held)
    name = asked[asked.index(bytes([2, 7])) + 2 :].partition(b"\x01")[0]
    line.sendall(bytes([IAC, SB, E, 2, 4]) + name + bytes([1]) + b"TAPS" + bytes([IAC, SE]))
    _, held = read_to(line, bytes([IAC, SE]), held)
    line.sendall(bytes([IAC, SB, E, 3, 7, IAC, SE]))
    _, held = read_to(line, bytes([IAC, SE]), held)
    for number in range(count):
        line.sendall(bytes([0, 0, 0, 0, 0]) + FULL)
        _, held = read_to(line, EOR, held)
    line.close()


def host_of_screens(listener, count):
    line, _ = listener.accept()
    nodelay(line)
    for _ in range(4 * count):
        line.sendall(SCREEN)
        read_exactly(line, len(ANSWER))
    line.close()


def send_bulk(line):
    line.sendall(bytes(BULK))
    line.shutdown(socket.SHUT_WR)


def bulk_over(line):
    sender = threading.Thread(target=send_bulk, args=(line,))
    sender.start()
    read_exactly(line, BULK)
    sender.join()


def host_of_bulk(listener, _count):
    line, _ = listener.accept()
    bulk_over(line)
    line.close()


def session(port, count):
    """s3270 with a script of Enter after Enter, to the host's end."""
    script = "Wait(10,InputField)\n" + "Enter\n" * (count - 1) + "Enter\nQuit\n"
    begun = time.perf_counter()
    subprocess.run(["s3270", "-model", "2", f"127.0.0.1:{port}"], input=script.encode(), stdout=subprocess.DEVNULL, stderr=subprocess.DEVNULL, timeout=300)
    return time.perf_counter() - begun


def screens(port, count):
    line = socket.create_connection(("127.0.0.1", port))
    nodelay(line)
    begun = time.perf_counter()
    for _ in range(4 * count):
        read_exactly(line, len(SCREEN))
        line.sendall(ANSWER)
    took = time.perf_counter() - begun
    line.close()
    return took


def bulk(port, _count):
    line = socket.create_connection(("127.0.0.1", port))
    begun = time.perf_counter()
    bulk_over(line)
    took = time.perf_counter() - begun
    line.close()
    return took


def serve(host, listener, count):
    try:
        host(listener, count)
    except (AssertionError, OSError):
        pass


def run(program, host, terminal, count):
    listener = socket.create_server(("127.0.0.1", 0))
    far = listener.getsockname()[1]
    serving = threading.Thread(target=serve, args=(host, listener, count))
    serving.start()
    if program is None:
        took = terminal(far, count)
    else:
        near = free_port()
        words = [program, "tap", "127.0.0.1", "--port", str(far), "--listen-port", str(near), "--count", "1"]
        tap = subprocess.Popen(words, stdout=subprocess.DEVNULL, stderr=subprocess.DEVNULL)
        time.sleep(0.3)
        took = terminal(near, count)
        tap.wait()
    serving.join()
    listener.close()
    return took


def row(name, program, host, terminal, count):
    # In turn, so that what else the machine does meets both.
    rows = [(run(program, host, terminal, count), run(None, host, terminal, count)) for _ in range(9)]
    tapped, without = (min(column) for column in zip(*rows))
    print(f"tap, {name}: {tapped:.3f} s, without it {without:.3f} s, ratio {tapped / without:.2f}", flush=True)


def main():
    program = os.path.abspath(sys.argv[1])
    count = int(sys.argv[2]) if len(sys.argv) > 2 else 1000
    if shutil.which("s3270"):
        row(f"a session of s3270, {count} screens", program, host_of_session, session, count)
    else:
        print("tap, a session of s3270: skipped, it isn't installed")
    row("4 MB each way", program, host_of_bulk, bulk, count)
    row(f"to and fro without a pause, {4 * count} screens", program, host_of_screens, screens, count)


if __name__ == "__main__":
    main()
