"""A process that test tools drive by lines, in the language of s3270."""
import os
import re
import select
import subprocess
import time
from dataclasses import dataclass

ENDS = re.compile(rb"(^|\n)(ok|error)\n$")


@dataclass
class Program:
    """The command that is tested."""

    words: list[str]
    is_ours: bool
    folder: str | None = None

    def start(self, more: list[str] | None = None) -> subprocess.Popen[bytes]:
        environment = dict(os.environ, HOME="/nonexistent", LC_ALL="C.UTF-8")
        return subprocess.Popen(self.words + (more or []), stdin=subprocess.PIPE, stdout=subprocess.PIPE, stderr=subprocess.PIPE,
                                bufsize=0, env=environment, cwd=self.folder)


class Fault(Exception):
    """What a test found wrong."""


def want(is_so: bool, words: str) -> None:
    if not is_so:
        raise Fault(words)


# ---- driving


class Driver:
    """A process that is driven by lines, one answer at a time."""

    def __init__(self, program: Program, more: list[str] | None = None) -> None:
        self.process = program.start(more)

    def write(self, data: bytes) -> bool:
        assert self.process.stdin is not None
        try:
            self.process.stdin.write(data)
        except BrokenPipeError:
            return False
        return True

    def read(self, seconds: float) -> bytes | None:
        """What comes, nothing at the end, or None where the time is over."""
        assert self.process.stdout is not None
        if not select.select([self.process.stdout], [], [], max(0.0, seconds))[0]:
            return None
        return os.read(self.process.stdout.fileno(), 65536)

    def answer(self, seconds: float = 8.0) -> bytes:
        """An answer up to its last line, or what came and a line of `<` that says why there is no more."""
        stop = time.time() + seconds
        came = b""
        while not ENDS.search(came):
            more = self.read(stop - time.time())
            if more is None:
                return came + b"<no answer>\n"
            if not more:
                return came + b"<end of output>\n"
            came += more
        return came

    def ask(self, line: str) -> tuple[list[str], list[str], str]:
        """The data of a line's answer, the words of its status, and its last line."""
        self.write(line.encode() + b"\n")
        lines = self.answer().decode().split("\n")
        want(len(lines) >= 3 and lines[-1] == "", f"{line}: no answer but {lines}")
        data = [one[6:] for one in lines[:-3]]
        want(all(one.startswith("data: ") for one in lines[:-3]), f"{line}: other lines than data: {lines}")
        return data, lines[-3].split(" "), lines[-2]

    def close_input(self) -> None:
        assert self.process.stdin is not None
        try:
            self.process.stdin.close()
        except OSError:
            pass

    def rest(self, seconds: float) -> bytes:
        stop = time.time() + seconds
        came = b""
        while True:
            more = self.read(stop - time.time())
            if not more:
                return came
            came += more

    def end(self, seconds: float = 5.0) -> tuple[bytes, int | None]:
        """Closes its input: what it still says, and its status, none where it doesn't end."""
        self.close_input()
        came = self.rest(seconds)
        try:
            status: int | None = self.process.wait(seconds)
        except subprocess.TimeoutExpired:
            self.process.kill()
            self.process.wait()
            status = None
        for pipe in (self.process.stdout, self.process.stderr):
            if pipe is not None:
                pipe.close()
        return came, status
