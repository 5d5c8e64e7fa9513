"""A terminal that speaks lines on its standard input and output: the protocol of README.md."""

import shlex
import subprocess

from parts.drivers import told_buffer, upper
from parts.screen import Unreadable, screen_json, sizes_of


class Lines:
    name = "lines"

    def __init__(self, command):
        self.process = subprocess.Popen(shlex.split(command), stdin=subprocess.PIPE, stdout=subprocess.PIPE, text=True)

    def close(self):
        self.process.kill()
        self.process.communicate()

    def ask(self, line):
        """A line, and the words of its answer."""
        self.process.stdin.write(f"{line}\n")
        self.process.stdin.flush()
        answer = self.process.stdout.readline().split()
        if not answer:
            raise Unreadable(f"no answer to {line}")
        return answer

    def result(self, case):
        if "size" not in case or self.ask(f"size {case['size']}")[0] != "ok":
            return None
        answers, refused = [], {}
        for index, record in enumerate(case["records"]):
            word, *told = self.ask(f"apply {record}")
            answers += told if word == "sent" else []
            if word == "refused":
                refused = {"refused": case.get("refused", {"record": index})}
        for line in [f"press {it}" for it in case["keys"]] + [f"apply {it}" for it in case.get("then", [])]:
            word, *told = self.ask(line)
            answers += told if word == "sent" else []
        keyboard, buffer = self.ask("read")
        size, aid, cursor, cells = told_buffer(bytes.fromhex(buffer), sizes_of(case)[:2])
        return refused | {"screen": screen_json(size, cells, cursor, keyboard, aid), "answers": upper(map(bytes.fromhex, answers))}
