"""How a case is tried at a terminal.

A driver has a name and a method `result`: it takes a case, and returns what came of it, a dictionary of `screen`, `answers` and, of a
terminal that tells its refusals, `refused`, as a case has them; or None where the terminal can't be made of the case's sizes.
"""

import json
import os
import subprocess
import tempfile

from parts.host import FENCE, FENCE_ANSWER, READ_BUFFER, Gone, Host
from parts.screen import Unreadable, buffer_cells, cells_of, device_of, is_applied, is_read, place_in, screen_json, sizes_of


def heard(host, case, press=lambda piece: b""):
    """What the terminal sends after each piece of the host and the key that is pressed then, up to where it closes the line; and whether
    it did."""
    replies, pieces = [], records_in(case, "host")
    if "functions" in case:
        host.enhanced(bytes.fromhex(case["functions"]))
    for piece in pieces:
        try:
            host.put(piece + FENCE)
            replies.append((host.until(FENCE_ANSWER) + press(piece)).hex().upper())
        except Gone:
            return [*replies, host.bytes.hex().upper()], True
    return replies, False


def records_in(case, part):
    return [bytes.fromhex(it) for it in case.get(part, [])]


def upper(answers):
    return [it.hex().upper() for it in answers]


def told_buffer(answer, sizes):
    """The size, the attention identifier, the cursor and the cells of an answer to Read Buffer."""
    if len(answer) < 3:
        raise Unreadable(f"{answer.hex()} is no answer to Read Buffer")
    for size in sizes:
        rows, columns = cells_of(size)
        cells = buffer_cells(answer[3:])
        if len(cells) == rows * columns:
            return size, answer[0], place_in(answer[1:3]), cells
    raise Unreadable(f"{len(cells)} cells, of no size of {sizes}")


class Takvorn:
    """This project's program. `show` and `press` print what records and keys do; what a terminal's buffer holds after keys is read by a
    host at which `attach` presses them, where a model has the case's sizes."""

    name = "term3270"

    def __init__(self, program):
        self.program = os.path.abspath(program)
        self.host = Host()
        self.folder = tempfile.TemporaryDirectory()
        self.keys = os.path.join(self.folder.name, "keys")

    def close(self):
        self.folder.cleanup()

    def printed(self, words, case, records):
        text = f"size {case['size']}\n" + "".join(f"{it.hex()}\n" for it in records)
        run = subprocess.run([self.program, *words], input=text, capture_output=True, text=True, check=False)
        if run.returncode not in (0, 2):
            raise Unreadable(f"{' '.join(words)}: status {run.returncode} {run.stderr}")
        return run.stdout

    def session(self, case):
        """A session byte by byte, and the fault that `attach` prints where it ends the session. It ends with its last key: one more is kept back."""
        self.keep([*case["keys"], "reset"])
        words = [self.program, "attach", "127.0.0.1", self.keys, "--port", str(self.host.port), "--device", case["device"]]
        run = subprocess.Popen(words, stdout=subprocess.PIPE, text=True)
        try:
            self.host.accept()
            replies, is_over = heard(self.host, case)
            self.host.close()
            printed = run.communicate(timeout=10)[0].split()
        finally:
            run.kill()
            run.wait()
        return {"terminal": replies} | ({"ends": printed[1] if printed[0] == "fault" else printed[-1]} if is_over else {})

    def result(self, case):
        if "host" in case:
            return self.session(case)
        records, keys = records_in(case, "records"), case.get("keys", [])
        written = [it for it in records if is_applied(it)]
        shown = self.printed(["show", "--format", "json"], case, written)
        refused = {}
        if not shown.startswith("{"):
            refused = {"refused": refusal_in(self.printed(["show"], case, written))}
            good = written[: refused["refused"]["record"]]
            refused["refused"]["record"] = records.index(written[len(good)])
            shown = self.printed(["show", "--format", "json"], case, good)
            if keys or len(written) != len(good) + 1:
                raise Unreadable("nothing comes after a refused record in a case")
        screen = shown_screen(json.loads(shown))
        if keys or case.get("then") or len(written) < len(records):
            return refused | self.worked(case, screen, written, keys)
        return refused | {"screen": screen, "answers": []}

    def worked(self, case, shown, written, keys):
        self.keep(keys)
        pressed = [it.split() for it in self.printed(["press", "--strokes", self.keys], case, written).splitlines()]
        sent = [bytes.fromhex(it[1]) for it in pressed if it[0] == "sent"]
        keyboard = keyboard_after(shown["keyboard"], [it[0] for it in pressed])
        if device_of(case):
            return self.attached(case, keys, keyboard, sent)
        return {"screen": moved(shown, keyboard, pressed), "answers": upper(sent)}

    def keep(self, keys):
        with open(self.keys, "w", encoding="ascii") as file:
            file.write("".join(f"{it}\n" for it in keys))

    def attached(self, case, keys, keyboard, sent):
        """Presses the keys at a host of ours, and after each time that the keyboard is free at the end, Enter, so that the run goes on."""
        records, then = records_in(case, "records"), records_in(case, "then")
        self.keep([*keys, *["reset", "enter"] * (len(then) + 1), "reset"])
        words = [self.program, "attach", "--strokes", "127.0.0.1", self.keys, "--port", str(self.host.port), "--device", device_of(case)]
        run = subprocess.Popen(words, stdout=subprocess.DEVNULL)
        try:
            self.host.accept()
            self.host.classic()
            answers = self.sent(records, then, len(sent), keyboard)
            *_, buffer = self.host.answers_to(READ_BUFFER)
            self.host.close()
        finally:
            run.kill()
            run.wait()
        answers, keyboard = answers
        size, aid, cursor, cells = told_buffer(buffer, sizes_of(case)[:2])
        if [it for it in answers if it in sent] != sent and not then:
            raise Unreadable(f"press sends {upper(sent)}, attach {upper(answers)}")
        return {"screen": screen_json(size, cells, cursor, keyboard, aid if keyboard == "waiting" else 0x60), "answers": upper(answers)}

    def sent(self, records, then, keys, keyboard):
        """The answers to these records, without those to Enter at the end, and the keyboard."""
        answers = []
        for record in records[:-1]:
            came = self.host.answers_to(record)
            if len(came) != is_read(record):
                raise Unreadable("a record before the last one of a case frees the keyboard")
            answers += came
        for record in records[-1:]:
            wanted = is_read(record) + keys
            answers += self.host.answers_to(record)[:wanted]
        for record in then:
            came = self.host.answers_to(record)
            answers += came[: is_read(record)]
            keyboard = "free" if len(came) > is_read(record) else "waiting"
        return answers, keyboard


def refusal_in(printed):
    """`record 0 refused at 3: O5 UnknownOrder` as a case has it."""
    words = printed.split()
    return {"record": int(words[1]), "place": int(words[4][:-1]), "reason": " ".join(words[5:])}


def shown_screen(shown):
    """What `show --format json` tells, as a case has it."""
    cells = [code for row in shown["codes"] for code in bytes.fromhex(row)]
    for at in shown["graphic_escapes"]:
        cells[at] = [cells[at]]
    for field in shown["fields"]:
        cells[field["at"]] = (int(field["attribute"], 16),)
    return screen_json(f"{shown['rows']}x{shown['columns']}", cells, shown["cursor"], shown["keyboard"], int(shown["aid"], 16))


def keyboard_after(keyboard, outcomes):
    for outcome in outcomes:
        keyboard = {"done": "free", "inhibited": "error", "sent": "waiting"}.get(outcome, keyboard)
    return keyboard


def moved(shown, keyboard, pressed):
    """The screen after keys that change no cell."""
    screen = shown | {"keyboard": keyboard}
    for word, told in pressed:
        if word in ("done", "inhibited"):
            screen["cursor"] = int(told)
        if word == "sent":
            screen["aid"] = told[:2]
    return screen
