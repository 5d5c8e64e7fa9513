"""Golden cases of `show --format json`, `press` and `check --format json` through the Python package, which agrees with what they print; on eight
threads at once. The last line tells how many, and the status is 1 where one differs."""
import json
import pathlib
import sys
from concurrent.futures import ThreadPoolExecutor

import takvorn

CASES = pathlib.Path(__file__).parent / "cases"


def words_of(case):
    return (case / "args").read_text().splitlines() if (case / "args").exists() else []


def is_shown(case, text, printed):
    told = json.loads(printed)
    shown = takvorn.show(text)
    places = [(it["at"], it["place"], it["length"], it["codes"]) for it in told["fields"]]
    mine = [(it.at, it.place, it.length, it.codes.hex().upper()) for it in shown.fields]
    return (shown.rows, shown.columns, shown.cursor, shown.keyboard, mine) == (told["rows"], told["columns"], told["cursor"], told["keyboard"], places)


def is_pressed(keys, text, printed):
    lines = []
    for it in takvorn.press(text, keys):
        lines.append(f"sent {it.sent.hex().upper()}" if it.did == "sent" else f"{it.did} {it.cursor}")
    return lines == printed.splitlines()


def held_by(text):
    """A terminal that is kept, of the sizes and with the records of a text."""
    lines = [line.strip() for line in text.splitlines()]
    lines = [line for line in lines if line and not line.startswith("#")]
    sizes, wide = [(24, 80)], False
    if lines and lines[0].startswith("size"):
        words = lines.pop(0).split()[1:]
        wide = words[-1] == "16"
        sizes = [tuple(map(int, word.split("x"))) for word in words if "x" in word]
    terminal = takvorn.Terminal(sizes[0], sizes[-1], wide)
    for line in lines:
        terminal.apply(bytes.fromhex(line))
    return terminal


def is_held(keys, text, printed):
    """The same keys at a terminal that is kept, each also after its state was copied."""
    terminal, lines = held_by(text), []
    for key in keys.splitlines():
        if not key or key.startswith("#"):
            continue
        terminal = terminal.copy()
        it = terminal.press(key)
        lines.append(f"sent {it.sent.hex().upper()}" if it.did == "sent" else f"{it.did} {it.cursor}")
    return lines == printed.splitlines()


def is_kept(text, printed):
    told, screen = json.loads(printed), held_by(text).screen
    places = [(it["at"], it["place"], it["length"], it["codes"]) for it in told["fields"]]
    mine = [(it.at, it.place, it.length, it.codes.hex().upper()) for it in screen.fields]
    return (screen.rows, screen.columns, screen.cursor, screen.keyboard, mine) == (told["rows"], told["columns"], told["cursor"], told["keyboard"], places)


def is_checked(case, text, printed):
    *told, _ = map(json.loads, printed.splitlines())
    found = takvorn.check((case / words_of(case)[-1]).read_bytes(), text)
    return [(it["number"], it["words"], it.get("sends", "")) for it in told] == [
        (it.number, it.words, it.sends.hex().upper() if it.sends else "") for it in found
    ]


def is_refused(call, printed):
    try:
        call()
    except takvorn.Refused as refused:
        return refused.words == printed.strip()
    return False


def tried():
    """What is tried: the case, and whether the package agrees."""
    for case in sorted(CASES.glob("*/*")):
        words, kind = words_of(case), case.parent.name
        if not (case / "stdin").exists() or not (case / "stdout").exists() or (case / "make-stdin").exists():
            continue
        inputs = [case / "stdin", case / "stdout", *(case / word for word in words if kind == "press" and (case / word).is_file())]
        try:
            text, printed, *keys = (path.read_text() for path in inputs)
        except UnicodeDecodeError:
            continue
        status = (case / "status").read_text().strip() if (case / "status").exists() else "0"
        if words == ["show", "--format", "json"] and status == "0":
            yield case, lambda case=case, text=text, printed=printed: is_shown(case, text, printed)
            yield case, lambda text=text, printed=printed: is_kept(text, printed)
        elif kind == "press" and len(words) == 2 and keys:
            if status == "0":
                yield case, lambda keys=keys[0], text=text, printed=printed: is_pressed(keys, text, printed)
                yield case, lambda keys=keys[0], text=text, printed=printed: is_held(keys, text, printed)
            elif status == "2" and printed:
                call = lambda keys=keys[0], text=text: takvorn.press(text, keys)
                yield case, lambda call=call, printed=printed: is_refused(call, printed)
        elif words[:3] == ["check", "--format", "json"] and len(words) == 4 and (case / words[3]).is_file() and status in "01":
            yield case, lambda case=case, text=text, printed=printed: is_checked(case, text, printed)


cases = list(tried())
with ThreadPoolExecutor(8) as threads:
    agrees = list(threads.map(lambda it: it[1](), cases))
for (case, _), is_so in zip(cases, agrees):
    if not is_so:
        print(f"{case} differs")
print(f"{sum(agrees)} of {len(cases)}")
sys.exit(not cases or not all(agrees))
