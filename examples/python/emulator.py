"""An emulator in 40 lines: each line of standard input is a record in hexadecimal or a key, as `type C1`, `tab` or `enter`. After each it prints what
becomes of it, and at the end the screen, with the cursor's place."""
import sys

import takvorn


def take(terminal: takvorn.Terminal, line: str) -> str:
    """What becomes of a record or a key."""
    try:
        record = bytes.fromhex(line)
    except ValueError:
        pressed = terminal.press(line)
        return f"sent {pressed.sent.hex().upper()}" if pressed.sent is not None else f"{pressed.did} {pressed.cursor}"
    effect = terminal.apply(record)
    if effect.did in ("read modified", "read modified all"):
        return "sent " + terminal.answer(effect.did.endswith("all")).hex().upper()
    if effect.did == "read buffer":
        return "sent " + terminal.buffer().hex().upper()
    return effect.did


def main() -> None:
    terminal = takvorn.Terminal()
    for line in sys.stdin:
        line = line.strip()
        if not line or line.startswith("#"):
            continue
        try:
            print(take(terminal, line))
        except ValueError as refused:
            print(refused)
    screen = terminal.screen
    for row in screen.text:
        print(row.rstrip())
    print(f"row {screen.cursor // screen.columns + 1}, column {screen.cursor % screen.columns + 1}, {screen.keyboard}")


main()
