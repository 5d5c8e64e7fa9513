"""Tries the completions in bash and zsh at a terminal of their own: completions.py PROGRAM. What --help says of the values of an
option is what the shells offer for it, after a space and after =; files of the right kind are offered, and names with spaces
come out quoted. A shell that isn't installed is said. The last line is 'N passed, M failed'."""
import os
import pathlib
import pty
import re
import select
import shutil
import subprocess
import sys
import tempfile
import time

program = pathlib.Path(sys.argv[1]).resolve()
completions = pathlib.Path(__file__).resolve().parent.parent / "completions"
passed = failed = 0


def compare(what, wanted, found):
    global passed, failed
    if wanted == found:
        passed += 1
    else:
        failed += 1
        print(f"{what}: wanted {wanted!r}, found {found!r}")


def help_of(*words):
    return subprocess.run([program, *words, "--help"], capture_output=True, text=True).stdout


def devices(told):
    """The names of 'IBM-3278-M or IBM-3279-M, M from 2 to 5, and -E where it is extended'."""
    stems, first, last = re.findall(r"(IBM-\d+-)M", told), *map(int, re.search(r"M from (\d) to (\d)", told).groups())
    return [f"{stem}{model}{end}" for stem in stems for model in range(first, last + 1) for end in ("", "-E")]


def values_of_help():
    """The command, the option and the values of each option that has them."""
    commands = re.findall(r"^  ([a-z]+) ", help_of().split("Commands:")[1].split("\n\n")[0], re.M)
    for command in commands:
        for option, told in re.findall(r"^ +(?:-\w, )?(--[a-z-]+) <[A-Z]+> +(.*)$", help_of(command), re.M):
            listed = re.search(r"\[possible values: ([^]]*)\]", told)
            if listed:
                yield command, option, listed[1].split(", ")
            elif option == "--device":
                yield command, option, devices(told)


class Shell:
    """An interactive shell in a folder, whose line is written to a file by Ctrl-X Ctrl-P, and what it offers to another."""

    def __init__(self, words, folder, room, lines):
        self.line, self.offered = room / "line", room / "offered"
        self.process, self.terminal = pty.fork()
        if self.process == 0:
            os.chdir(folder)
            os.environ.update(TERM="dumb", PS1="> ", LC_ALL="C.UTF-8", HOME=str(room), HISTFILE="")
            os.execvp(words[0], words)
        (room / "begin").write_text("\n".join(lines).replace("@line", str(self.line)).replace("@offered", str(self.offered)) + "\n")
        self.strike(f" . {room}/begin\r")
        self.after("")

    def strike(self, keys):
        os.write(self.terminal, keys.encode())

    def drain(self):
        while select.select([self.terminal], [], [], 0)[0]:
            if not os.read(self.terminal, 65536):
                return

    def after(self, typed):
        """The line after Tab behind what is typed, and the words that were offered."""
        for file in (self.line, self.offered):
            file.unlink(missing_ok=True)
        self.strike(f"{typed}\t\x18\x10" if typed else "\x18\x10")
        for tried in range(1500):
            self.drain()
            if tried % 400 == 399:
                self.strike("\x18\x10")
            if self.line.exists() and self.line.read_text().endswith("\n"):
                break
            time.sleep(0.02)
        else:
            return "no line", []
        self.strike("\x15")
        return self.line.read_text()[:-1], self.offered.read_text().split("\n")[:-1] if self.offered.exists() else []

    def end(self):
        os.kill(self.process, 9)
        os.waitpid(self.process, 0)
        os.close(self.terminal)


BASH = [
    f". '{completions}/term3270.bash'",
    "listed() { _term3270; printf '%s\\n' \"${COMPREPLY[@]}\" > @offered; }",
    "complete -F listed term3270",
    "bind 'set completion-query-items 0' 'set page-completions off' 'set bell-style none'",
    "bind -x '\"\\C-x\\C-p\": printf \"%s\\n\" \"$READLINE_LINE\" > @line.new; mv @line.new @line'",
]
ZSH = [
    f"fpath=('{completions}' $fpath)",
    "autoload -U compinit && compinit -u -D",
    "unsetopt beep listbeep",
    "zstyle ':completion:*' completer _complete",
    "compadd() {",
    "  if [[ ${@[1,(i)(-|--)]} != *-(O|A|D)\\ * ]]; then",
    "    local -a hits",
    "    builtin compadd -A hits \"$@\"",
    "    (( $#hits )) && print -rl -- $hits >> @offered",
    "  fi",
    "  builtin compadd \"$@\"",
    "}",
    "told() { print -r -- $BUFFER > @line.new; mv @line.new @line }",
    "zle -N told; bindkey -e; bindkey '^X^P' told",
]
SHELLS = {"bash": (["bash", "--norc", "--noprofile", "-i"], BASH), "zsh": (["zsh", "-f", "-i"], ZSH)}

FILES = ["plain.toml", "my layout.toml", "screen.hex", "my screen.hex", "sign on.bms", "keys", "answers to bind.txt", "deep er/two.toml"]
# What is typed, and the line after Tab.
LINES = {
    "term3270 che": "term3270 check ",
    "term3270 show --for": {"bash": "term3270 show --format ", "zsh": "term3270 show --format="},
    "term3270 show --format h": "term3270 show --format html ",
    "term3270 check --format=sa": "term3270 check --format=sarif ",
    "term3270 show --color al": "term3270 show --color always ",
    "term3270 records --from=st": "term3270 records --from=stream ",
    "term3270 attach localhost keys --device=IBM-3279-4-": "term3270 attach localhost keys --device=IBM-3279-4-E ",
    "term3270 check p": "term3270 check plain.toml ",
    "term3270 check --format=json p": "term3270 check --format=json plain.toml ",
    "term3270 check --format json --demo p": "term3270 check --format json --demo plain.toml ",
    "term3270 map --layout s": r"term3270 map --layout sign\ on.bms ",
    r"term3270 bind deep\ er/t": r"term3270 bind deep\ er/two.toml ",
    "term3270 check my": r"term3270 check my\ layout.toml ",
    r"term3270 check my\ l": r"term3270 check my\ layout.toml ",
    'term3270 check "my l': 'term3270 check "my layout.toml" ',
    "term3270 check plain.toml --records m": r"term3270 check plain.toml --records my\ screen.hex ",
    "term3270 check --records=m": r"term3270 check --records=my\ screen.hex ",
    "term3270 show --layout my": r"term3270 show --layout my\ layout.toml ",
    "term3270 show --map s": r"term3270 show --map sign\ on.bms ",
    "term3270 map s": r"term3270 map sign\ on.bms ",
    "term3270 talk plain.toml my": r"term3270 talk plain.toml my\ layout.toml ",
    "term3270 bind d": r"term3270 bind deep\ er/",
    "term3270 serve --port 3270 --count 1 p": "term3270 serve --port 3270 --count 1 plain.toml ",
    "term3270 bind ans": r"term3270 bind answers\ to\ bind.txt ",
    "term3270 press k": "term3270 press keys ",
    "term3270 press ans": r"term3270 press answers\ to\ bind.txt ",
    "term3270 attach localhost k": "term3270 attach localhost keys ",
    "term3270 convert --back < ans": r"term3270 convert --back < answers\ to\ bind.txt ",
    "term3270 check plain.toml < sc": "term3270 check plain.toml < screen.hex ",
    "term3270 help rec": "term3270 help records ",
}


def try_shell(name, room):
    words, lines = SHELLS[name]
    folder = room / f"in {name}"
    for file in FILES:
        (folder / file).parent.mkdir(parents=True, exist_ok=True)
        (folder / file).touch()
    shell = Shell(words, folder, room, lines)
    for command, option, values in values_of_help():
        for between in " =":
            _, offered = shell.after(f"term3270 {command} {option}{between}")
            compare(f"{name}, {command} {option}{between}", sorted(values), sorted(set(offered)))
    for typed, wanted in LINES.items():
        wanted = wanted if isinstance(wanted, str) else wanted[name]
        compare(f"{name}, {typed!r}", wanted, shell.after(typed)[0])
    shell.end()


with tempfile.TemporaryDirectory() as room:
    for name in SHELLS:
        if shutil.which(name):
            (pathlib.Path(room) / name).mkdir()
            try_shell(name, pathlib.Path(room) / name)
        else:
            print(f"{name} is not installed: its completions are left out")
print(f"{passed} passed, {failed} failed")
sys.exit(failed > 0)
