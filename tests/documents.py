"""Runs each block of commands of the documents as it stands, and compares what it prints with what the document shows:
documents.py PROGRAM [DOCUMENT..]. A block of commands is one with a line that begins with '$ '; what such a line prints follows it.
Each document has a copy of the tree and a shell of its own, so that nothing is left behind and a block may use what came before.
Commands in the background are waited for at the block's end, and what they print is shown last. Port 3270 is replaced by a free
one. Of a session of Python, lines that begin with '>>> ', doctest compares the values. The last line is 'N passed, M failed',
after which ', N skipped' tells the blocks whose tools aren't there.

A comment on the line above a block, which readers of the page don't see, says what it needs:
  <!-- not run: WHY -->            nothing is run
  <!-- needs NAME, NAME -->        run where these commands, or files of the tree, are there
  <!-- beside the next block -->   run in a shell of its own, together with the next block
  <!-- beside: COMMAND -->         run together with this command, which begins once the port listens
"""
import os
import pathlib
import re
import shlex
import shutil
import signal
import socket
import subprocess
import sys
import tempfile

root = pathlib.Path(__file__).resolve().parent.parent
program = pathlib.Path(sys.argv[1]).resolve()
TREE = ["README.md", "CHANGELOG.md", "Makefile", "docs", "examples", "include", "completions", "scripts", "vectors", "python", "tests/any_terminal.py"]
PORT = re.compile(r"(?<=port )3270\b|(?<=[\w\]]:)3270\b")
SECONDS = 50


class Block:
    """Some commands of a document, each with the lines that are shown below it."""

    def __init__(self, document, line, note, lines):
        self.place, self.note, self.commands = f"{document}:{line}", note, []
        for text in lines:
            if text.startswith("$ "):
                self.commands.append((text[2:], []))
            else:
                self.commands[-1][1].append(text)

    def says(self, start):
        """What the note says behind these words."""
        return self.note[len(start):].strip() if self.note.startswith(start) else None

    def missing(self):
        named = re.split(r",\s*", self.says("needs") or "")
        return [name for name in named if name and not ((root / name).exists() if "/" in name else shutil.which(name))]


def blocks_of(document):
    """The blocks of commands of a document, and its notes that stand above none."""
    blocks, stray, note, lines = [], [], "", None
    for number, text in enumerate((root / document).read_text().split("\n"), 1):
        if lines is None and text.startswith("```"):
            begun, lines = number, []
        elif lines is None:
            if note:
                stray.append(f"{document}:{number - 1}")
            found = re.fullmatch(r"<!-- ((?:not run|needs|beside)\b.*) -->", text)
            note = found[1] if found else ""
        elif text == "```":
            if lines and lines[0].startswith("$ "):
                blocks.append(Block(document, begun, note, lines))
            elif note or any(line.startswith("$ ") for line in lines):
                stray.append(f"{document}:{begun}")
            note, lines = "", None
        else:
            lines.append(text)
    return blocks, stray


def free_port():
    with socket.socket() as line:
        line.bind(("127.0.0.1", 0))
        return line.getsockname()[1]


BEGINNING = r"""
# Waits until somebody listens at a port, and doesn't connect: whoever connects is a terminal.
listens() { for _ in {1..250}; do grep -qiE ":$1 0*:0000 0A" /proc/net/tcp /proc/net/tcp6 && return; sleep 0.02; done; }
exec < /dev/null
"""


class Script:
    """The shell script of a document, and where what its commands print is left."""

    def __init__(self, room):
        self.room, self.text, self.count = room, BEGINNING, 0

    def printed(self):
        self.count += 1
        return self.room / str(self.count)

    def add_command(self, command, shown, port):
        """Adds a command; gives the file of what it prints."""
        file = self.printed()
        if any(line.startswith(">>> ") for line in shown):
            session = self.room / f"{self.count}.session"
            session.write_text("\n".join(shown) + "\n")
            command = f"{command} -m doctest {session}"
        background = command.endswith(" &")
        self.text += f"eval {shlex.quote(command.removesuffix('&'))} > {file} 2>&1{' &' if background else ''}\n"
        if background and str(port) in command:
            self.text += f"listens {port:04x}\n"
        return file, background

    def add_block(self, block, port):
        """Adds a block; gives for each command what it shows and the files in which it is printed."""
        rows, later = [], []
        for command, shown in block.commands:
            file, background = self.add_command(PORT.sub(str(port), command), shown, port)
            rows.append((command, [] if any(line.startswith(">>> ") for line in shown) else shown, [] if background else [file]))
            later += [file] if background else []
        rows[-1][2].extend(later)
        return rows


def script_of(blocks, script):
    """Adds all blocks to a script; gives the rows of each, and its port."""
    rows, port = [], None
    for block in blocks:
        beside_next = block.note == "beside the next block"
        follows = rows and rows[-1][0].note == "beside the next block"
        port = port if follows else free_port()
        beside = block.says("beside:")
        if beside:
            script.text += f"(listens {port:04x}; {PORT.sub(str(port), beside)} > {script.room}/beside 2>&1) &\n"
        script.text += "(\n" if beside_next else ""
        rows.append((block, port, script.add_block(block, port)))
        script.text += f"wait ) &\nlistens {port:04x}\n" if beside_next else "wait\n"
        script.text += f"echo {len(rows)} > {script.room}/done\n"
    return rows


def run(script, folder):
    environment = {name: value for name, value in os.environ.items() if name not in ("NO_COLOR", "CDPATH", "BASH_ENV")}
    shell = subprocess.Popen(["bash", "-c", script.text], cwd=folder, env=environment | {"LC_ALL": "C.UTF-8"}, start_new_session=True,
                             stdin=subprocess.DEVNULL, stdout=sys.stderr)
    try:
        shell.wait(SECONDS)
    except subprocess.TimeoutExpired:
        print(f"after {SECONDS} seconds a block still ran")
    try:
        os.killpg(shell.pid, signal.SIGKILL)
    except ProcessLookupError:
        pass
    shell.wait()


def copy_tree(folder):
    for name in TREE:
        (folder / name).parent.mkdir(parents=True, exist_ok=True)
        (shutil.copytree if (root / name).is_dir() else shutil.copy)(root / name, folder / name)
    for name, files in ("bin/term3270", program), *((f"out/{file.name}", file) for file in (root / "out").glob("libtakvorn.*")):
        (folder / name).parent.mkdir(exist_ok=True)
        (folder / name).symlink_to(files)


def differences(block, port, rows):
    """What differs in a block, as lines."""
    told = []
    for command, shown, files in rows:
        printed = "".join(file.read_text(errors="replace") if file.exists() else "(not run)\n" for file in files)
        printed = re.sub(rf"(?<=port ){port}\b|(?<=:){port}\b", "3270", printed)
        if printed != "".join(f"{line}\n" for line in shown):
            told += [f"{block.place}: $ {command}", *(f"  shown:   {line}" for line in shown),
                     *(f"  printed: {line}" for line in printed.split("\n")[:-1])]
    return told


def try_document(document):
    """How many blocks passed, failed and were left out."""
    blocks, stray = blocks_of(document)
    for place in stray:
        print(f"{place}: a note without a block of commands, or a block that doesn't begin with one")
    blocks = [block for block in blocks if block.says("not run:") is None]
    left = [block for block in blocks if block.missing()]
    for block in left:
        print(f"{block.place}: left out, as there is no {', '.join(block.missing())}")
    with tempfile.TemporaryDirectory() as room:
        room = pathlib.Path(room)
        (room / "tree").mkdir()
        (room / "printed").mkdir()
        copy_tree(room / "tree")
        script = Script(room / "printed")
        rows = script_of([block for block in blocks if block not in left], script)
        run(script, room / "tree")
        told = [differences(*row) for row in rows]
    for lines in told:
        print(*lines, sep="\n", end="\n" if lines else "")
    failed = sum(map(bool, told))
    return len(rows) - failed, failed + len(stray), len(left)


documents = sys.argv[2:] or ["README.md", *sorted(f"docs/{file.name}" for file in (root / "docs").glob("*.md"))]
passed, failed, skipped = map(sum, zip(*map(try_document, documents)))
print(f"{passed} passed, {failed} failed" + (f", {skipped} skipped" if skipped else ""))
sys.exit(failed > 0)
