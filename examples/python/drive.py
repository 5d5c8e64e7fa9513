"""A test tool of one's own over `term3270 script`: drive.py PROGRAM LINE.. sends each line, and prints its data. The status is 1 where one
is answered with `error`."""
import subprocess
import sys

program, *lines = sys.argv[1:]
terminal = subprocess.Popen([program, "script"], stdin=subprocess.PIPE, stdout=subprocess.PIPE, text=True)
errors = 0
for line in lines:
    print(line, file=terminal.stdin, flush=True)
    while (said := terminal.stdout.readline()).startswith("data: "):
        print(said.removeprefix("data: "), end="")
    errors += terminal.stdout.readline() != "ok\n"  # after the status line
terminal.stdin.close()
terminal.wait()
sys.exit(errors > 0)
