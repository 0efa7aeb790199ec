#!/usr/bin/env python3
"""Runs the commands of the example sessions with the program as built, and compares what they print.

usage: tools/examples.py PROGRAM

A folder of examples/ has a file `session`: a line `$ WORDS` for each command, as a user types it behind the program's
name, then what the command prints (standard output, then standard error), then `[status N]`. Commands run in the
folder. The outputs were worked by hand."""
import pathlib
import shlex
import subprocess
import sys

from printed import end, is_wanted


def commands(session):
    """The commands of a session: words, the lines that are wanted, the status that is wanted."""
    words, wanted = None, []
    for number, line in enumerate(session.read_text().splitlines(), 1):
        if line.startswith("$ "):
            if words is not None:
                raise SystemExit(f"{session}:{number}: a command without its status before")
            words, wanted = shlex.split(line[2:]), []
        elif line.startswith("[status ") and line.endswith("]") and words is not None:
            yield words, wanted, int(line[len("[status "):-1])
            words = None
        elif words is not None:
            wanted.append(line)
        elif line:
            raise SystemExit(f"{session}:{number}: a line outside a command")
    if words is not None:
        raise SystemExit(f"{session}: the last command has no status")


def main():
    program = pathlib.Path(sys.argv[1]).resolve()
    examples = pathlib.Path(__file__).resolve().parent.parent / "examples"
    count, wrong = 0, 0
    for session in sorted(examples.glob("*/session")):
        for words, wanted, status in commands(session):
            count += 1
            run = subprocess.run([program, *words], cwd=session.parent, capture_output=True, text=True, timeout=120)
            printed = [*(run.stdout + run.stderr).splitlines(), f"[status {run.returncode}]"]
            wrong += not is_wanted(f"{session}: {shlex.join(words)}", [*wanted, f"[status {status}]"], printed)
    end("examples", count, wrong)


if __name__ == "__main__":
    main()
