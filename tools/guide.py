#!/usr/bin/env python3
"""Runs the commands of docs/GUIDE.md with the program as built, and compares what they print.

usage: tools/guide.py PROGRAM

A block of the guide that begins with ```console is a session: a line `$ COMMAND` for each command of a shell, then what it prints.
Any other block is a file, which has the last name, as `NAME.KIND`, in the paragraph before it."""
import pathlib
import re
import subprocess
import sys
import tempfile

from printed import end, is_wanted


def blocks(text):
    """The blocks of the guide: the paragraph before it, its kind, its lines."""
    before, kind, lines = [], None, []
    is_over = False
    for line in text.splitlines():
        if kind is not None and line == "```":
            yield " ".join(before), kind, lines
            before, kind, lines = [], None, []
        elif kind is not None:
            lines.append(line)
        elif line.startswith("```"):
            kind = line[3:]
        elif not line:
            is_over = True
        else:
            before = [line] if is_over else before + [line]
            is_over = False


def commands(lines):
    """The commands of a session, each with the lines that it must print."""
    command, wanted = None, []
    for line in lines:
        if line.startswith("$ "):
            if command is not None:
                yield command, wanted
            command, wanted = line[2:], []
        else:
            wanted.append(line)
    if command is not None:
        yield command, wanted


def main():
    program = pathlib.Path(sys.argv[1]).resolve()
    guide = pathlib.Path(__file__).resolve().parent.parent / "docs" / "GUIDE.md"
    count, wrong, status = 0, 0, 0
    with tempfile.TemporaryDirectory() as folder:
        for before, kind, lines in blocks(guide.read_text()):
            if kind != "console":
                names = re.findall(r"`(\w+\.\w+)`", before)
                if not names:
                    raise SystemExit(f"a file without a name, behind: {before}")
                (pathlib.Path(folder) / names[-1]).write_text("\n".join(lines) + "\n")
                continue
            for command, wanted in commands(lines):
                count += 1
                shell = f'zubghivar() {{ "{program}" "$@"; }}\n(exit {status})\n{command}'
                run = subprocess.run(["sh", "-c", shell], cwd=folder, capture_output=True, text=True, timeout=120)
                status = run.returncode
                printed = (run.stdout + run.stderr).splitlines()
                wrong += not is_wanted(f"docs/GUIDE.md: {command}", wanted, printed)
    end("guide", count, wrong)


if __name__ == "__main__":
    main()
