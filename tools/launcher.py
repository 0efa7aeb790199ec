#!/usr/bin/env python3
"""Tries the launcher: its own words, the examples of its help with the program as built, links, failures, and, over a repository of two
crates and a stand-in for rt, when it builds and what it says meanwhile.

usage: tools/launcher.py [--unproved]

With --unproved an answer of an unproved build is compared too, which takes a minute or two. The program is built before, by `rt ci`."""
import os
import pathlib
import re
import shutil
import subprocess
import sys
import tempfile

from printed import end, is_wanted

TOP = pathlib.Path(__file__).resolve().parent.parent
LAUNCHER = TOP / "zubghivar"
HELP = TOP / "tools" / "help"

# A stand-in for rt that says the kit's version and proves nothing: no try of the launcher's words may begin to build the program.
VERSION = """#!/bin/sh
[ "$1" = version ] && exec {rt} version
echo "the program isn't current: rt ci builds it"
exit 1
"""

# A stand-in for rt: it proves nothing, and makes a program that prints its words, or fails where a file says so.
RT = """#!/bin/sh
[ "$1" = version ] && echo "stand-in" && exit
[ -e "$STAND_IN/fails" ] && echo "rt: low NOT PROVED" && echo "rt: FAILED: low" && exit 1
ls -d crates/* crates/*/must-fail 2>/dev/null | tr '\\n' ' ' > "$STAND_IN/seen"
echo "rt: low is kept: an earlier run proved the same"
mkdir -p crates/tie_prog/out
printf '#!/bin/sh\\necho built with "$@"\\n' > crates/tie_prog/out/tie_prog
echo "rt: tie_prog proved"
"""


class Tries:
    """Counts what is tried, and what came out wrong."""

    def __init__(self):
        self.count, self.wrong = 0, 0

    def run(self, what, words, wanted, cwd=TOP, **environment):
        """Runs the words and compares standard output, standard error and status; a wanted line that ends with ... stands for any rest of a line."""
        run = subprocess.run(words, cwd=cwd, env={**os.environ, **environment}, capture_output=True, text=True, timeout=600)
        printed = [*run.stdout.splitlines(), *(f"! {it}" for it in run.stderr.splitlines()), f"[status {run.returncode}]"]
        printed = [new if new.endswith("...") and old.startswith(new[:-3]) else old for old, new in zip(printed, [*wanted, *[""] * len(printed)])]
        self.count += 1
        self.wrong += not is_wanted(what, wanted, printed)


def example_of(text):
    """The folder of a help text's example, its words, and what it prints."""
    found = re.search(r"^example, in the folder (\S+):\n  \$ zubghivar (.*)\n((?:  .*\n)+)", text, re.M)
    return found[1], found[2].split(), [it[2:] for it in found[3].splitlines()]


def tool(room, folder, text):
    """A folder with a command rt of this text, and the PATH on which it is found first."""
    tools = room / folder
    tools.mkdir()
    (tools / "rt").write_text(text)
    (tools / "rt").chmod(0o755)
    return f"{tools}:{os.environ['PATH']}"


def try_words(tries, room):
    lines = lambda name: (HELP / f"{name}.txt").read_text().splitlines()
    how = {"PATH": tool(room, "version", VERSION.format(rt=shutil.which("rt"))), "XDG_CACHE_HOME": str(room / "no_build")}
    tries.run("help", [LAUNCHER, "help"], [*lines("help"), "[status 0]"])
    tries.run("no word", [LAUNCHER], [*(f"! {it}" for it in lines("usage")), "[status 1]"])
    tries.run("help of nothing", [LAUNCHER, "help", "../usage"], ["! zubghivar: there is no command ../usage...", "[status 125]"])
    commands = re.findall(r"^  zubghivar (?!help )(\w+) ", (HELP / "help.txt").read_text(), re.M)
    for command in commands:
        tries.run(f"help {command}", [LAUNCHER, "help", command], [*lines(command), "[status 0]"])
        if command != "version":
            folder, words, wanted = example_of("\n".join(lines(command)) + "\n")
            tries.run(f"the example of {command}", [LAUNCHER, *words], [*wanted, "[status 0]"], cwd=TOP / folder, **how)
    newest = re.search(r"^## (\S+ \(\d{4}-\d\d-\d\d\))$", (TOP / "CHANGELOG.md").read_text(), re.M)[1]
    tries.run("version", [LAUNCHER, "version"], [f"zubghivar {newest}", "proved and built with rattle...", "[status 0]"], **how)
    tries.run("a word of no command", [LAUNCHER, "fly"], ["! usage: word 0", "[status 1]"], **how)


def try_places(tries, room):
    bare = {"PATH": "/usr/bin:/bin"}
    (room / "link").symlink_to(LAUNCHER)
    (room / "second").symlink_to("link")
    how = {"PATH": f"{room / 'version'}:{os.environ['PATH']}", "XDG_CACHE_HOME": str(room / "no_build")}
    tries.run("a link to a link", [room / "second", "exec"], ["! usage: word 1", "[status 1]"], cwd=room, **how)
    shutil.copy(LAUNCHER, room / "alone")
    tries.run("no repository", [room / "alone", "help"], ["! zubghivar: there is no repository of zubghivar beside...", "[status 125]"])
    small = small_repository(room)
    tries.run("no rt", [small / "zubghivar", "exec", "a"], ["! zubghivar: there is no rt on PATH...", "[status 125]"], **bare)


def small_repository(room):
    """A repository of two crates of the program's, and one of tests, with this launcher."""
    top = room / "small"
    shutil.copytree(TOP / "tools", top / "tools", dirs_exist_ok=True)
    shutil.copy(LAUNCHER, top / "zubghivar")
    (top / "crates.txt").write_text("# two crates\nlow:\ntie_prog: low std_of_the_kit\nlow_tests: low\n")
    (top / "HANDLES").write_text("Handles allowed: none.\n")
    for crate in ("low", "tie_prog", "low_tests"):
        (top / "crates" / crate / "src").mkdir(parents=True, exist_ok=True)
        (top / "crates" / crate / "src" / "lib.rt").write_text("//! Nothing.\n")
    (top / "crates" / "low" / "must-fail").mkdir(exist_ok=True)
    return top


def try_building(tries, room):
    top = room / "small"
    for it in [top, *top.rglob("*")]:
        os.utime(it, (1_000_000_000, 1_000_000_000))
    how = {"PATH": tool(room, "bin", RT), "STAND_IN": str(room), "XDG_CACHE_HOME": str(room / "cache")}
    starts = ["! zubghivar: proving the 2 crates of the program, once; log: ...", "! zubghivar: an answer without proof comes sooner: zubghivar --unproved WORDS.."]
    done = [*starts, "! zubghivar: kept 1 of 2: low (0 min)", "! zubghivar: proved 2 of 2: tie_prog (0 min)", "! zubghivar: proved and built"]
    built = ["built with exec a b", *done, "[status 0]"]
    current = ["built with exec a b", "[status 0]"]
    call = [top / "zubghivar", "exec", "a", "b"]
    tries.run("the first call builds", call, built, **how)
    tries.count += 1
    tries.wrong += not is_wanted("the crates that are proved", ["crates/low crates/tie_prog "], [(room / "seen").read_text()])
    tries.run("the next call doesn't", call, current, **how)
    (top / "crates" / "low_tests" / "src" / "lib.rt").write_text("//! A test.\n")
    tries.run("a changed test builds nothing", call, current, **how)
    for name in ("crates/low/src/lib.rt", "crates/tie_prog/src/new.rt", "crates.txt"):
        os.utime(top / "crates" / "tie_prog" / "out" / "tie_prog", (1_000_000_001, 1_000_000_001))
        for it in [*top.rglob("*.rt"), *top.rglob("src"), top / "crates.txt"]:
            os.utime(it, (1_000_000_000, 1_000_000_000))
        (top / name).write_text((top / name).read_text() if (top / name).is_file() else "//! New.\n")
        tries.run(f"a changed {name} builds again", call, built, **how)
    (top / "crates" / "low" / "src" / "lib.rt").unlink()
    tries.run("a removed source builds again", call, built, **how)
    (room / "fails").touch()
    (top / "crates" / "low" / "src" / "lib.rt").write_text("//! Wrong.\n")
    tries.run("a failed build", call, [*starts, "! zubghivar: the program isn't proved, so it isn't built; log: ...", "[status 125]"], **how)


def try_unproved(tries):
    _, words, wanted = example_of((HELP / "strict.txt").read_text())
    said = "! zubghivar: this answer comes from an unproved build of the same sources"
    tries.run("an unproved answer", [LAUNCHER, "--unproved", *words], [*wanted, said, "[status 0]"], cwd=TOP / "examples" / "chain")


def main():
    tries = Tries()
    with tempfile.TemporaryDirectory() as room:
        try_words(tries, pathlib.Path(room))
        try_places(tries, pathlib.Path(room))
        try_building(tries, pathlib.Path(room))
    if "--unproved" in sys.argv[1:]:
        try_unproved(tries)
    end("launcher", tries.count, tries.wrong)


if __name__ == "__main__":
    main()
