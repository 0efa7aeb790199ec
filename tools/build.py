#!/usr/bin/env python3
"""Proves the crates that the program stands on, and builds it; or answers by a build without proofs.

usage: tools/build.py                     proves and builds crates/tie_prog/out/tie_prog
       tools/build.py --unproved WORDS..  runs the program with these words, compiled from the same sources without proofs

The launcher `zubghivar` calls it. The proof runs in a folder of its own, on copies of the crates alone that the program stands on, by `rt ci`, which
works on as many crates at once as there are processors, those with the longest chain above them first, and keeps what it
proved for later runs and for the gate."""
import fcntl
import hashlib
import os
import pathlib
import re
import shutil
import subprocess
import sys
import tempfile
import time

TOP = pathlib.Path(__file__).resolve().parent.parent
PROGRAM = "tie_prog"
FAILED = 125


def say(text):
    print(f"zubghivar: {text}", file=sys.stderr, flush=True)


def fail(text):
    say(text)
    raise SystemExit(FAILED)


def entries():
    """The crates that each crate of crates.txt lists, with its whole line."""
    found = {}
    for line in (TOP / "crates.txt").read_text().splitlines():
        head, colon, rest = line.partition("#")[0].partition(":")
        if colon:
            found[head.split()[0]] = (rest.split(), line)
    return found


def stands_on(crate, lists):
    """The crate and those below it, lowest first."""
    found = []

    def visit(name):
        for low in lists[name][0]:
            if low in lists and low not in found:
                visit(low)
        found.append(name)

    visit(crate)
    return found


def copy_crates(crates, lists, to):
    """Copies the crates to a folder that is the top of a repository, without their wrong bodies, which build nothing."""
    shutil.rmtree(to, ignore_errors=True)
    (to / ".git").mkdir(parents=True)
    for name in crates:
        skipped = shutil.ignore_patterns("out", "must-fail")
        shutil.copytree(TOP / "crates" / name, to / "crates" / name, ignore=skipped)
    (to / "crates.txt").write_text("".join(f"{lists[name][1]}\n" for name in crates))
    shutil.copyfile(TOP / "HANDLES", to / "HANDLES")


def lines_of(crate):
    """How many lines of code, specifications and proofs a crate has: a measure of how long its proof takes."""
    files = [it for part in ("src", "specs", "proofs") for it in (TOP / "crates" / crate / part).rglob("*.*t") if it.is_file()]
    return sum(it.read_bytes().count(b"\n") for it in files)


class Progress:
    """Says of each crate that is done how many are, and about how long the others will take."""

    def __init__(self, crates):
        self.left = {it: lines_of(it) for it in crates}
        self.count, self.whole, self.start = len(crates), sum(self.left.values()), time.monotonic()
        self.kept = 0

    def read(self, line):
        done = re.match(r"rt: (\w+) (proved$|is kept)", line)
        if not done or done[1] not in self.left:
            return
        lines = self.left.pop(done[1])
        self.kept += lines if done[2] != "proved" else 0
        seconds, left = time.monotonic() - self.start, sum(self.left.values())
        proved = self.whole - self.kept - left
        told = f"{seconds / 60:.0f} min"
        if left and 10 * proved > self.whole - self.kept:
            told += f", about {max(1, seconds / 60 * left / proved):.0f} min left"
        say(f"{'proved' if done[2] == 'proved' else 'kept'} {self.count - len(self.left)} of {self.count}: {done[1]} ({told})")


def cache():
    """The folder in which this clone's program is proved."""
    home = os.environ.get("XDG_CACHE_HOME") or os.path.expanduser("~/.cache")
    return pathlib.Path(home) / "zubghivar" / hashlib.sha256(str(TOP).encode()).hexdigest()[:16]


def prove(at, crates, log):
    """Runs rt ci in the folder, with its output in the log, and returns its status."""
    progress = Progress(crates)
    how = {"cwd": at, "stdin": subprocess.DEVNULL, "stdout": subprocess.PIPE, "stderr": subprocess.STDOUT, "text": True, "errors": "replace"}
    # (under CI rt ci would take the folder for the gate's)
    how["env"] = {name: value for name, value in os.environ.items() if name != "CI"}
    with subprocess.Popen(["rt", "ci"], **how) as run, open(log, "w", encoding="utf-8") as to:
        for line in run.stdout:
            to.write(line)
            to.flush()
            progress.read(line)
    return run.returncode


def install(built):
    """Puts the program in its place at once, so that nobody runs half of it."""
    to = TOP / "crates" / PROGRAM / "out"
    to.mkdir(exist_ok=True)
    half = to / f"{PROGRAM}.{os.getpid()}"
    shutil.copyfile(built, half)
    half.chmod(0o755)
    half.replace(to / PROGRAM)


def build():
    at, lists = cache(), entries()
    crates = stands_on(PROGRAM, lists)
    at.mkdir(parents=True, exist_ok=True)
    log = at / "build.log"
    with open(at / "lock", "w") as lock:
        try:
            fcntl.flock(lock, fcntl.LOCK_EX | fcntl.LOCK_NB)
        except BlockingIOError:
            say("another call proves the program already: waiting for it")
            fcntl.flock(lock, fcntl.LOCK_EX)
        say(f"proving the {len(crates)} crates of the program, once; log: {log}")
        say("an answer without proof comes sooner: zubghivar --unproved WORDS..")
        copy_crates(crates, lists, at / "repository")
        status = prove(at / "repository", crates, log)
        built = at / "repository" / "crates" / PROGRAM / "out" / PROGRAM
        if status or not built.is_file():
            fail(f"the program isn't proved, so it isn't built; log: {log}")
        install(built)
        shutil.rmtree(at / "repository", ignore_errors=True)
        say("proved and built")


def files_named(words):
    """The files that the words name, and those that a network file among them names, by their names."""
    named = [it for it in words[1:] if os.path.isfile(it)]
    if words[:1] in (["ref"], ["strict"]):
        for network in [*named]:
            text = pathlib.Path(network).read_text(errors="replace")
            named += [it for it in re.findall(r"\"([^\"\n]*)\"|'([^'\n]*)'", text) for it in it if it and os.path.isfile(it)]
    return dict.fromkeys(named)


def unproved(words):
    """Runs the words by rt try, which compiles the sources with checks and proves nothing."""
    lists, data = entries(), []
    say("this answer comes from an unproved build of the same sources")
    for name in files_named(words):
        if not os.path.isabs(name):
            if os.path.normpath(name).startswith(".."):
                fail(f"without proof a file is named from this folder down, or whole, and {name} is neither")
            data += ["--data", f"{name}={os.path.abspath(name)}"]
    with tempfile.TemporaryDirectory(prefix="zubghivar-") as room:
        top = pathlib.Path(room) / "repository"
        copy_crates(stands_on(PROGRAM, lists), lists, top)
        run = subprocess.run(["rt", "try", *data, "--", *words], cwd=top / "crates" / PROGRAM, stdin=subprocess.DEVNULL, capture_output=True)
    said = run.stderr.decode(errors="replace")
    ended = re.search(r"^(?:checked: ended [^\n]*\n)?run=ended status=(\d+) [^\n]*proved=no\n\Z", said, re.M)
    if not ended:
        sys.stderr.write(said)
        fail("the unproved build gave no answer")
    sys.stdout.buffer.write(run.stdout)
    sys.stdout.flush()
    sys.stderr.write(said[:ended.start()])
    raise SystemExit(int(ended[1]))


def main():
    try:
        unproved(sys.argv[2:]) if sys.argv[1:2] == ["--unproved"] else build()
    except KeyboardInterrupt:
        say("stopped; what was proved is kept where the kit can keep it")
        raise SystemExit(130)
    except OSError as error:
        fail(str(error))


if __name__ == "__main__":
    main()
