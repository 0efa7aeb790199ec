#!/usr/bin/env python3
"""Checks the graph of crates in crates.txt, and draws it.

usage: tools/crate_graph.py          checks it, and that docs/crates.svg is its picture
       tools/crate_graph.py --draw   draws docs/crates.svg anew
       tools/crate_graph.py --ways   prints how many ways lead down from each crate, too

`rt` reads a crate's files once for each way that leads down to it through crates.txt, so the number of ways below a crate is what each start
of `rt` in it costs. Each crate that lists all that is below it doubles the number. So a crate lists what its own files name, and a lower one
comes through a crate between, which passes it on, where more than a few ways start at it (CONTRIBUTING.md says how).

What is checked: crates.txt has each crate of crates/ once, after those that it lists; each crate's files name what it lists; no more ways lead
down from the program than BOUND; docs/ARCHITECTURE.md has a row for each crate; the picture is current."""
import functools
import pathlib
import re
import sys

from drawing import picture

TOP = pathlib.Path(__file__).resolve().parent.parent
PICTURE = TOP / "docs" / "crates.svg"
PROGRAM = "tie_prog"
BOUND = 500


class Graph:
    """The crates of crates.txt in their order, with what each lists, and its layer."""

    def __init__(self, text):
        self.lists, self.layers, layer = {}, {}, ""
        for line in text.splitlines():
            head, colon, rest = line.partition("#")[0].partition(":")
            if colon:
                name = head.split()[0]
                self.lists[name] = self.lists.get(name, []) + rest.split()
                self.layers.setdefault(layer, []).append(name)
            elif line.startswith("#"):
                layer = line.lstrip("# ")

    def below(self, crate):
        """The crates of the repository that a crate lists."""
        return [it for it in self.lists[crate] if it in self.lists]

    @functools.cache
    def ways(self, crate):
        """How many ways lead down from a crate, itself among them."""
        return 1 + sum(self.ways(it) for it in self.below(crate))

    @functools.cache
    def closure(self, crate):
        """All crates below a crate."""
        return frozenset(low for it in self.below(crate) for low in {it, *self.closure(it)})

    def reduced(self, crate):
        """What a crate lists that is not below another one that it lists."""
        return [low for low in self.below(crate) if not any(low in self.closure(it) for it in self.below(crate))]

    def dearest(self, top):
        """The entry below a crate that adds most ways, of those that could come through another crate: the ways, the crate, the entry."""
        count = {it: 0 for it in self.lists} | {top: 1}
        for crate in reversed(self.lists):
            for low in self.below(crate):
                count[low] += count[crate]
        implied = [(count[it] * self.ways(low), it, low) for it in self.lists for low in self.below(it) if low not in self.reduced(it)]
        return max(implied, default=(0, "no crate", "no other"))


def words_of(crate):
    """All words of a crate's files."""
    files = [it for part in ("src", "specs", "proofs") for it in (TOP / "crates" / crate / part).rglob("*.*t") if it.is_file()]
    return {word for it in files for word in re.findall(r"\w+", it.read_text(errors="replace"))}


def faults(graph):
    """What is wrong with the graph, a line each."""
    order = list(graph.lists)
    folders = {it.name for it in (TOP / "crates").iterdir() if (it / "src").is_dir()}
    yield from (f"crates.txt has no line for crates/{it}" for it in sorted(folders - set(order)))
    yield from (f"crates.txt has a line for {it}, and there is no such folder" for it in order if it not in folders)
    for crate in order:
        for low in graph.lists[crate]:
            if low in order and order.index(low) >= order.index(crate):
                yield f"{crate} is listed before {low}, on which it is built"
            if low not in words_of(crate):
                yield f"{crate} lists {low}, which no file of it names"
    if graph.ways(PROGRAM) > BOUND:
        most, crate, low = graph.dearest(PROGRAM)
        yield f"{graph.ways(PROGRAM)} ways lead down from {PROGRAM}, and {BOUND} may: {crate} adds most, {most} by listing {low}"
    rows = set(re.findall(r"`(\w+)`", "\n".join(it.split("|")[2] for it in (TOP / "docs" / "ARCHITECTURE.md").read_text().splitlines() if it.count("|") == 5)))
    yield from (f"docs/ARCHITECTURE.md has no row for {it}" for it in order if it not in rows)
    if not PICTURE.is_file() or PICTURE.read_text() != picture(graph):
        yield "docs/crates.svg isn't the picture of crates.txt: tools/crate_graph.py --draw"


def main():
    graph = Graph((TOP / "crates.txt").read_text())
    if "--draw" in sys.argv[1:]:
        PICTURE.write_text(picture(graph))
    if "--ways" in sys.argv[1:]:
        for crate in sorted(graph.lists, key=graph.ways):
            print(f"{graph.ways(crate):6} {crate}")
    wrong = list(faults(graph))
    for it in wrong:
        print(f"crates: {it}")
    print(f"crates: {len(graph.lists)}, {graph.ways(PROGRAM)} ways below {PROGRAM}, {sum(map(graph.ways, graph.lists))} in all, {len(wrong)} wrong")
    raise SystemExit(1 if wrong else 0)


if __name__ == "__main__":
    main()
