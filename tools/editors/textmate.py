"""Tokenizes lines by a TextMate grammar. The part of the format is read that the grammars here use; others fail."""
import json
import re

KNOWN = {"name", "scopeName", "comment", "match", "captures", "begin", "end", "patterns", "include", "repository"}


class Grammar:
    """A grammar of one file."""

    def __init__(self, path):
        self.tree = json.loads(path.read_text(encoding="utf-8"))
        refuse_unknown(path, self.tree)
        self.repository = self.tree["repository"]

    def flat(self, patterns):
        """The patterns that match or begin something, in order, included ones in their place."""
        for pattern in patterns:
            if "include" in pattern:
                yield from self.flat([self.repository[pattern["include"].removeprefix("#")]])
            elif "match" in pattern or "begin" in pattern:
                yield pattern
            else:
                yield from self.flat(pattern["patterns"])

    def scopes(self, lines):
        """For each line the innermost scope of each of its characters, or None."""
        stack = [{"patterns": self.tree["patterns"]}]
        return [self.line_scopes(line, stack) for line in lines]

    def line_scopes(self, line, stack):
        """The scopes of a line. The stack has what is open before the line, and what is open after it."""
        scopes, at = [], 0
        while True:
            found, pattern = self.first(line, at, stack)
            until = found.start() if found else len(line)
            scopes += [stack[-1].get("name")] * (until - at)
            if not found:
                return scopes
            scopes += matched(found, pattern)
            if pattern is stack[-1]:
                stack.pop()
            elif "begin" in pattern:
                stack.append(pattern)
            elif found.end() == found.start():
                raise ValueError(f"matches nothing at all: {pattern['match']}")
            at = found.end()

    def first(self, line, at, stack):
        """The leftmost match from a place on, the earlier pattern's where two begin there; and its pattern."""
        best, best_pattern = None, None
        ends = [(stack[-1]["end"], stack[-1])] if "end" in stack[-1] else []
        starts = [(p.get("match") or p["begin"], p) for p in self.flat(stack[-1]["patterns"])]
        for regex, pattern in ends + starts:
            found = re.compile(regex).search(line, at)
            if found and (best is None or found.start() < best.start()):
                best, best_pattern = found, pattern
        return best, best_pattern


def matched(found, pattern):
    """The scopes of the characters of a match: the pattern's, and over it those of its captures."""
    scopes = [pattern.get("name")] * (found.end() - found.start())
    for group, capture in pattern.get("captures", {}).items():
        for place in range(*found.span(int(group))):
            scopes[place - found.start()] = capture["name"]
    return scopes


def refuse_unknown(path, tree):
    """Fails where a grammar has a key that isn't read here."""
    for key, value in tree.items():
        if key not in KNOWN:
            raise SystemExit(f"{path}: {key} isn't read by {__name__}.py")
        if key in ("repository", "captures"):
            for pattern in value.values():
                refuse_unknown(path, pattern)
        if key == "patterns":
            for pattern in value:
                refuse_unknown(path, pattern)
