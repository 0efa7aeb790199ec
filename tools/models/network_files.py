#!/usr/bin/env python3
"""Compares what the program says of random network files with a second reading of docs/NETWORKS.md.

usage: tools/models/network_files.py PROGRAM [COUNT [SEED]]

Run by hand, with the program as built. Needs Python 3.11, whose `tomllib` reads the TOML here.

Each of COUNT files (1,000) describes a network with at most three processors, or one with as many processors, workers or
queues as there may be, or one more. Most files have some changes, chosen at random from the seed (1): keys that are
missing, unknown or of another type, numbers and lengths about their limits, names that no name may be, ends that are none,
files that are missing, too long or refused, queues left out or doubled, text that is no TOML. Keys and texts are written with
and without escapes, tables in lines and below headers, keys in any order.

The program runs each file by `ref` or by `strict`. Its status and its line on standard error have to be those of the reading
below, which judges the file in the order of the page: the keys, the files of processors, the wiring, the files of sources.
How an accepted network runs is left to network_runs.py. A file that differs is printed with both answers; the status is 1 then.
"""
import collections
import pathlib
import random
import re
import subprocess
import sys
import tempfile
import tomllib

NETWORK = "network.toml"
LONGEST = 1048576
RUNS = (0, 8, 9, 10)
ARRAYS = ("core", "source", "collector", "queue")
# the input and the output queues of an extension, with their widths
EXTENSIONS = {
    "word.tie": ([("IN", 32)], [("OUT", 32)]),
    "half.tie": ([("IN", 16)], [("OUT", 16)]),
    "join.tie": ([("A", 32), ("B", 32)], [("C", 12)]),
    "sink.tie": ([("IN", 12)], []),
    "four.tie": ([(f"IN{number}", 8) for number in range(4)], [(f"OUT{number}", 8) for number in range(4)]),
}
REFUSED = {"parse.tie": ("state", "Parse at 5"), "byte.tie": ("a # b", "BadByte at 2"), "open.tie": ("a /* b", "OpenComment at 2")}
TEXTS = {
    "halt": "00 51 00",
    "white": "0051\t0\n0\r\n",
    "none": "",
    "letter": "0G",
    "odd": "000",
    "64": "00" * 64,
    "65": "00" * 65,
    "65536": "00" * 65536,
    "65537": "00" * 65537,
    "longest": " " * LONGEST,
    "longer": " " * (LONGEST + 1),
    "bytes": "2A",
    "halves": "002A0fff",
    "words": "0000002A 00000007",
    "fits": "0FFF",
    "over": "1000",
}
ITEMS = {8: "bytes", 12: "fits", 16: "halves", 32: "words"}
WORD = "[A-Za-z][A-Za-z0-9_]{0,31}"


def declared(extension):
    inputs, outputs = extension
    lines = [f"queue {name} {width} {way}" for queues, way in ((inputs, "in"), (outputs, "out")) for name, width in queues]
    return "\n".join(lines)


# ---- the reading of the rules


class Broken(Exception):
    """The first rule that is broken, with its key."""


class Fault(Exception):
    """A file that can't be taken: the status and the line."""


def need(holds, rule, key):
    if not holds:
        raise Broken(f"{rule} at {key}")


class Table:
    """A table at its place, as `core[0].`, whose keys are judged one by one."""

    def __init__(self, values, place):
        self.values, self.place, self.known = values, place, set()

    def find(self, key, kind, required=True):
        """The value at a key; None where it is absent and may be."""
        self.known.add(key)
        value = self.values.get(key)
        need(type(value) is kind or (value is None and not required), "Key", self.place + key)
        return value

    def text(self, key, required=True):
        return self.find(key, str, required)

    def integer(self, key, default, fits):
        """An integer that fits; a default of None says that the key is required."""
        value = self.find(key, int, default is None)
        need(value is None or fits(value), "Range", self.place + key)
        return default if value is None else value

    def name(self, earlier):
        name = self.text("name")
        need(re.fullmatch(WORD, name) and name not in earlier, "Name", self.place + "name")
        earlier.append(name)
        return name

    def dump(self, memory):
        dump = self.find("dump", list, False)
        if dump is not None:
            need(len(dump) == 2 and all(type(it) is int for it in dump), "Key", self.place + "dump")
            start, length = dump
            need(start >= 0 and 1 <= length <= 4096 and start + length <= memory, "Range", self.place + "dump")

    def tables(self, key, most, required=False):
        found = self.find(key, list, required) or []
        need(all(type(it) is dict for it in found), "Key", self.place + key)
        need(len(found) <= most, "TooMany", self.place + key)
        need(found or not required, "Key", self.place + key)
        return [Table(it, f"{key}[{number}].") for number, it in enumerate(found)]

    def close(self):
        for key in sorted(set(self.values) - self.known, key=str.encode):
            need(False, "Key", self.place + key)


class Core:
    def __init__(self, table, earlier):
        self.key = table.place[:-1]
        self.name = table.name(earlier)
        self.image = table.text("image")
        self.extension = table.text("tie", False)
        self.memory = table.integer("memory", 65536, lambda count: 64 <= count <= 1048576 and count % 4 == 0)
        table.integer("budget", 1000000, lambda count: 1 <= count <= 1073741824)
        table.dump(self.memory)
        table.close()

    def load(self, shelf):
        if self.extension is not None:
            shelf.bytes_of(self.extension)
            if self.extension in REFUSED:
                raise Fault(4, f"tie refused: {self.extension}: {REFUSED[self.extension][1]}")
        image = shelf.hexadecimal(self.image, self.key + ".image")
        need(len(image) <= min(self.memory, 65536), "Image", self.key + ".image")

    def queues(self):
        return EXTENSIONS.get(self.extension, ([], []))


class Source:
    def __init__(self, table, earlier):
        self.key = table.place[:-1]
        self.name = table.name(earlier)
        self.items = table.text("items")
        table.close()

    def load(self, shelf, width):
        key = self.key + ".items"
        items, size = shelf.hexadecimal(self.items, key), (width + 7) // 8
        need(len(items) % size == 0, "Item", key)
        for place in range(0, len(items), size):
            need(int.from_bytes(items[place : place + size], "big") < 2**width, "Item", key)


class Collector:
    def __init__(self, table, earlier):
        self.key = table.place[:-1]
        self.name = table.name(earlier)
        table.integer("limit", 65536, lambda count: 1 <= count <= 262144)
        table.close()


class Queue:
    def __init__(self, table, earlier):
        self.key = table.place[:-1]
        table.name(earlier)
        table.integer("capacity", None, lambda count: 1 <= count <= 4096)
        self.origin, self.target = table.text("from"), table.text("to")
        table.close()


class Plan:
    """The keys of a file, in the order of the page."""

    def __init__(self, values):
        top = Table(values, "")
        need(top.find("version", int) == 1, "Version", "version")
        top.integer("kill", 0, lambda count: count == 0 or 16 <= count <= 65536)
        workers, queues = [], []
        self.cores = [Core(it, workers) for it in top.tables("core", 16, True)]
        self.sources = [Source(it, workers) for it in top.tables("source", 32 - len(workers))]
        self.collectors = [Collector(it, workers) for it in top.tables("collector", 32 - len(workers))]
        self.queues = [Queue(it, queues) for it in top.tables("queue", 64)]
        top.close()


End = collections.namedtuple("End", "worker key width")


def ends_of(plan):
    """What `from` and what `to` may name, and all ends in the order in which those without a queue are told.

    Neither a name of a worker nor one of a TIE queue has a dot, so a text is cut as the page says where it is equal to one
    of these. A source and a collector have no width of their own."""
    origins, targets, ordered = {}, {}, []
    for core in plan.cores:
        for queues, ends in zip(core.queues(), (targets, origins)):
            for name, width in queues:
                ends[f"{core.name}.{name}"] = End(core, f"{core.key}.{name}", width)
                ordered.append(ends[f"{core.name}.{name}"])
    for others, ends in ((plan.sources, origins), (plan.collectors, targets)):
        for other in others:
            ends[other.name] = End(other, other.key, None)
            ordered.append(ends[other.name])
    return origins, targets, ordered


def wire(plan):
    """The width of each source's queue, by the key of the source."""
    origins, targets, ordered = ends_of(plan)
    taken, widths = set(), {}
    for queue in plan.queues:
        origin, target = origins.get(queue.origin), targets.get(queue.target)
        need(origin is not None, "End", queue.key + ".from")
        need(origin.key not in taken, "Twice", queue.key + ".from")
        need(target is not None and origin.worker is not target.worker, "End", queue.key + ".to")
        need(origin.width or target.width, "End", queue.key + ".to")
        need(target.key not in taken, "Twice", queue.key + ".to")
        need(None in (origin.width, target.width) or origin.width == target.width, "Width", queue.key)
        taken |= {origin.key, target.key}
        widths[origin.key] = target.width
    for end in ordered:
        need(end.key in taken, "Unwired", end.key)
    return widths


class Shelf:
    """The files of a folder."""

    def __init__(self, folder):
        self.folder = folder

    def bytes_of(self, name):
        path = self.folder / name
        if not name or not path.is_file():
            raise Fault(2, f"read fault: {name}")
        if path.stat().st_size > LONGEST:
            raise Fault(3, f"too long: {name}")
        return path.read_bytes()

    def hexadecimal(self, name, key):
        digits = self.bytes_of(name).decode().translate({ord(it): None for it in " \t\n\r"})
        need(re.fullmatch("([0-9A-Fa-f]{2})*", digits), "Hex", key)
        return bytes.fromhex(digits)


def judge(written, shelf):
    try:
        values = tomllib.loads(written.decode())
    except ValueError:
        raise Broken("Toml at text") from None
    plan = Plan(values)
    for core in plan.cores:
        core.load(shelf)
    widths = wire(plan)
    for source in plan.sources:
        source.load(shelf, widths[source.key])


def answer(written, shelf):
    """The status and the line, 0 and none where the network runs."""
    try:
        judge(written, shelf)
    except Broken as broken:
        return 6, f"net refused: {NETWORK}: {broken}"
    except Fault as fault:
        return fault.args
    return 0, ""


# ---- random networks


class Maker:
    """Networks as dictionaries: some that every rule holds of, and changes of them."""

    def __init__(self, chance):
        self.chance = chance

    def core(self, number, extension):
        core = {"name": f"P{number}", "image": self.chance.choice(["halt", "halt", "white", "64"])}
        return {**core, "tie": extension} if extension else core

    def wired(self, extensions, inner):
        """Processors with these extensions; `inner` is how often an input has a queue from another processor."""
        cores = [self.core(number, extension) for number, extension in enumerate(extensions)]
        network = {"version": 1, "core": cores, "source": [], "collector": [], "queue": []}
        both = [EXTENSIONS.get(extension, ([], [])) for extension in extensions]
        outputs = [(f"P{number}", *it) for number, (_, found) in enumerate(both) for it in found]
        self.chance.shuffle(outputs)
        for number, (inputs, _) in enumerate(both):
            for name, width in inputs:
                fitting = [it for it in outputs if it[2] == width and it[0] != f"P{number}"]
                if fitting and self.chance.random() < inner:
                    outputs.remove(fitting[0])
                    origin = ".".join(fitting[0][:2])
                else:
                    origin = f"S{len(network['source'])}"
                    network["source"].append({"name": origin, "items": ITEMS[width]})
                self.connect(network, origin, f"P{number}.{name}")
        for owner, name, _ in outputs:
            network["collector"].append({"name": f"C{len(network['collector'])}"})
            self.connect(network, f"{owner}.{name}", network["collector"][-1]["name"])
        self.chance.shuffle(network["queue"])
        return network

    def connect(self, network, origin, target):
        name, capacity = f"Q{len(network['queue'])}", self.chance.choice([1, 2, 4096])
        network["queue"].append({"name": name, "capacity": capacity, "from": origin, "to": target})

    def wide(self):
        """About the greatest counts: 16 processors and one more, 32 workers and one more, 64 queues and one more."""
        count = self.chance.choice([15, 16, 16, 17])
        kind = self.chance.randrange(3)
        if kind == 0:
            network = self.wired(["sink.tie"] * count, 0)
            network["source"] += self.chance.choice([[], [{"name": "more", "items": "fits"}]])
            return network
        if kind == 1:
            return self.wired(["word.tie"] * self.chance.choice([10, 11]), 0)
        return self.wired(["four.tie"] * count + self.chance.choice([[], [], ["word.tie"]])[: 17 - count], 1)

    def network(self):
        if self.chance.random() < 0.08:
            network = self.wide()
        else:
            known = [None, "word.tie", "word.tie", "half.tie", "join.tie", "sink.tie"]
            network = self.wired([self.chance.choice(known) for _ in range(self.chance.choice([1, 2, 2, 2, 3]))], 0.6)
        for array in ARRAYS[1:]:
            if not network[array] and self.chance.random() < 0.8:
                del network[array]
        return network

    def change(self, network):
        """One change at a table of the network, chosen at random."""
        arrays = [it for it in ARRAYS if isinstance(network.get(it), list)]
        tables = [(array, table) for array in arrays for table in network[array] if isinstance(table, dict)]
        if tables:
            array, table = self.chance.choice(tables)
            kinds = {self.keys: 1, self.values: 2, self.limits: 2, self.whole: 1, self.queues: 3}
            self.chance.choices(list(kinds), kinds.values())[0](network, array, table)

    def keys(self, network, array, table):
        """A key is missing or unknown, or has a value of any kind."""
        held = self.chance.choice([table, table, network])
        present = [it for it in held if it not in ARRAYS]
        unknown = ["a", "zz", "_", "Name", "name2", "B.c", "", "é", "\u4e2d", "\U0001f600", "~", "a b", 'a"b', "a\\b", "a\nb"]
        kind = self.chance.randrange(4)
        if kind == 0 and present:
            del held[self.chance.choice(present)]
        elif kind == 1 and present:
            held[self.chance.choice(present)] = self.anything()
        else:
            for key in self.chance.sample(unknown, self.chance.choice([1, 1, 2])):
                held[key] = self.anything()

    def anything(self):
        texts = ["", "P0", "Q0", "S0", "9x", "_a", "no file", "é"]
        return self.chance.choice([0, 1, -1, 2**63 - 1, -(2**63), True, 1.0, 1.5, [], [1], [{}], {}, {"a": 1}, *texts])

    def values(self, network, array, table):
        """Another name, file or end."""
        names = ["P0", "S0", "C0", "Q0", "Q1", "é", "a_b", "A-B", "A.B", "9", "a b", "A\n", "x" * 31 + "9", "x" * 33, "é" * 16]
        ends = ["P0", "P0.IN", "P0.OUT", "P1.IN", "P1.A", "P1.C", "S0", "C0", "P0.", ".IN", ".", "P0.IN.X", "P0..IN", "S0.IN"]
        at = self.chance.choice(["name", "file", "file", "file"] if array in ("core", "source") else ["name", "end", "end", "end"])
        if at == "name":
            self.rename(network, array, table, self.chance.choice(names))
        elif array == "queue":
            table[self.chance.choice(["from", "to"])] = self.chance.choice(ends)
        elif array == "source":
            table["items"] = self.chance.choice([*TEXTS, "no file"])
        elif array == "core" and self.chance.random() < 0.5:
            table["tie"] = self.chance.choice([*EXTENSIONS, *REFUSED, "longer", "no file"])
        elif array == "core":
            table["image"] = self.chance.choice([*TEXTS, "no file"])

    def rename(self, network, array, table, name):
        """Another name; most often the ends that name it follow."""
        before = table.get("name")
        table["name"] = name
        queues = network.get("queue")
        if array != "queue" and isinstance(queues, list) and isinstance(before, str) and self.chance.random() < 0.7:
            for queue in queues:
                for key in ("from", "to"):
                    if isinstance(queue, dict) and isinstance(queue.get(key), str) and queue[key].split(".")[0] == before:
                        queue[key] = name + queue[key][len(before) :]

    def queues(self, network, array, table):
        """A queue is lost, or two of them have one end, or change their ends."""
        if not isinstance(network.get("queue"), list):
            return
        queues = [it for it in network["queue"] if isinstance(it, dict) and {"from", "to"} <= set(it)]
        if len(queues) < 2:
            return
        one, other = self.chance.sample(queues, 2)
        end = self.chance.choice(["from", "to"])
        kind = self.chance.randrange(3)
        if kind == 0:
            network["queue"].remove(one)
        elif kind == 1:
            one[end] = other[end]
        else:
            one[end], other[end] = other[end], one[end]

    def limits(self, network, array, table):
        """A number about its limits."""
        memory = self.chance.choice([60, 64, 66, 68, 65536, 1048576, 1048580])
        dumps = [[0, 1], [0, 0], [0, 4096], [0, 4097], [-1, 4], [memory - 1, 1], [memory, 1], [memory - 3, 4], [2**63 - 1, 1]]
        shapes = [[1], [1, 2, 3], ["a", 1], [1.0, 2], [True, 1], [0, [1]], [[0, 1]], [], 5, "0, 1", {"start": 0, "length": 1}]
        edges = {
            "core": [{"memory": memory}, {"memory": memory, "dump": self.chance.choice(dumps)}],
            "source": [{"items": self.chance.choice(["none", "over", "fits"])}],
            "collector": [{"limit": count} for count in (0, 1, 262144, 262145, -1, True)],
            "queue": [{"capacity": count} for count in (0, 1, 4096, 4097, -1, "1", 1.0)],
        }
        edges["core"] += [{"dump": self.chance.choice(shapes)}]
        edges["core"] += [{"budget": self.chance.choice([0, 1, 1073741824, 1073741825, -1])}]
        edges["core"] += [{"memory": 64, "image": self.chance.choice(["64", "65"])}]
        edges["core"] += [{"memory": 1048576, "image": self.chance.choice(["65536", "65537"])}]
        table.update(self.chance.choice(edges[array]))

    def whole(self, network, array, table):
        """The version, the kill, an array as a whole."""
        kind = self.chance.randrange(5)
        if kind == 0:
            network["version"] = self.chance.choice([0, 1, 2, -1, "1", True, 1.0])
        elif kind == 1:
            network["kill"] = self.chance.choice([0, 1, 15, 16, 65536, 65537, -1, "16"])
        elif kind == 2:
            network[array] = self.chance.choice([[], {}, 1, "x", [1], [*network[array], 1], [[]]])
        elif kind == 3:
            network[array].append(self.chance.choice([dict(table), dict(table), {}]))
        else:
            network[array].remove(table)


def is_array_of_tables(value):
    return isinstance(value, list) and value and all(isinstance(it, dict) for it in value)


class Writer:
    """A dictionary as TOML: keys in any order, tables in lines or below headers, texts with or without escapes."""

    def __init__(self, chance):
        self.chance = chance

    def escaped(self, letter):
        if letter in '"\\':
            return "\\" + letter
        if ord(letter) < 32 or ord(letter) == 127 or self.chance.random() < 0.02:
            return f"\\U{ord(letter):08X}" if ord(letter) > 0xFFFF else f"\\u{ord(letter):04x}"
        return letter

    def text(self, text):
        if self.chance.random() < 0.2 and text.isprintable() and "'" not in text:
            return f"'{text}'"
        return '"' + "".join(self.escaped(letter) for letter in text) + '"'

    def key(self, key):
        return key if re.fullmatch("[A-Za-z0-9_-]+", key) and self.chance.random() < 0.95 else self.text(key)

    def value(self, value):
        if isinstance(value, bool):
            return str(value).lower()
        if isinstance(value, str):
            return self.text(value)
        if isinstance(value, list):
            return "[" + ", ".join(self.value(it) for it in value) + "]"
        if isinstance(value, dict):
            return "{" + ", ".join(self.lines(value)) + "}"
        return repr(value)

    def lines(self, table):
        keys = list(table)
        if self.chance.random() < 0.3:
            self.chance.shuffle(keys)
        return [f"{self.key(key)} = {self.value(table[key])}" for key in keys]

    def file(self, network):
        below = {}
        if self.chance.random() < 0.5:
            below = {key: value for key, value in network.items() if key in ARRAYS and is_array_of_tables(value)}
        lines = self.lines({key: value for key, value in network.items() if key not in below})
        for key, tables in below.items():
            for table in tables:
                lines += [f"[[{key}]]", *self.lines(table)]
        written = "".join(line + self.chance.choice(["\n", "\n", "\n", "  # é\n", "\r\n"]) for line in lines).encode()
        if self.chance.random() < 0.03:
            more = [b"x = ", b"[", b"\n= 3", b"core = 1", b"[core]", b"# \xff", b"a.b = 1\na.c = 2", b"\0"]
            written += self.chance.choice(more)
        return written


# ---- both answers


def program_answer(program, command, folder):
    """The status and the line; 0 and none where a report is printed with the status of its end."""
    run = subprocess.run([program, command, NETWORK], cwd=folder, capture_output=True, timeout=60)
    line = run.stderr.decode()
    if run.returncode in RUNS and not line and re.search(rb"^end \w+\n\Z", run.stdout, re.M):
        return 0, ""
    if run.stdout or not line.endswith("\n"):
        return run.returncode, f"standard output {run.stdout!r}, standard error {line!r}"
    return run.returncode, line[:-1]


def kind_of(status, line):
    """What is counted: the rule, or the kind of fault."""
    if status == 0:
        return "accepted"
    return line.split(": ")[2].split(" at ")[0] if status == 6 else line.split(":")[0]


def main():
    if len(sys.argv) < 2:
        sys.exit("usage: tools/models/network_files.py PROGRAM [COUNT [SEED]]")
    program = pathlib.Path(sys.argv[1]).resolve()
    count, seed = (int(word) for word in (*sys.argv[2:4], *["1000", "1"][len(sys.argv[:4]) - 2 :]))
    chance = random.Random(seed)
    maker, writer = Maker(chance), Writer(chance)
    kinds, differences = collections.Counter(), 0
    with tempfile.TemporaryDirectory() as name:
        folder = pathlib.Path(name)
        refused = {file: text for file, (text, _) in REFUSED.items()}
        extensions = {file: declared(it) for file, it in EXTENSIONS.items()}
        for file, text in {**TEXTS, **extensions, **refused}.items():
            (folder / file).write_bytes(text.encode())
        for _ in range(count):
            network = maker.network()
            for _ in range(chance.choice([0, 1, 1, 1, 2, 3])):
                maker.change(network)
            written = writer.file(network)
            (folder / NETWORK).write_bytes(written)
            model = answer(written, Shelf(folder))
            own = program_answer(program, chance.choice(["ref", "strict"]), folder)
            kinds[kind_of(*model)] += 1
            if own != model:
                differences += 1
                print(f"differs:\n{written.decode(errors='replace')}\n  the program: {own}\n  the model:   {model}")
    print(f"{count} files, {count - differences} alike, {differences} differ; by the model:")
    print("  " + ", ".join(f"{number} {kind}" for kind, number in kinds.most_common()))
    return 1 if differences else 0


if __name__ == "__main__":
    sys.exit(main())
