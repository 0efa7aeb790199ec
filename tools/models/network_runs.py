#!/usr/bin/env python3
"""Compares the reports of random networks with those of a small model of docs/NETWORK-REFERENCES.md and docs/REPORT.md.

usage: tools/models/network_runs.py PROGRAM [COUNT [SEED]]

Run by hand, with the program as built.

Each of COUNT networks (1,000), chosen at random from the seed (1), has one to five processors with up to three input and three
output queues each, whose other ends are queues of other processors, sources and collectors. A processor has an extension of
its own, with operations that pop and push, up to two queues of each at once, and a program of up to fourteen bundles: these
operations, MOVI, ADDI, and loads and stores at a few addresses. Behind them it halts, traps by one of the four causes, or runs
them again and again. Budgets are great, small, or about as many bundles as lead to the halt; collectors have limits of a few
items or of more than ever come; some processors show a part of their memory.

Each network runs by `ref` and by `strict`, and in rounds by the model below. The whole report and the status have to be
the same. The images are made by `asm`, so the encoding of bundles isn't compared here. A network that differs is printed with
the files of its processors and both answers; the status is 1 then.
"""
import collections
import pathlib
import random
import subprocess
import sys
import tempfile

NETWORK = "network.toml"
GREAT_BUDGET, GREAT_LIMIT = 1000000, 65536
TRAPPED, UNFINISHED, BLOCKED, HALTED = ("trapped", 8), ("unfinished", 9), ("blocked", 10), ("halted", 0)
# registers that a program uses; of the others ZERO stays 0, and FAR has an address that no access may have
USED, FAR, ZERO = range(2, 7), 7, 15
# where programs load and store: behind the longest text, within the smallest memory
CELLS = range(256, 320, 4)
MEMORIES = (320, 1024, 65536, 1048576)


# ---- bundles


class Bundle:
    """Three bytes of a program: its line, the numbers of the input queues that it pops and of the output queues that it
    pushes, in the order of their declarations, the cause of its trap if it has one, and what it does.

    `effect(core, *popped)` changes the processor and answers what is pushed. `at` is the bundle that follows, where
    that isn't the next one."""

    def __init__(self, line, pops=(), pushes=(), cause=None, effect=None, at=None, halts=False):
        self.line, self.pops, self.pushes, self.cause, self.at, self.halts = line, sorted(pops), sorted(pushes), cause, at, halts
        self.effect = effect or (lambda core, *popped: ())


def move(register, value):
    return Bundle(f"MOVI a{register}, {value}", effect=lambda core: core.write(register, value))


def add(target, register, value):
    return Bundle(f"ADDI a{target}, a{register}, {value}", effect=lambda core: core.write(target, core.registers[register] + value))


def load(register, address):
    line = f"L32I a{register}, a{ZERO}, {address}"
    return Bundle(line, effect=lambda core: core.write(register, int.from_bytes(core.memory[address : address + 4], "little")))


def store(register, address):
    return Bundle(f"S32I a{register}, a{ZERO}, {address}", effect=lambda core: core.store(address, core.registers[register]))


ENDINGS = {
    "halts": ([], Bundle("SIMCALL", halts=True)),
    "again": ([], Bundle("J top", at=0)),
    "illegal": ([], Bundle(".byte 8, 8, 8", cause="Illegal")),
    "behind": ([], Bundle("", cause="Illegal")),
    "text": ([], Bundle(f"S32I a2, a{ZERO}, 0", cause="StoreText")),
    "odd": ([move(FAR, -1)], Bundle(f"L32I a2, a{FAR}, 0", cause="Unaligned")),
    "far": ([move(FAR, -4)], Bundle(f"L32I a2, a{FAR}, 0", cause="BadAddress")),
}


class Operation:
    """An operation of an extension. `values(register, *popped)` answers what the register gets, None where it has no such
    operand, and what is pushed."""

    def __init__(self, name, operand, pops, pushes, body, values):
        self.name, self.operand, self.pops, self.pushes, self.body, self.values = name, operand, pops, pushes, body, values

    def declared(self, chance):
        links = [f"in I{number}" for number in self.pops] + [f"out O{number}" for number in self.pushes]
        chance.shuffle(links)
        return f"operation {self.name} {{{self.operand}}} {{{', '.join(links)}}} {{{self.body}}}"

    def bundle(self, register):
        def effect(core, *popped):
            written, *pushed = self.values(core.registers[register], *popped)
            if written is not None:
                core.write(register, written)
            return pushed

        return Bundle(f"{self.name} a{register}" if self.operand else self.name, self.pops, self.pushes, effect=effect)


def pairs(count):
    return [(first, second) for second in range(count) for first in range(second)]


def operations_at_inputs(inputs):
    """Those that push nothing."""
    for place in range(inputs):
        yield Operation(f"POP{place}", "out AR d", [place], [], f"assign d = I{place};", lambda held, item: (item,))
    for one, two in pairs(inputs):
        body = f"assign d = I{one} - I{two};"
        yield Operation(f"LESS{one}{two}", "out AR d", [one, two], [], body, lambda held, item, other: (item - other,))


def operations_at_outputs(outputs):
    """Those that pop nothing."""
    for place in range(outputs):
        yield Operation(f"PUSH{place}", "in AR s", [], [place], f"assign O{place} = s;", lambda held: (None, held))
    for one, two in pairs(outputs):
        body = f"assign O{one} = s; assign O{two} = s + 32'd7;"
        yield Operation(f"TWICE{one}{two}", "in AR s", [], [one, two], body, lambda held: (None, held, held + 7))


def operations_between(inputs, outputs):
    """Those that pop and push."""
    for place, out in [(place, out) for place in range(inputs) for out in range(outputs)]:
        body = f"assign O{out} = I{place} + 32'd1;"
        yield Operation(f"NEXT{place}{out}", "", [place], [out], body, lambda held, item: (None, item + 1))
        body = f"assign O{out} = r; assign r = I{place};"
        yield Operation(f"CHANGE{place}{out}", "inout AR r", [place], [out], body, lambda held, item: (item, held))
    for one, two in pairs(inputs):
        for out in range(outputs):
            body = f"assign O{out} = I{one} ^ I{two};"
            yield Operation(f"JOIN{one}{two}{out}", "", [one, two], [out], body, lambda held, item, other: (None, item ^ other))
        for out, last in pairs(outputs):
            body = f"assign O{out} = I{two}; assign O{last} = I{one};"
            name = f"CROSS{one}{two}{out}{last}"
            yield Operation(name, "", [one, two], [out, last], body, lambda held, item, other: (None, other, item))
    for out, last in pairs(outputs):
        for place in range(inputs):
            body = f"assign O{out} = I{place}; assign O{last} = I{place} + 32'd3;"
            yield Operation(f"FORK{place}{out}{last}", "", [place], [out, last], body, lambda held, item: (None, item, item + 3))


def operations(inputs, outputs):
    """All operations that so many queues admit, queues of one operation in the order of their declarations."""
    return [*operations_at_inputs(inputs), *operations_at_outputs(outputs), *operations_between(inputs, outputs)]


# ---- networks


class Queue:
    def __init__(self, name, capacity, origin, target):
        self.name, self.capacity, self.origin, self.target = name, capacity, origin, target
        self.start()

    def start(self):
        self.pushed, self.consumed = [], 0

    def is_empty(self):
        return self.consumed == len(self.pushed)

    def is_full(self):
        return len(self.pushed) - self.consumed >= self.capacity

    def take(self):
        self.consumed += 1
        return self.pushed[self.consumed - 1]


class Core:
    """A processor: what the file says of it, its queues by their numbers, and where it stands in a run."""

    def __init__(self, name, inputs, outputs):
        self.name, self.inputs, self.outputs = name, [None] * inputs, [None] * outputs
        self.image, self.dump = b"", None

    def start(self):
        self.at, self.registers, self.retired, self.ended = 0, [0] * 16, 0, None
        self.memory = bytearray(self.image.ljust(self.size, b"\0"))

    def write(self, register, value):
        self.registers[register] = value % 2**32
        return ()

    def store(self, address, value):
        self.memory[address : address + 4] = value.to_bytes(4, "little")
        return ()

    def waits_at(self, strict):
        """The first queue at which its bundle waits, and how."""
        bundle = self.program[self.at]
        for queue in (self.inputs[number] for number in bundle.pops):
            if queue.is_empty():
                return queue, "empty"
        for queue in (self.outputs[number] for number in bundle.pushes):
            if strict and queue.is_full():
                return queue, "full"
        return None

    def turn(self, strict):
        """One turn in a round: whether it moved."""
        if self.ended or self.retired == self.budget:
            return False
        bundle = self.program[self.at]
        if bundle.cause:
            self.ended = f"trapped {bundle.cause}"
            return False
        if self.waits_at(strict):
            return False
        pushed = bundle.effect(self, *(self.inputs[number].take() for number in bundle.pops))
        for number, value in zip(bundle.pushes, pushed):
            self.outputs[number].pushed.append(value % 2**32)
        self.retired += 1
        self.at = self.at + 1 if bundle.at is None else bundle.at
        self.ended = "halted" if bundle.halts else None
        return True

    def outcome(self):
        if self.ended:
            return HALTED if self.ended == "halted" else TRAPPED
        return UNFINISHED if self.retired == self.budget else BLOCKED

    def standing(self, strict):
        if self.outcome() == UNFINISHED:
            return f"spent budget {self.budget}"
        if self.ended:
            return self.ended
        queue, how = self.waits_at(strict)
        return f"blocked {queue.name} {how} {len(queue.pushed)} {queue.consumed}"

    def lines(self, strict):
        yield f"core {self.name} retired {self.retired} {self.standing(strict)} pc {3 * self.at:08X}"
        yield "  sar 0"
        yield from (f"  a{number} {value:08X}" for number, value in enumerate(self.registers) if value)
        if self.dump:
            start, length = self.dump
            for line in range(start, start + length, 16):
                shown = self.memory[line : min(line + 16, start + length)]
                yield f"  mem {line:08X} {shown.hex(' ').upper()}"


class Source:
    def __init__(self, name, items):
        self.name, self.items = name, items

    def start(self):
        self.sent = 0

    def turn(self, strict):
        if self.sent == len(self.items) or (strict and self.queue.is_full()):
            return False
        self.queue.pushed.append(self.items[self.sent])
        self.sent += 1
        return True


class Collector:
    def __init__(self, name, limit):
        self.name, self.limit = name, limit

    def start(self):
        self.found = []

    def turn(self, strict):
        if len(self.found) == self.limit or self.queue.is_empty():
            return False
        self.found.append(self.queue.take())
        return True


class Network:
    def __init__(self, cores):
        self.cores, self.sources, self.collectors, self.queues = cores, [], [], []

    def workers(self):
        return [*self.cores, *self.sources, *self.collectors]

    def run(self, strict):
        """Rounds up to the first one in which nobody moves."""
        for part in [*self.queues, *self.workers()]:
            part.start()
        while any([worker.turn(strict) for worker in self.workers()]):
            pass

    def outcome(self):
        outcomes = [core.outcome() for core in self.cores]
        return next(it for it in (TRAPPED, UNFINISHED, BLOCKED, HALTED) if it in outcomes)

    def report(self, strict):
        lines = [line for core in self.cores for line in core.lines(strict)]
        sent = [source.queue for source in self.sources]
        for queue in self.queues:
            pushed = "" if queue in sent else f" pushed {len(queue.pushed)}"
            lines.append(f"queue {queue.name}{pushed} consumed {queue.consumed}")
        for collector in self.collectors:
            lines.append(f"collector {collector.name} items {len(collector.found)}")
            lines += [f"  {value:08X}" for value in collector.found]
        return "\n".join([*lines, f"end {self.outcome()[0]}", ""])

    def answer(self, strict):
        """The status, the report, and nothing on standard error."""
        self.run(strict)
        return self.outcome()[1], self.report(strict), ""

    def file(self):
        lines = ["version = 1"]
        for core in self.cores:
            lines += ["[[core]]", f'name = "{core.name}"', f'tie = "{core.name}.tie"', f'image = "{core.name}.hex"']
            lines += [f"memory = {core.size}", f"budget = {core.budget}"]
            lines += [f"dump = {list(core.dump)}"] if core.dump else []
        for source in self.sources:
            lines += ["[[source]]", f'name = "{source.name}"', f'items = "{source.name}.hex"']
        for collector in self.collectors:
            lines += ["[[collector]]", f'name = "{collector.name}"', f"limit = {collector.limit}"]
        for queue in self.queues:
            lines += ["[[queue]]", f'name = "{queue.name}"', f"capacity = {queue.capacity}"]
            lines += [f'from = "{queue.origin}"', f'to = "{queue.target}"']
        return "\n".join([*lines, ""])


# ---- random networks


class Maker:
    def __init__(self, chance):
        self.chance = chance

    def core(self, name, endings):
        chance = self.chance
        core = Core(name, chance.randrange(4), chance.randrange(4))
        known = operations(len(core.inputs), len(core.outputs))
        known = chance.sample(known, min(len(known), chance.randint(1, 9)))
        kind = chance.choice(endings)
        before, last = ENDINGS[kind]
        core.program = [*(self.bundle(known) for _ in range(chance.randint(1, 14))), *before, last]
        exact = len(core.program)
        small = chance.choice([chance.randint(1, 20), max(1, exact - 1), exact, exact + 1])
        core.budget = chance.randint(1, 80) if kind == "again" else chance.choice([GREAT_BUDGET, GREAT_BUDGET, small])
        core.size = chance.choice(MEMORIES)
        if chance.random() < 0.4:
            start = chance.choice([0, 3, 256, 260, chance.randrange(320), core.size - 1])
            core.dump = start, min(chance.choice([1, 16, 17, chance.randint(1, 80)]), core.size - start)
        queues = [f"queue I{number} 32 in" for number in range(len(core.inputs))]
        queues += [f"queue O{number} 32 out" for number in range(len(core.outputs))]
        core.extension = "\n".join([*queues, *(it.declared(chance) for it in known), ""])
        return core

    def bundle(self, known):
        chance = self.chance
        kind, register = chance.random(), chance.choice(USED)
        if known and kind < 0.7:
            return chance.choice(known).bundle(register)
        if kind < 0.8:
            return move(register, chance.randint(-99, 99))
        if kind < 0.9:
            return add(register, chance.choice(USED), chance.randint(-9, 9))
        return chance.choice([load, store])(register, chance.choice(CELLS))

    def network(self):
        """Processors, and queues for all that they declare. In every other network all processors would halt."""
        chance = self.chance
        endings, most = chance.choice([(["halts"], 14), (["halts"] * 5 + ["again"] * 3 + list(ENDINGS), 6)])
        network = Network([self.core(name, endings) for name in "ABCDE"[: chance.randint(1, 5)]])
        outputs = [(core, number) for core in network.cores for number in range(len(core.outputs))]
        chance.shuffle(outputs)
        for core, number in [(core, number) for core in network.cores for number in range(len(core.inputs))]:
            others = [it for it in outputs if it[0] is not core]
            if others and chance.random() < 0.75:
                outputs.remove(others[0])
                origin, place = others[0]
                queue = self.queue(network, f"{origin.name}.O{place}", f"{core.name}.I{number}")
                origin.outputs[place] = queue
            else:
                items = [chance.randrange(2**32) for _ in range(chance.randint(0, most))]
                network.sources.append(Source(f"S{len(network.sources)}", items))
                queue = self.queue(network, network.sources[-1].name, f"{core.name}.I{number}")
                network.sources[-1].queue = queue
            core.inputs[number] = queue
        for origin, place in outputs:
            limit = chance.choice([GREAT_LIMIT, chance.randint(1, 5)])
            network.collectors.append(Collector(f"K{len(network.collectors)}", limit))
            queue = self.queue(network, f"{origin.name}.O{place}", network.collectors[-1].name)
            origin.outputs[place] = network.collectors[-1].queue = queue
        chance.shuffle(network.queues)
        return network

    def queue(self, network, origin, target):
        network.queues.append(Queue(f"Q{len(network.queues)}", self.chance.randint(1, 3), origin, target))
        return network.queues[-1]


# ---- both answers


def source_of(core):
    return "top:\n" + "".join(bundle.line + "\n" for bundle in core.program)


def write(network, program, folder):
    """The files of a network. The images are those that `asm` makes."""
    for core in network.cores:
        (folder / f"{core.name}.tie").write_text(core.extension)
        (folder / "source").write_text(source_of(core))
        run = subprocess.run([program, "asm", f"{core.name}.tie", "source"], cwd=folder, capture_output=True, text=True, timeout=60)
        if run.returncode != 0:
            sys.exit(f"asm: {run.stderr}{core.extension}\n{source_of(core)}")
        core.image = bytes.fromhex(run.stdout)
        (folder / f"{core.name}.hex").write_text(run.stdout)
    for source in network.sources:
        (folder / f"{source.name}.hex").write_text(" ".join(f"{value:08X}" for value in source.items))
    (folder / NETWORK).write_text(network.file())


def program_answer(program, command, folder):
    run = subprocess.run([program, command, NETWORK], cwd=folder, capture_output=True, text=True, timeout=60)
    return run.returncode, run.stdout, run.stderr


def told(network, command, own, model):
    print(f"differs by {command}:\n{network.file()}")
    for core in network.cores:
        print(f"{core.name}.tie:\n{core.extension}\n{core.name}:\n{source_of(core)}")
    for source in network.sources:
        print(f"{source.name}: {' '.join(f'{value:08X}' for value in source.items)}")
    for name, (status, report, line) in (("the program", own), ("the model", model)):
        print(f"{name}, with status {status}:\n{report}{line}")


def main():
    if len(sys.argv) < 2:
        sys.exit("usage: tools/models/network_runs.py PROGRAM [COUNT [SEED]]")
    program = pathlib.Path(sys.argv[1]).resolve()
    count, seed = (int(word) for word in (*sys.argv[2:4], *["1000", "1"][len(sys.argv[:4]) - 2 :]))
    maker = Maker(random.Random(seed))
    ends, differences = collections.Counter(), 0
    with tempfile.TemporaryDirectory() as name:
        folder = pathlib.Path(name)
        for _ in range(count):
            network = maker.network()
            write(network, program, folder)
            for command in ("ref", "strict"):
                model = network.answer(command == "strict")
                ends[command, network.outcome()[0]] += 1
                own = program_answer(program, command, folder)
                if own != model:
                    differences += 1
                    told(network, command, own, model)
    print(f"{count} networks, {2 * count} runs: {2 * count - differences} alike, {differences} differ; by the model:")
    for command in ("ref", "strict"):
        print(f"  {command}: " + ", ".join(f"{ends[command, word]} {word}" for word, _ in (HALTED, TRAPPED, UNFINISHED, BLOCKED)))
    return 1 if differences else 0


if __name__ == "__main__":
    sys.exit(main())
