#!/usr/bin/env python3
"""Times the program on inputs of three sizes, a factor of four each, and prints a table.

usage: bench/run.py PROGRAM

Each command runs three times, and the fastest counts. Seconds are those of the processor, and peak memory is that of the
process."""
import os
import pathlib
import subprocess
import sys
import tempfile

SIZES = (1, 4, 16)

OPERATIONS = """state ACC 40
operation MAC {in AR a, in AR b} {inout ACC} {assign ACC = ACC + a * b;}
operation HALF {out AR r, in AR a} {} {assign r = a >> 1;}
format F 32 {f0, f1}
slot_opcodes f0 {MAC}
slot_opcodes f1 {ADD, SUB}
"""


def tie_text(size):
    """Functions with many wires, each wire assigned once and read once: about 60,000 bytes for each unit."""
    functions = []
    for number in range(4 * size):
        lines = [f"function [31:0] fun{number} ([31:0] x) {{", "  wire [31:0] w0 = x;"]
        lines += [f"  wire [31:0] w{k} = w{k - 1} + x;" for k in range(1, 480)]
        lines += [f"  assign fun{number} = w479;", "}"]
        functions.append("\n".join(lines))
    return OPERATIONS + "\n".join(functions) + "\n"


def source(size):
    """Labels, instructions that go to them, and bundles: about 4,000 bytes of image for each unit."""
    lines = []
    for number in range(290 * size):
        lines += [f"label{number}:", "  ADDI a2, a2, 1", "  F { MAC a2, a3 ; ADD a4, a4, a5 }", f"  BEQZ a2, label{number}", "  HALF a6, a2"]
    return "\n".join(lines) + "\n"


def loop(size):
    """A loop of four bundles, 62,500 bundles for each unit, and the halt."""
    count = 15624 * size
    high, low = divmod(count, 256)
    return (
        f"  MOVI a2, {high}\n  SLLI a2, a2, 8\n  ADDI a2, a2, {low - 256 if low > 127 else low}\n"
        + ("  ADDI a2, a2, 127\n  ADDI a2, a2, 127\n  ADDI a2, a2, 2\n" if low > 127 else "")
        + "loop: ADDI a2, a2, -1\n  F { MAC a2, a3 ; ADD a4, a4, a2 }\n  HALF a6, a2\n  BNEZ a2, loop\n  SIMCALL\n"
    )


SCALE = """queue IN 32 in
queue OUT 32 out
operation SCALE {} {in IN, out OUT} {assign OUT = IN << 2;}
"""


def items(size):
    return 2000 * size


def worker(size):
    """A loop that takes each item of a queue and passes it on, and the halt."""
    return f"J start\n.align 4\ncount: .word {items(size)}\nstart: L32R a2, count\nloop: SCALE\nADDI a2, a2, -1\nBNEZ a2, loop\nSIMCALL\n"


def chain():
    """A network in which a source's items go through three processors to a collector."""
    lines = ["version = 1"]
    for name in "ABC":
        lines += ["[[core]]", f'name = "{name}"', 'tie = "scale"', 'image = "hex"']
    lines += ["[[source]]", 'name = "S"', 'items = "items"', "[[collector]]", 'name = "K"']
    for number, (start, end) in enumerate((("S", "A.IN"), ("A.OUT", "B.IN"), ("B.OUT", "C.IN"), ("C.OUT", "K"))):
        lines += ["[[queue]]", f'name = "Q{number}"', "capacity = 4", f'from = "{start}"', f'to = "{end}"']
    return "\n".join(lines) + "\n"


def timed(words, folder, out=None):
    """The seconds and the peak memory, in megabytes, of the fastest of three runs."""
    best, peak = None, 0
    for _ in range(3):
        with open(pathlib.Path(folder) / (out or "printed"), "wb") as to:
            process = subprocess.Popen(words, cwd=folder, stdout=to)
            _, status, used = os.wait4(process.pid, 0)
            seconds = used.ru_utime + used.ru_stime
        process.returncode = os.waitstatus_to_exitcode(status)
        if process.returncode != 0:
            raise SystemExit(f"{' '.join(words)}: status {process.returncode}")
        best = seconds if best is None else min(best, seconds)
        peak = max(peak, used.ru_maxrss / 1024)
    return best, peak


def main():
    program = str(pathlib.Path(sys.argv[1]).resolve())
    print("| command | input | seconds | growth | throughput | peak memory |")
    print("|---|---|---|---|---|---|")
    with tempfile.TemporaryDirectory() as folder:
        at = pathlib.Path(folder)
        (at / "ops").write_text(OPERATIONS)
        before = {}

        def row(command, words, amount, unit, out=None):
            seconds, peak = timed([program, *words], folder, out)
            growth = f"{seconds / before[command]:.1f}" if command in before else ""
            before[command] = seconds
            print(f"| {command} | {amount:,} {unit} | {seconds:.3f} | {growth} | {amount / seconds:,.0f} {unit} a second | {peak:.0f} MB |", flush=True)

        for size in SIZES:
            (at / "tie").write_text(tie_text(size))
            row("check", ["check", "tie"], (at / "tie").stat().st_size, "bytes")
        for size in SIZES:
            (at / "src").write_text(source(size))
            row("asm", ["asm", "ops", "src"], (at / "src").stat().st_size, "bytes", "hex")
            row("dis", ["dis", "ops", "hex"], len((at / "hex").read_text().split()), "bytes")
        for size in SIZES:
            (at / "src").write_text(loop(size))
            timed([program, "asm", "ops", "src"], folder, "hex")
            row("exec", ["exec", "hex", "ops"], 62500 * size, "bundles")
        (at / "scale").write_text(SCALE)
        (at / "net").write_text(chain())
        for size in SIZES:
            (at / "src").write_text(worker(size))
            (at / "items").write_text("00000001" * items(size))
            timed([program, "asm", "scale", "src"], folder, "hex")
            row("strict", ["strict", "net"], items(size), "items")


if __name__ == "__main__":
    main()
