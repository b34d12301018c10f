"""Measures requests through the static library, in nanoseconds, and the memory that its handles take, on machines of three sizes.

usage: measure_embedding.py ARCHIVE
The machines are those of measure_drive.py with low power idle states in every cluster. Times are the least of several runs of
examples/c/bench.c by the clock; bytes are those of examples/c/room.c, and of the stack those of examples/c/stack.c on the
tables of examples/.
"""

import os
import re
import subprocess
import sys
import tempfile
from pathlib import Path

from machine import processor
from measure_drive import machine

RUNS = 5
SIZES = (8, 64, 256)
TOP = Path(__file__).resolve().parent.parent
C = TOP / "examples/c"


def build(folder, archive, name, sources):
    made = folder / name
    files = [C / f"{source}.c" for source in (name, "tables", *sources)]
    flags = ["-std=c11", "-D_POSIX_C_SOURCE=200809L", "-O2", f"-I{TOP}/include"]
    subprocess.run(["cc", *flags, *files, archive, "-pthread", "-o", made], check=True)
    return made


def numbers(program, table):
    """What each line of a run says, by its words: `WORDS: NUMBER`, and behind `, with the lists` a second number."""
    said = subprocess.run([program, table], check=True, capture_output=True, text=True).stdout
    found = {}
    for what, first, second in re.findall(r"^(.*): (-?[\d.]+)(?: ns)?(?:, with the lists ([\d.]+))?$", said, re.M):
        found[what] = float(first)
        if second:
            found[f"{what}, with the lists"] = float(second)
    return found


def least(program, table):
    runs = [numbers(program, table) for _ in range(RUNS)]
    return {what: min(run[what] for run in runs) for what in runs[0]}


def put(rows, form):
    for what in rows[0]:
        print(f"| {what} | " + " | ".join(form(row[what]) for row in rows) + " |")


def main():
    print(f"{os.cpu_count()} processor cores, {processor() or 'of no known name'}; least of {RUNS} runs.")
    with tempfile.TemporaryDirectory() as made:
        folder = Path(made)
        bench, room = build(folder, sys.argv[1], "bench", ["memory"]), build(folder, sys.argv[1], "room", ["heap"])
        tables = []
        for size in SIZES:
            tables.append(folder / f"{size}.aml")
            tables[-1].write_bytes(machine(size, False))
        head = " | ".join(f"{size} processors" for size in SIZES) + " |\n|---|" + "---|" * len(SIZES)
        print(f"\n| request, ns | {head}")
        put([least(bench, table) for table in tables], lambda ns: f"{ns:.1f}")
        print(f"\n| memory, bytes | {head}")
        put([numbers(room, table) for table in tables], lambda count: f"{count:,.0f}")
        stack = build(folder, sys.argv[1], "stack", ["memory"])
        examples = [TOP / f"examples/{name}.aml" for name in ("laptop", "desktop", "server", "clusters")]
        print(f"\n{subprocess.run([stack, *examples], check=True, capture_output=True, text=True).stdout}", end="")


main()
