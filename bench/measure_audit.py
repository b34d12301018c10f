"""Measures `audit` on histories of growing length on machines of growing size, beside plain Rust.

Scripts and machines are those of measure_drive.py and measure_cppc.py, the histories what the program prints of them by `drive --serial`
and by `cppc --serial`. Times are the least of several runs, as the program's own processor time; runs of both programs alternate. The
plain program is to say the same.
"""

import itertools
import os
import subprocess
import tempfile
from pathlib import Path

import measure_cppc
import measure_drive
from machine import processor
from measure_drive import RUNS, SIZES, add_ratios, milliseconds, peak


def kinds():
    """Of each kind of machine its name, the command that prints a history, the flags to audit it by, its script and its block by their size."""
    for idle in ("low power", "C states too"):
        yield idle, "drive", [], measure_drive.script, lambda count, idle=idle: measure_drive.machine(count, idle != "low power")
    for by, kind in (("software", 0xFC), ("hardware", 0xFE)):
        yield f"performance by {by}", "cppc", ["--cppc"], measure_cppc.script, lambda count, kind=kind: measure_cppc.machine(count, kind)


def main(programs):
    print(f"{os.cpu_count()} processor cores, {processor() or 'of no known name'}; least of {RUNS} runs.")
    print()
    heads = ["machine", "processors", "lines", "history, bytes", "processor, ms", "ns a byte", "peak memory, KiB"]
    heads += ["plain Rust, ms", "against plain Rust", "plain Rust, KiB", "memory against plain Rust"]
    print("| " + " | ".join(heads) + " |")
    print("|---" * len(heads) + "|")
    with tempfile.TemporaryDirectory() as folder:
        text, table, history = Path(folder) / "script", Path(folder) / "block", Path(folder) / "history"
        for (kind, command, flags, script, machine), (processors, count) in itertools.product(kinds(), SIZES):
            words = ["audit", *flags, str(text), str(history), str(table)]
            table.write_bytes(machine(processors))
            text.write_text(script(processors, count), encoding="ascii")
            printed = subprocess.run([programs[0], command, "--serial", str(text), str(table)], stdout=subprocess.PIPE, check=True).stdout
            history.write_bytes(printed)
            for program in programs:
                if subprocess.run([program, *words], stdout=subprocess.PIPE, check=True).stdout != f"lawful entries {count}\n".encode():
                    raise SystemExit(f"{program} doesn't find the history lawful")
            took = milliseconds(programs, words)
            peaks = [peak(program, words) for program in programs]
            cells = [kind, processors, count, len(printed), f"{took[0]:.1f}", f"{took[0] * 1e6 / len(printed):.1f}", peaks[0] or "no GNU time"]
            cells += [f"{took[1]:.1f}", f"{took[0] / took[1]:.2f}"] if len(took) > 1 else ["", ""]
            cells += [peaks[1], f"{peaks[0] / peaks[1]:.2f}"] if len(took) > 1 and peaks[0] else ["", ""]
            print("| " + " | ".join(str(cell) for cell in cells) + " |", flush=True)
            add_ratios(f"audit, {kind}, {count} lines on {processors} processors", took, peaks)
