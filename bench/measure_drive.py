"""Measures `drive --serial` by scripts of growing length on machines of growing size, beside plain Rust.

Of each size there is a machine with low power idle states in every cluster, and one with C states in every second.

Times are the least of several runs, as the program's own processor time; runs of both programs alternate. The plain
program is to print the same bytes. The output of measured runs goes to the null device.
"""

import itertools
import os
import random
import subprocess
import tempfile
from pathlib import Path

import ratios
from machine import busy, processor
from measure import SCOPE, block, clusters, holder
from measure_scripts import FORMS

RUNS = 21
SIZES = ((256, 16384), (256, 32768), (256, 65536), (8, 65536), (64, 65536))


def machine(count, has_c_states):
    """So many processors in clusters of eight, with eight performance and eight throttling states."""
    return block(holder(SCOPE, b"\\_SB_", b"".join(clusters(count, 8, has_c_states))))


def script(processors, count):
    """The same lines at each call, so many of them: each form on any processor."""
    draw = random.Random(1)
    lines = []
    for _ in range(count):
        cpu = draw.randrange(processors)
        word, _, bounds = draw.choices(FORMS, [form[1] for form in FORMS])[0]
        numbers = "".join(f" {draw.randint(low, high)}" for low, high in bounds)
        lines.append(f"\\_SB.CL{cpu // 8:02X}.P{cpu:03X} {word}{numbers}\n")
    return "".join(lines)


def milliseconds(programs, words):
    """Of each program the least processor milliseconds of a run."""
    least = {}
    for _ in range(RUNS):
        for program in programs:
            before = busy()
            subprocess.run([program, *words], stdout=subprocess.DEVNULL, check=True)
            took = busy() - before
            least[program] = min(took, least.get(program, took))
    return [1e3 * least[program] for program in programs]


def peak(program, words):
    """Peak resident KiB of one run, as GNU time says it; none where it isn't installed."""
    if not os.access("/usr/bin/time", os.X_OK):
        return None
    done = subprocess.run(["/usr/bin/time", "-f", "%M", program, *words], stdout=subprocess.DEVNULL, stderr=subprocess.PIPE, check=True)
    return int(done.stderr)


def add_ratios(work, took, peaks):
    """Takes in how a work compares, of the times and the peaks of both programs."""
    if len(took) > 1:
        ratios.add(work, took[0] / took[1], peaks[0] / peaks[1] if peaks[0] else None)


def begin(first):
    """Prints the machine and the heads of a table, the first of which is given."""
    print(f"{os.cpu_count()} processor cores, {processor() or 'of no known name'}; least of {RUNS} runs.")
    print()
    heads = [first, "processors", "lines", "script, bytes", "output, bytes", "processor, ms", "ns a line", "peak memory, KiB"]
    heads += ["plain Rust, ms", "against plain Rust", "plain Rust, KiB", "memory against plain Rust"]
    print("| " + " | ".join(heads) + " |")
    print("|---" * len(heads) + "|")


def put_row(programs, words, first, processors, count, size):
    """Measures runs of so many lines, a text of this size, and prints their row, whose first cell is given."""
    outputs = [subprocess.run([program, *words], stdout=subprocess.PIPE, check=True).stdout for program in programs]
    if any(output != outputs[0] for output in outputs):
        raise SystemExit(f"{programs[1]} prints other bytes")
    took = milliseconds(programs, words)
    peaks = [peak(program, words) for program in programs]
    cells = [first, processors, count, size, len(outputs[0]), f"{took[0]:.1f}", f"{took[0] * 1e6 / count:.0f}"]
    cells += [peaks[0] or "no GNU time"]
    cells += [f"{took[1]:.1f}", f"{took[0] / took[1]:.2f}"] if len(took) > 1 else ["", ""]
    cells += [peaks[1], f"{peaks[0] / peaks[1]:.2f}"] if len(took) > 1 and peaks[0] else ["", ""]
    add_ratios(f"{words[0]} {words[1]}, {first}, {count} lines on {processors} processors", took, peaks)
    print("| " + " | ".join(str(cell) for cell in cells) + " |", flush=True)


def main(programs):
    begin("idle states")
    with tempfile.TemporaryDirectory() as folder:
        text, table = Path(folder) / "script", Path(folder) / "block"
        words = ["drive", "--serial", str(text), str(table)]
        for idle, (processors, count) in itertools.product(("low power", "C states too"), SIZES):
            table.write_bytes(machine(processors, idle != "low power"))
            text.write_text(script(processors, count), encoding="ascii")
            put_row(programs, words, idle, processors, count, text.stat().st_size)
