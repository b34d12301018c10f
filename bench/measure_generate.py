"""Measures `generate N`: a machine of N clusters of eight processors, and 64 N times N requests on it.

Times are the least of several runs, as the program's own processor time; runs of both programs alternate. The plain program is to
print the same bytes.
"""

import os
import subprocess

from machine import processor
from measure_drive import RUNS, add_ratios, milliseconds, peak

SIZES = (8, 16, 32)


def main(programs):
    print(f"{os.cpu_count()} processor cores, {processor() or 'of no known name'}; least of {RUNS} runs.")
    print()
    heads = ["N", "processors", "lines", "processor, ms", "ns a line", "time against half", "peak memory, KiB"]
    heads += ["plain Rust, ms", "against plain Rust", "plain Rust, KiB", "memory against plain Rust"]
    print("| " + " | ".join(heads) + " |")
    print("|---" * len(heads) + "|")
    half = None
    for size in SIZES:
        words = ["generate", str(size)]
        outputs = [subprocess.run([program, *words], stdout=subprocess.PIPE, check=True).stdout for program in programs]
        if any(output != outputs[0] for output in outputs):
            raise SystemExit(f"{programs[1]} prints other bytes")
        took = milliseconds(programs, words)
        peaks = [peak(program, words) for program in programs]
        lines = 64 * size * size
        cells = [size, 8 * size, lines, f"{took[0]:.1f}", f"{took[0] * 1e6 / lines:.0f}"]
        cells += [f"{took[0] / half:.2f}" if half else "", peaks[0] or "no GNU time"]
        cells += [f"{took[1]:.1f}", f"{took[0] / took[1]:.2f}"] if len(took) > 1 else ["", ""]
        cells += [peaks[1], f"{peaks[0] / peaks[1]:.2f}"] if len(took) > 1 and peaks[0] else ["", ""]
        print("| " + " | ".join(str(cell) for cell in cells) + " |", flush=True)
        add_ratios(f"generate {size}", took, peaks)
        half = took[0]
