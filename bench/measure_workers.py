"""Measures `drive` with one worker a processor and `generate`, on one, two and four processors, beside plain Rust.

`drive` has 65,536 lines on 256 processors in clusters of eight with low power idle states, `generate` as many by itself. Of each
program the least wall clock of several runs is told, with the processor time of that run; runs of both programs alternate. The
plain program is to print of `generate` the same bytes, and of `drive` a history that the other audits as lawful. What workers cost
beside the work is the processor time against that of `drive --serial`.
"""

import os
import subprocess
import tempfile
import time
from pathlib import Path

from machine import busy, processor
from measure_drive import add_ratios, machine, milliseconds, peak, script

RUNS = 25
PROCESSORS = (1, 2, 4)


def measured(programs, count, words):
    """Of each program the least wall milliseconds of a run on so many processors, and the processor milliseconds of that run."""
    least = {}
    for _ in range(RUNS):
        for program in programs:
            before, began = busy(), time.monotonic()
            subprocess.run(["taskset", "-c", f"0-{count - 1}", program, *words], stdout=subprocess.DEVNULL, check=True)
            took = (time.monotonic() - began, busy() - before)
            least[program] = min(took, least.get(program, took))
    return [tuple(1e3 * part for part in least[program]) for program in programs]


def is_lawful(program, words, printed):
    """Whether the program audits what was printed as a history of all lines."""
    with tempfile.NamedTemporaryFile() as history:
        history.write(printed)
        history.flush()
        done = subprocess.run([program, "audit", words[1], history.name, words[2]], stdout=subprocess.PIPE, check=False)
        return done.stdout == b"lawful entries 65536\n"


def checked(programs, words):
    """Stops where a program doesn't print what it must."""
    for program in programs:
        printed = subprocess.run([program, *words], stdout=subprocess.PIPE, check=True).stdout
        if words[0] == "generate":
            right = printed == subprocess.run([programs[0], *words], stdout=subprocess.PIPE, check=True).stdout
        else:
            right = is_lawful(programs[0], words, printed)
        if not right:
            raise SystemExit(f"{program} prints what can't be")


def main(programs):
    print(f"{os.cpu_count()} processor cores, {processor() or 'of no known name'}; least of {RUNS} runs.")
    print()
    heads = ["work", "processors of the machine", "wall clock, ms", "processor, ms", "peak memory, KiB", "plain Rust, ms", "its processor, ms"]
    heads += ["against plain Rust", "processor time against plain Rust", "plain Rust, KiB", "memory against plain Rust", "processor time against --serial"]
    print("| " + " | ".join(heads) + " |")
    print("|---" * len(heads) + "|")
    with tempfile.TemporaryDirectory() as folder:
        text, table = Path(folder) / "script", Path(folder) / "block"
        table.write_bytes(machine(256, False))
        text.write_text(script(256, 65536), encoding="ascii")
        drive = ["drive", str(text), str(table)]
        [serial, *_] = milliseconds(programs[:1], ["drive", "--serial", *drive[1:]])
        for name, words in (("drive", drive), ("generate 32", ["generate", "32"])):
            checked(programs, words)
            for count in (count for count in PROCESSORS if count <= os.cpu_count()):
                took = measured(programs, count, words)
                peaks = [peak(program, words) for program in programs]
                cells = [name, count, f"{took[0][0]:.1f}", f"{took[0][1]:.1f}", peaks[0] or "no GNU time"]
                if len(took) > 1:
                    cells += [f"{took[1][0]:.1f}", f"{took[1][1]:.1f}", f"{took[0][0] / took[1][0]:.2f}", f"{took[0][1] / took[1][1]:.2f}"]
                    cells += [peaks[1], f"{peaks[0] / peaks[1]:.2f}"] if peaks[0] else ["", ""]
                else:
                    cells += [""] * 6
                cells += [f"{took[0][1] / serial:.2f}" if name == "drive" else ""]
                print("| " + " | ".join(str(cell) for cell in cells) + " |", flush=True)
                add_ratios(f"{name}, by the clock on {count} processors", [wall for wall, _ in took], peaks)
