"""Measures reading a script on a machine of 256 processors, and printing the history of its lines, beside plain Rust.

usage: measure_scripts.py PROGRAM [PLAIN]
Times are the least of several runs, as the program's own processor time a round; what one run takes that does no round is
taken off. PLAIN is a program that does the same in plain Rust: it is measured beside each, one run of each in turn, and is
to print the same bytes. The output of measured runs goes to the null device.
"""

import os
import random
import subprocess
import sys
import tempfile
from pathlib import Path

import ratios
from machine import busy, processor

RUNS = 9
ROUNDS = {"read": 20, "print": 10}
SIZES = (16384, 32768, 65536)
PROCESSORS = 256
CLUSTER = 8

# The forms of a line behind its path, each with how often it comes among a hundred, and the bounds of its numbers.
FORMS = (
    ("wake", 20, ()),
    ("idle", 20, ((1, 3),)),
    ("idle", 10, ((1, 3), (5, 1000))),
    ("within", 20, ((5, 1000), (0, 5000))),
    ("perf", 10, ((0, 7),)),
    ("throttle", 5, ((0, 7),)),
    ("plimit", 3, ((0, 9),)),
    ("tlimit", 2, ((0, 9),)),
    ("notify 128", 5, ((0, 9),)),
    ("notify 130", 5, ((0, 9),)),
)


def line(draw):
    """A line of a script: each form on any processor."""
    cpu = draw.randrange(PROCESSORS)
    word, _, bounds = draw.choices(FORMS, [form[1] for form in FORMS])[0]
    numbers = "".join(f" {draw.randint(low, high)}" for low, high in bounds)
    return f"\\_SB.C{cpu // CLUSTER:03X}.P{cpu:03X} {word}{numbers}\n"


def script(count):
    """The same lines at each call, so many of them."""
    draw = random.Random(1)
    return "".join(line(draw) for _ in range(count))


def seconds(program, work, path, rounds):
    """Processor seconds of one run."""
    before = busy()
    subprocess.run([program, work, path, str(rounds)], stdout=subprocess.DEVNULL, check=True)
    return busy() - before


def milliseconds(programs, work, path):
    """Of each program the least milliseconds of a round, and of a run without one."""
    least = {}
    for _ in range(RUNS):
        for program in programs:
            for rounds in (0, ROUNDS[work]):
                took = seconds(program, work, path, rounds)
                least[program, rounds] = min(took, least.get((program, rounds), took))
    return [(least[p, ROUNDS[work]] - least[p, 0]) * 1e3 / ROUNDS[work] for p in programs]


def output(program, path):
    """The history of the script's lines."""
    return subprocess.run([program, "print", path, "1"], stdout=subprocess.PIPE, check=True).stdout


def main():
    programs = sys.argv[1:]
    print(f"{os.cpu_count()} processor cores, {processor() or 'of no known name'}; least of {RUNS} runs.")
    print()
    heads = ["work", "lines", "script, bytes", "output, bytes", "processor, ms", "ns a line", "time against half"]
    heads += ["plain Rust, ms", "against plain Rust"]
    print("| " + " | ".join(heads) + " |")
    print("|---" * len(heads) + "|")
    with tempfile.TemporaryDirectory() as folder:
        path = str(Path(folder) / "script")
        for work in ROUNDS:
            before = None
            for count in SIZES:
                Path(path).write_text(script(count), encoding="ascii")
                texts = [output(program, path) for program in programs]
                if any(text != texts[0] for text in texts):
                    raise SystemExit(f"{programs[1]} prints other bytes")
                took = milliseconds(programs, work, path)
                cells = [work, count, os.path.getsize(path), len(texts[0]) if work == "print" else ""]
                cells += [f"{took[0]:.1f}", f"{took[0] * 1e6 / count:.0f}", f"{took[0] / before:.2f}" if before else ""]
                cells += [f"{took[1]:.1f}", f"{took[0] / took[1]:.2f}"] if len(took) > 1 else ["", ""]
                print("| " + " | ".join(str(cell) for cell in cells) + " |", flush=True)
                if len(took) > 1:
                    ratios.add(f"{work}, {count} lines", took[0] / took[1], None)
                before = took[0]
    ratios.show()


if __name__ == "__main__":
    main()
