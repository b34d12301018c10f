"""Measures steps of the coordinator, nanoseconds a step for each load and number of processors; and making plans.

usage: measure_steps.py PROGRAM
Times are the least of several runs, as the program's own processor time. What the load `nothing` takes, which
makes the machine and turns the same loop, is taken off.
"""

import os
import subprocess
import sys

from machine import busy, processor

RUNS = 5
SIZES = (8, 64, 256)
STEPS = 1_000_000
FEWER_STEPS = 200_000
# A wake is so short that fewer drown in what making the machine takes.
MANY_STEPS = 50_000_000
LOADS = {
    "idle": FEWER_STEPS,
    "nested-idle": FEWER_STEPS,
    "c-state": FEWER_STEPS,
    "wake": MANY_STEPS,
    "perf": STEPS,
    "throttle": STEPS,
    "perf-limit": STEPS,
    "throttle-limit": STEPS,
    "node-vote": STEPS,
    "group-vote": STEPS,
    "domain-ask": STEPS,
    "domain-limit": STEPS,
}

# How many processors, and how many idle domains each declares.
PLANS = ((1, 150_000), (1, 300_000), (8, 1), (64, 1), (256, 1))


def run(program, size, load, steps):
    """Processor seconds of one run."""
    before = busy()
    subprocess.run([program, load, str(size), str(steps)], stdout=subprocess.DEVNULL, check=True)
    return busy() - before


def least(program, size, load, steps):
    """Processor seconds of the fastest of several runs."""
    return min(run(program, size, load, steps) for _ in range(RUNS))


def main():
    program = sys.argv[1]
    print(f"{os.cpu_count()} processor cores, {processor() or 'of no known name'}; nanoseconds a step, least of {RUNS} runs.")
    print()
    print("| load | steps | " + " | ".join(f"{size} processors" for size in SIZES) + " |")
    print("|---|---|" + "---|" * len(SIZES))
    empty = {(size, steps): least(program, size, "nothing", steps) for size in SIZES for steps in set(LOADS.values())}
    for load, steps in LOADS.items():
        costs = [(least(program, size, load, steps) - empty[size, steps]) * 1e9 / steps for size in SIZES]
        print(f"| {load} | {steps} | " + " | ".join(f"{cost:.0f}" for cost in costs) + " |", flush=True)
    print()
    print("| processors | entries of `_CSD` each | milliseconds for the plan |")
    print("|---|---|---|")
    start = least(program, 1, "plan", 0)
    for size, entries in PLANS:
        cost = (least(program, size, "plan", entries) - start) * 1e3
        print(f"| {size} | {entries} | {cost:.1f} |", flush=True)


main()
