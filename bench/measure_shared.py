"""Measures requests of several threads on a shared coordinator, beside plain Rust: with one lock, with a lock for each record, and with
the proved coordinator's own steps, its turns side by side or a cache line and more apart. The proved program is measured with a coordinator
that keeps its history, and with one without end.

usage: measure_shared.py PROGRAM [PLAIN]
A run makes rounds of 65,536 requests in all: a coordinator is opened, threads make the requests, each by a seat and for a
processor of its own, and it is closed. Times are the least of several runs, wall clock and processor time each; runs of all
programs alternate. Each is to tell as many entries and operations as a round must leave.
"""

import itertools
import os
import subprocess
import sys
import time

import ratios
from machine import busy, processor

RUNS = 7
ROUNDS = 20
REQUESTS = 65536
THREADS = (1, 2, 4, 8)
# To idle is one operation and to wake is none; another state is one, and so is each of eight domains at the start.
MACHINES = {"one-cluster": REQUESTS // 2, "eight-clusters": REQUESTS // 2, "domains": REQUESTS + 8}


def run(program, words):
    """Wall clock and processor seconds of a run, and what it told."""
    before, start = busy(), time.perf_counter()
    told = subprocess.run([*program, *words], stdout=subprocess.PIPE, check=True, text=True).stdout
    wall = time.perf_counter() - start
    return wall, busy() - before, told


def least(programs, machine, threads):
    """Of each program the least wall clock and the least processor nanoseconds of a request, and processors kept busy."""
    words = [machine, str(threads), str(ROUNDS)]
    wanted = f"{ROUNDS} rounds, {REQUESTS} entries, {MACHINES[machine]} operations\n"
    walls, used = [[] for _ in programs], [[] for _ in programs]
    for _ in range(RUNS):
        for place, program in enumerate(programs):
            wall, took, told = run(program, words)
            if told != wanted:
                raise SystemExit(f"{' '.join([*program, *words])} tells {told!r} and not {wanted!r}")
            walls[place].append(wall)
            used[place].append(took)
    count = ROUNDS * REQUESTS / 1e9
    return [(min(wall) / count, min(took) / count, took[wall.index(min(wall))] / min(wall)) for wall, took in zip(walls, used)]


def rate(nanoseconds):
    """Thousands of requests a second."""
    return f"{1e6 / nanoseconds:.0f}"


def main():
    programs = [[sys.argv[1], "kept"], [sys.argv[1], "counted"]]
    names = ["proved", "without end"]
    if len(sys.argv) > 2:
        programs += [[sys.argv[2], "shared", locks] for locks in ("one-lock", "each-lock", "each-turn", "each-turn-apart")]
        names += ["one lock", "a lock for each record", "a turn for each record", "turns apart"]
    print(f"{os.cpu_count()} processor cores, {processor() or 'of no known name'}; least of {RUNS} runs of {ROUNDS} rounds.")
    print()
    heads = ["machine", "threads"]
    for name in names:
        heads += [f"{name}: thousand requests a second", "processor, ns a request", "processors busy"]
    heads += ["without end, wall clock against proved"]
    if len(programs) > 2:
        heads += ["wall clock against one lock", "against the better", "processor against one lock", "against the better"]
        heads += ["turns in plain Rust, wall clock against the better", "turns apart"]
    print("| " + " | ".join(heads) + " |")
    print("|---" * len(heads) + "|")
    for machine, threads in itertools.product(MACHINES, THREADS):
        costs = least(programs, machine, threads)
        cells = [machine, threads]
        for wall, took, kept in costs:
            cells += [rate(wall), f"{took:.0f}", f"{kept:.2f}"]
        cells += [f"{costs[1][0] / costs[0][0]:.2f}"]
        if len(costs) > 2:
            own, _, one, each, *turns = costs
            for place in (0, 1):
                cells += [f"{own[place] / one[place]:.2f}", f"{own[place] / min(one[place], each[place]):.2f}"]
            better = min(one[0], each[0])
            cells += [f"{cost[0] / better:.2f}" for cost in turns]
            ratios.add(f"{machine}, {threads} threads, against the better lock", own[0] / better, None)
        print("| " + " | ".join(str(cell) for cell in cells) + " |", flush=True)
    ratios.show()


main()
