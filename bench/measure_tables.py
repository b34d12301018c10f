"""Measures reading and writing tables of processor power: microseconds a table, at two sizes.

usage: measure_tables.py PROGRAM
Times are the least of several runs, as the program's own processor time. What a run of no rounds takes, which makes
the table and its object, is taken off.
"""

import os
import subprocess
import sys

from machine import busy, processor

RUNS = 5
ROUNDS = 20_000
# A table of _CPC has always as many elements, and is short.
MANY_ROUNDS = 100_000
# The table, the work and the number of states. A package has at most 255 elements; 250 states are the most that are written.
WORKS = (
    ("pss", "read", 255),
    ("pss", "write", 250),
    ("cst", "read", 250),
    ("cst", "write", 250),
    ("lpi", "read", 250),
    ("lpi", "write", 250),
    ("cpc", "read", 0),
    ("cpc", "write", 0),
)


def run(program, table, states, work, rounds):
    """Processor seconds of one run."""
    before = busy()
    subprocess.run([program, table, str(states), work, str(rounds)], stdout=subprocess.DEVNULL, check=True)
    return busy() - before


def microseconds(program, table, states, work, rounds):
    """Microseconds a round, of the fastest of several runs."""
    whole = min(run(program, table, states, work, rounds) for _ in range(RUNS))
    empty = min(run(program, table, states, work, 0) for _ in range(RUNS))
    return (whole - empty) * 1e6 / rounds


def main():
    program = sys.argv[1]
    print(f"{os.cpu_count()} processor cores, {processor() or 'of no known name'}; microseconds a table, least of {RUNS} runs.")
    print()
    print("| table | work | states | microseconds | half the states | time against half |")
    print("|---|---|---|---|---|---|")
    for table, work, states in WORKS:
        rounds = ROUNDS if states else MANY_ROUNDS
        whole = microseconds(program, table, states, work, rounds)
        line = f"| `_{table.upper()}` | {work} | {states or ''} | {whole:.1f} |"
        if states:
            half = microseconds(program, table, states // 2, work, rounds)
            print(f"{line} {half:.1f} | {whole / half:.2f} |", flush=True)
        else:
            print(f"{line}  |  |", flush=True)


main()
