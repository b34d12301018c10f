"""Measures the program, and ends with a table of what each work takes beside plain Rust.

usage: measure_run.py PROGRAM PLAIN|- [--runs N] [PART..]
The parts are `blocks`, `drive`, `cppc`, `audit`, `generate` and `workers`; all of them where none is named. PLAIN is a program that does
the same in plain Rust: it is measured beside each, and is to write the same bytes. With --runs all is measured N times, and the table at
the end has the medians.
"""

import sys

import measure
import measure_audit
import measure_cppc
import measure_drive
import measure_generate
import measure_workers
import ratios

PARTS = {
    "blocks": measure.main,
    "drive": measure_drive.main,
    "cppc": measure_cppc.main,
    "audit": measure_audit.main,
    "generate": measure_generate.main,
    "workers": measure_workers.main,
}


def main():
    programs = [program for program in sys.argv[1:3] if program != "-"]
    named, runs = sys.argv[3:], 1
    if named[:1] == ["--runs"]:
        runs, named = int(named[1]), named[2:]
    named = named or list(PARTS)
    if unknown := [part for part in named if part not in PARTS]:
        raise SystemExit(f"bench/run: no part {unknown[0]}; there are {', '.join(PARTS)}")
    for place, part in enumerate(named * runs):
        if place:
            print()
        PARTS[part](programs)
    ratios.show()


main()
