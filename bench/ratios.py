"""What each work takes beside plain Rust, as the measuring scripts gather it, and the table that they end with."""

from statistics import median

FOUND = {}


def add(work, time, memory):
    """Takes in how often the time and the memory of plain Rust go into ours; no memory where it wasn't measured."""
    FOUND.setdefault(work, []).append((time, memory))


def middle(ratios):
    """The median of those that were measured, if any was."""
    known = [ratio for ratio in ratios if ratio]
    return median(known) if known else None


def show():
    """Prints a row for each work, the slowest beside plain Rust first, and the median of each that was measured more than once; nothing
    where no plain Rust was measured."""
    if not FOUND:
        return
    print()
    print("| work | time against plain Rust | memory against plain Rust |")
    print("|---|---|---|")
    rows = [(middle(time for time, _ in found), work, middle(memory for _, memory in found)) for work, found in FOUND.items()]
    for time, work, memory in sorted(rows, key=lambda row: (-row[0], row[1])):
        print(f"| {work} | {time:.2f} | {f'{memory:.2f}' if memory else ''} |")
