"""Draws what `check`, `drive` or `cppc` prints, or a history that was audited, as one SVG: from the standard input to the output.

Of a plan it draws the containers and processors in one another, and around the members of each domain and of each group an
outline. `check` doesn't print who the members are, but `show` prints what says so: where both are in the input, in any order,
all have outlines. Of a history it draws a row for each processor along the entries. docs/DRAWING.md says more.
"""

import argparse
import os
import sys

sys.dont_write_bytecode = True
sys.path[0] = os.path.dirname(sys.path[0])

from drawing import history, plan  # noqa: E402
from drawing.parts import Stop, strange  # noqa: E402

STATUSES = """statuses:
  0  the picture is written
  1  the input is none of a plan, of shown objects or of a history, or has too many entries for one picture
  2  the words are wrong
  3  the input can't be read
  4  the output can't be written"""

LARGEST = 1 << 26


def lines_in():
    try:
        data = b""
        while len(data) <= LARGEST and (piece := os.read(0, 1 << 20)):
            data += piece
    except OSError as fault:
        raise Stop(3, f"the input can't be read: {fault.strerror}") from None
    if len(data) > LARGEST:
        raise Stop(1, f"the input has more than {LARGEST} bytes")
    if not data:
        raise Stop(1, "there is no input: the command before the pipe may have failed")
    try:
        return data.decode("ascii").splitlines()
    except UnicodeDecodeError as fault:
        raise strange(data[: fault.start].count(b"\n") + 1) from None


def picture_of(lines, words):
    if history.is_line(lines[0]):
        return history.draw(history.read(lines), words.title, words.first, words.end)
    if plan.is_line(lines[0]):
        if words.first > 0 or words.end < sys.maxsize:
            raise Stop(2, "--from and --to are for a history")
        return plan.draw(plan.read(lines), words.title)
    raise strange(1)


def put(data):
    try:
        while data:
            data = data[os.write(1, data) :]
    except OSError as fault:
        raise Stop(4, f"the output can't be written: {fault.strerror}") from None


def main():
    parser = argparse.ArgumentParser(
        prog="draw", description=__doc__, epilog=STATUSES, formatter_class=argparse.RawDescriptionHelpFormatter, allow_abbrev=False
    )
    parser.add_argument("--title", help="what stands at the head, before the counts")
    parser.add_argument("--from", dest="first", metavar="N", type=int, default=0, help="draw a history from entry N on")
    parser.add_argument("--to", dest="end", metavar="N", type=int, default=sys.maxsize, help="draw a history up to entry N")
    words = parser.parse_args()
    try:
        put(picture_of(lines_in(), words).encode())
    except Stop as stop:
        print(f"draw: {stop.line}", file=sys.stderr)
        sys.exit(stop.status)


main()
