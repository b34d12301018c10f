"""Measures `cppc --serial` by scripts of growing length on machines of growing size, beside plain Rust.

Of each size there is a machine whose clusters of eight software coordinates, and one where hardware does.

It measures as measure_drive.py does.
"""

import itertools
import random
import tempfile
from pathlib import Path

from measure import DEVICE, SCOPE, block, holder, numbers, package, register, rows
from measure_drive import SIZES, begin, put_row

NULL = register(0, 0, 0, 0)
WORDS = ("desired",) * 8 + ("minimum", "maximum")


def performance(number):
    """A `_CPC` of revision 3, from performance 50 to 255, with the registers of one processor."""
    registers = b"".join(register(10, 32, 3, 64 * number + 4 * i) for i in range(11))
    whole = b"".join(b"\x0a" + bytes([n]) for n in (23, 3, 255, 200, 100, 50)) + NULL + registers + 2 * NULL + b"\x0a\xc8\x0b\xf4\x01\x0b\xd0\x07"
    return b"\x08_CPC" + package(whole, 23)


def cpu(number, kind):
    """A processor of a cluster of eight, which this kind coordinates."""
    named = b"\x08_HID\x0dACPI0007\x00\x08_UID\x0b" + number.to_bytes(2, "little")
    shared = b"\x08_PSD" + rows([numbers((5, 0, number // 8, kind, 8))])
    return holder(DEVICE, b"P%03X" % number, named + performance(number) + shared)


def machine(count, kind):
    """So many processors in clusters of eight."""
    return block(holder(SCOPE, b"\\_SB_", b"".join(cpu(number, kind) for number in range(count))))


def script(processors, count):
    """The same lines at each call, so many of them: each verb on any processor, and now and then a performance that isn't on its scale."""
    draw = random.Random(1)
    lines = (f"\\_SB.P{draw.randrange(processors):03X} {draw.choice(WORDS)} {draw.randint(40, 260)}\n" for _ in range(count))
    return "".join(lines)


def main(programs):
    begin("coordinated by")
    with tempfile.TemporaryDirectory() as folder:
        text, table = Path(folder) / "script", Path(folder) / "block"
        words = ["cppc", "--serial", str(text), str(table)]
        for (by, kind), (processors, count) in itertools.product((("software", 0xFC), ("hardware", 0xFE)), SIZES):
            table.write_bytes(machine(processors, kind))
            text.write_text(script(processors, count), encoding="ascii")
            put_row(programs, words, by, processors, count, text.stat().st_size)
