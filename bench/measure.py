"""Measures `show`, `show --json`, `rewrite`, `check` and `lint` of blocks: time, peak memory, bytes read and written, and growth.

Times are the least of several runs, whose output is let go, by the clock and as the program's own processor time; runs of both
programs alternate, and the plain one is to write the same bytes. A second table is of blocks of scopes and devices, with the time of
`iasl -d` beside `show` where iasl is installed; a third is of machines with the tables of processors; a fourth is of `lint` on these,
beside `check`, with which its runs alternate.
"""

import hashlib
import itertools
import os
import shutil
import string
import subprocess
import tempfile
import time
from pathlib import Path

import ratios
from machine import busy

RUNS = 7
FIRST = string.ascii_uppercase + "_"
LATER = string.ascii_uppercase + string.digits + "_"


def block(body):
    """An SSDT of this body, with its length and its checksum."""
    head = b"SSDT" + (36 + len(body)).to_bytes(4, "little") + bytes([2, 0]) + b"POWER POWERTAB"
    head += (1).to_bytes(4, "little") + b"PWR " + (1).to_bytes(4, "little")
    whole = bytearray(head + body)
    whole[9] = -sum(whole) % 256
    return bytes(whole)


def names(size):
    """As many names of double words, each of another path, as fit in a block of this size."""
    count = (size - 36) // 10
    return block(b"".join(b"\x08" + s + b"\x0c" + i.to_bytes(4, "little") for i, s in enumerate(itertools.islice(paths(), count))))


def paths():
    """Segments, each another one."""
    return ("".join(s).encode() for s in itertools.product(FIRST, LATER, LATER, LATER))


def length(content):
    """A PkgLength before so many bytes, in its shortest spelling."""
    if content < 63:
        return bytes([content + 1])
    for more in (1, 2, 3):
        whole = content + more + 1
        if whole < 1 << (4 + 8 * more):
            return bytes([more << 6 | whole & 15]) + (whole >> 4).to_bytes(more, "little")
    raise ValueError(content)


def package(elements, count):
    """A package of these bytes of so many elements."""
    return b"\x12" + length(1 + len(elements)) + bytes([count]) + elements


def each(size, value):
    """As many names of this object, each of another path, as fit in a block of this size."""
    count = (size - 36) // (5 + len(value))
    return block(b"".join(b"\x08" + s + value for s in itertools.islice(paths(), count)))


def tables(size):
    """Names of tables of eight performance states as firmware fills them in: six double words each."""
    numbers = (2400, 15000, 10, 10, 0x1800, 0x1800)
    state = package(b"".join(b"\x0c" + n.to_bytes(4, "little") for n in numbers), 6)
    return each(size, package(8 * state, 8))


def short_tables(size):
    """Names of tables of four performance states in their shortest spelling, 17 bytes each."""
    state = package(b"\x0b\x60\x09\x0b\x98\x3a\x0a\x0a\x0a\x0a\x0a\x10\x0a\x10", 6)
    return each(size, package(4 * state, 4))


def flat(size):
    """One package of as many elements of a byte as fit."""
    count = size - 36 - 16
    elements = b"\x0c" + count.to_bytes(4, "little") + bytes(count)
    return block(b"\x08FLAT\x13" + length(len(elements)) + elements)


def buffer(size):
    """One buffer of as many bytes as fit."""
    count = size - 36 - 16
    content = b"\x0c" + count.to_bytes(4, "little") + bytes(i & 255 for i in range(count))
    return block(b"\x08BUFR\x11" + length(len(content)) + content)


def quotes(size):
    """One package of as many strings as fit, a quote each, which JSON escapes."""
    count = (size - 36 - 16) // 3
    elements = b"\x0c" + count.to_bytes(4, "little") + count * b'\x0d"\x00'
    return block(b"\x08QUOT\x13" + length(len(elements)) + elements)


def nested(size):
    """Names of packages 32 deep."""
    value = package(b"", 0)
    for _ in range(31):
        value = package(value, 1)
    return each(size, value)


def holder(opcode, name, content):
    """A term of this opcode that holds terms: a Scope or a Device."""
    return opcode + length(len(name + content)) + name + content


SCOPE, DEVICE = b"\x10", b"\x5b\x82"


def short_names(count):
    """So many names of 0, each of another path."""
    return b"".join(b"\x08" + s + b"\x00" for s in itertools.islice(paths(), count))


def numbered_names(count):
    """So many names of double words, each of another path."""
    return b"".join(b"\x08" + s + b"\x0c" + i.to_bytes(4, "little") for i, s in enumerate(itertools.islice(paths(), count)))


def devices(count, content):
    """So many devices of this content in the scope of the system bus."""
    return block(holder(SCOPE, b"\\_SB_", b"".join(holder(DEVICE, s, content) for s in itertools.islice(paths(), count))))


def tree(count):
    """So many devices with 64 names each."""
    return devices(count, numbered_names(64))


def one_scope(count):
    """So many names in one scope."""
    return block(holder(SCOPE, b"\\_SB_", numbered_names(count)))


def performance(count):
    """So many devices with a table of 255 performance states each, six double words a state."""
    states = b"".join(
        package(b"".join(b"\x0c" + n.to_bytes(4, "little") for n in (4000 - i, 15000, 10, 10, 0x1800 + i, 0x1800 + i)), 6)
        for i in range(255)
    )
    return devices(count, b"\x08_PSS" + package(states, 255))


def below(content, levels):
    """This content below so many scopes around one another, each named by 255 segments."""
    for i in range(levels):
        content = holder(SCOPE, b"\x2f\xff" + b"".join(itertools.islice(paths(), 1000 * i, 1000 * i + 255)), content)
    return block(content)


def chain(count):
    """So many names below 32 scopes of 255 segments."""
    return below(short_names(count), 32)


def searched(count):
    """So many scopes named by one segment, which stands in the root alone, below 31 scopes of 255 segments."""
    return below(count * holder(SCOPE, b"_SB_", b""), 31)


def numbers(values):
    """A package of double words, as firmware fills them in."""
    return package(b"".join(b"\x0c" + n.to_bytes(4, "little") for n in values), len(values))


def rows(states):
    """A package of these states."""
    return package(b"".join(states), len(states))


def register(space, width, access, address):
    """A buffer that holds the resource template of one register."""
    template = bytes([0x82, 0x0C, 0, space, width, 0, access]) + address.to_bytes(8, "little") + b"\x79\x00"
    return b"\x11" + length(2 + len(template)) + b"\x0a\x11" + template


def low_power(latencies):
    """A `_LPI` of a state for each of these wake latencies, each of which lets its container into all shallower ones."""
    states = b"".join(
        package(
            b"".join(b"\x0c" + n.to_bytes(4, "little") for n in (10 * latency, latency, 1, 0, 0, i))
            + register(0x7F, 32, 3, i + 1) + 2 * register(0, 0, 0, 0) + b"\x0dSTATE\x00",
            10,
        )
        for i, latency in enumerate(latencies)
    )
    return b"\x08_LPI" + package(b"\x00\x00\x0a" + bytes([len(latencies)]) + states, 3 + len(latencies))


def c_states(domain, count):
    """A `_CST` of three states, and a `_CSD` that so many processors share at the second one."""
    states = ((1, 1, 1000), (2, 100, 500), (3, 800, 200))
    listed = b"".join(package(register(1, 8, 1, 0x413 + kind) + b"\x0a" + bytes([kind]) + b"\x0b" + latency.to_bytes(2, "little")
                              + b"\x0b" + power.to_bytes(2, "little"), 4) for kind, latency, power in states)
    return b"\x08_CST" + package(b"\x0a\x03" + listed, 4) + b"\x08_CSD" + rows([numbers((6, 0, domain, 0xFC, count, 1))])


def scales(domain, count, states):
    """Performance and throttling states with their registers and limits, and the domain that so many processors share."""
    perf = rows([numbers((4000 - i, 15000, 10, 10, 0x1800 + i, 0x1800 + i)) for i in range(states)])
    throttle = rows([numbers((100, 1000 - i, 0, i, 0)) for i in range(states)])
    shared = rows([numbers((5, 0, domain, 0xFC, count))])
    control, status = register(1, 8, 1, 0xB2), register(1, 8, 1, 0xB3)
    return b"".join(
        b"\x08" + name + value
        for name, value in (
            (b"_PSS", perf), (b"_PCT", package(control + status, 2)), (b"_PPC", b"\x00"), (b"_PSD", shared),
            (b"_TSS", throttle), (b"_PTC", package(control + status, 2)), (b"_TPC", b"\x00"), (b"_TSD", shared),
        )
    )


def processor(number, states, has_c_states):
    """A processor of a cluster of eight: every second cluster may have C states in place of low power idle states."""
    cluster = number // 8
    idle = c_states(cluster, 8) if has_c_states and cluster % 2 else low_power((10, 50, 200))
    named = b"\x08_HID\x0dACPI0007\x00\x08_UID\x0b" + number.to_bytes(2, "little")
    return holder(DEVICE, b"P%03X" % number, named + idle + scales(cluster, 8, states))


def clusters(count, states, has_c_states=True):
    """So many processors in clusters of eight."""
    for first in range(0, count, 8):
        inside = b"\x08_HID\x0dACPI0010\x00" + low_power((100, 500))
        inside += b"".join(processor(number, states, has_c_states) for number in range(first, first + 8))
        yield holder(DEVICE, b"CL%02X" % (first // 8), inside)


def processors(count):
    """So many processors with tables of 250 performance and as many throttling states."""
    return block(holder(SCOPE, b"\\_SB_", b"".join(clusters(count, 250))))


def machine(count):
    """248 processors with tables of 16 states, and so many other devices with an identifier, resources and settings."""
    resources = register(0, 32, 3, 0xFE0B0000)
    content = b"\x08_HID\x0dPNP0A08\x00\x08_UID\x01\x08_CRS" + resources + b"\x08SETS" + rows([numbers(range(8))] * 4)
    others = b"".join(holder(DEVICE, b"D" + s[1:], content) for s in itertools.islice(paths(), count))
    return block(holder(SCOPE, b"\\_SB_", b"".join(clusters(248, 16)) + others))


def words_of(program, command, path):
    """The words of a run: a command may have a flag behind it."""
    return [program, *command.split(), path]


def run_apart(words):
    """One run whose output is let go: wall seconds, and processor seconds."""
    before = busy()
    start = time.perf_counter()
    subprocess.run(words, stdout=subprocess.DEVNULL, stderr=subprocess.DEVNULL, check=True)
    return time.perf_counter() - start, busy() - before


def least(works, count):
    """Of each of these words the least wall and the least processor milliseconds of so many runs, which alternate."""
    runs = [[run_apart(words) for words in works] for _ in range(count)]
    return [tuple(1e3 * min(of[i] for of in taken) for i in (0, 1)) for taken in zip(*runs)]


def written_by(program, command, path):
    """How many bytes a run writes, and their sum by SHA-256."""
    with subprocess.Popen(words_of(program, command, path), stdout=subprocess.PIPE) as running:
        size, digest = 0, hashlib.sha256()
        for piece in iter(lambda: running.stdout.read(1 << 20), b""):
            size += len(piece)
            digest.update(piece)
    return size, digest.digest()


def disassembly(folder, path):
    """Milliseconds that one run of `iasl -d` on the block takes; none where iasl isn't installed."""
    if not shutil.which("iasl"):
        return None
    return run_apart(["iasl", "-p", str(folder / "out"), "-d", str(path)])[0] * 1e3


def peak_memory(program, command, path):
    """Peak resident KiB of one run, as GNU time says it; none where it isn't installed."""
    if not os.access("/usr/bin/time", os.X_OK):
        return None
    done = subprocess.run(
        ["/usr/bin/time", "-f", "%M", *words_of(program, command, path)], stdout=subprocess.DEVNULL, stderr=subprocess.PIPE, check=True
    )
    return int(done.stderr)


def measured(programs, work, command, path, count):
    """What a run writes, what each program takes for it, and the cells on the plain one: its milliseconds, how often they and its memory
    go into ours. Stops where it writes other bytes."""
    written = [written_by(program, command, path) for program in programs]
    if any(other != written[0] for other in written):
        raise SystemExit(f"{programs[1]} writes other bytes at {work}")
    took = least([words_of(program, command, path) for program in programs], count)
    peaks = [peak_memory(program, command, path) for program in programs]
    if len(programs) == 1:
        return written[0][0], took[0], peaks[0], ["", "", ""]
    time, space = took[0][1] / took[1][1], peaks[0] / peaks[1] if peaks[0] else None
    ratios.add(work, time, space)
    return written[0][0], took[0], peaks[0], [f"{took[1][1]:.1f}", f"{time:.2f}", f"{space:.2f}" if space else ""]


def row_of(cells):
    return "| " + " | ".join(str(cell) for cell in cells) + " |"


def objects(programs):
    """The table of blocks of names of data objects."""
    cases = [("show", "42 bytes", block(b"\x08_PPC\x00"))]
    kinds = [
        ("names", names),
        ("tables", tables),
        ("short tables", short_tables),
        ("one flat package", flat),
        ("one buffer", buffer),
        ("strings of one quote", quotes),
        ("nested packages", nested),
    ]
    for what, made in kinds:
        for command in ("show", "show --json", "rewrite"):
            cases += [(command, f"{n} MiB of {what}", made(n << 20)) for n in (1, 2, 4)]
    heads = ["work", "block, bytes", "output, bytes", "time, ms", "processor, ms", "ns a byte", "peak memory, KiB", "memory a byte"]
    heads += ["time against half", "plain Rust, ms", "against plain Rust", "memory against plain Rust"]
    print(row_of(heads))
    print("|---" * len(heads) + "|")
    before = None
    with tempfile.TemporaryDirectory() as folder:
        path = Path(folder) / "block.aml"
        for command, name, content in cases:
            path.write_bytes(content)
            work, size = f"{command}, {name}", len(content)
            written, (wall, used), peak, beside = measured(programs, work, command, str(path), RUNS)
            growth = f"{used / before:.2f}" if before and "MiB" in name and not name.startswith("1 ") else ""
            large = size > 1 << 16
            a_byte = f"{used * 1e6 / size:.0f}" if large else ""
            memory = f"{peak * 1024 / size:.1f}" if large and peak else ""
            row = [work, size, written, f"{wall:.1f}", f"{used:.1f}", a_byte, peak or "no GNU time", memory, growth]
            print(row_of(row + beside), flush=True)
            before = used


def scopes(programs):
    """The table of blocks of scopes and devices."""
    kinds = [
        ("devices of 64 names", tree, (1600, 3200, 6400)),
        ("names in one scope", one_scope, (62500, 125000, 250000)),
        ("devices of 255 states", performance, (64, 128, 256)),
        ("names below 32 scopes of 255 segments", chain, (25000, 50000, 100000)),
        ("scopes searched for below 31 of 255 segments", searched, (20000,)),
        ("scopes searched for below 31 of 255 segments", searched, (340000, 680000)),
    ]
    grown(programs, kinds, ("show", "rewrite"))


MACHINES = [
    ("processors of 500 states", processors, (64, 128, 248)),
    ("devices beside 248 processors", machine, (4000, 8000, 16000)),
]


def machines(programs):
    """The table of machines with the tables of processors."""
    grown(programs, MACHINES, ("check", "show --json"))


def findings(program):
    """The table of `lint` on these machines, beside `check`."""
    heads = ["work", "block, bytes", "output, bytes", "processor, ms", "check, ms", "against check", "peak memory, KiB", "memory against check"]
    print(row_of(heads))
    print("|---" * len(heads) + "|")
    with tempfile.TemporaryDirectory() as folder:
        path = Path(folder) / "block.aml"
        for what, made, counts in MACHINES:
            for count in counts:
                path.write_bytes(made(count))
                works = [words_of(program, command, str(path)) for command in ("lint", "check")]
                written = written_by(program, "lint", str(path))[0]
                (_, lint), (_, check) = least(works, RUNS)
                peaks = [peak_memory(program, command, str(path)) for command in ("lint", "check")]
                row = [f"lint, {count} {what}", path.stat().st_size, written, f"{lint:.1f}", f"{check:.1f}", f"{lint / check:.2f}"]
                row += [peaks[0], f"{peaks[0] / peaks[1]:.2f}"] if peaks[0] else ["no GNU time", ""]
                print(row_of(row), flush=True)


def grown(programs, kinds, commands):
    """A table of blocks that grow. Where a run writes gigabytes it is measured alone, and twice."""
    heads = ["work", "block, bytes", "output, bytes", "time, ms", "processor, ms", "ns a byte in and out"]
    heads += ["peak memory, KiB", "memory a byte", "time against half", "iasl -d, ms"]
    heads += ["plain Rust, ms", "against plain Rust", "memory against plain Rust"]
    print(row_of(heads))
    print("|---" * len(heads) + "|")
    with tempfile.TemporaryDirectory() as folder:
        path = Path(folder) / "block.aml"
        for what, made, counts in kinds:
            for command in commands:
                before = None
                for count in counts:
                    path.write_bytes(made(count))
                    work, size = f"{command}, {count} {what}", path.stat().st_size
                    alone = command == "show" and made is chain
                    written, (wall, used), peak, beside = measured(programs[:1] if alone else programs, work, command, str(path), 2 if alone else RUNS)
                    row = [work, size, written, f"{wall:.1f}", f"{used:.1f}", f"{used * 1e6 / (size + written):.1f}"]
                    row += [peak or "no GNU time", f"{peak * 1024 / size:.1f}" if peak else "", f"{used / before:.2f}" if before else ""]
                    told = disassembly(Path(folder), path) if command == "show" and made in (tree, performance) else None
                    print(row_of(row + [f"{told:.0f}" if told else ""] + beside), flush=True)
                    before = used


def main(programs):
    objects(programs)
    print()
    scopes(programs)
    print()
    machines(programs)
    print()
    findings(programs[0])
