"""Runs acpiexec on tables, and reads what it prints of its namespace and of values."""

import io
import os
import re
import select
import signal
import subprocess
import time

from evaluating.parts import Fault, Name, Node, Package, Stop, say, tool

MOST_PRINTED = 1 << 24
NODE = re.compile(r"^ *(\d+) +(\S{4}) (\w+) +(0x[0-9a-f]+) +\w+ ?(.*)$")
COMPLAINT = re.compile(r"(ACPI|Firmware)( BIOS)? (Error|Warning).*")
# The lines that say something here: nodes, tables that were loaded, evaluations, values with the bytes of their buffers.
TELLING = re.compile(r" *\d+ +\S{4} \w+ +0x|Table \[|Evaluati(ng|on of) |No object was |\s+(\[|[0-9A-F]{4,}: )|.*(Error|Warning)")
ESCAPES = {"a": "\a", "b": "\b", "f": "\f", "n": "\n", "r": "\r", "t": "\t", "v": "\v"}


class Machine:
    """The tables in files of a folder. An evaluation may take so many seconds, and all of them together twenty times as many."""

    def __init__(self, tables, folder, seconds):
        # By lines, so that it is known of what acpiexec died.
        self.program = [tool("stdbuf", "coreutils"), "-oL", tool("acpiexec")]
        self.folder, self.seconds = folder, seconds
        self.ends = time.monotonic() + 20 * seconds
        self.files = [f"{number}.aml" for number in range(len(tables))]
        for name, data in zip(self.files, tables):
            with open(os.path.join(folder, name), "wb") as file:
                file.write(data)

    def converse(self, commands):
        """What acpiexec prints for these commands, by telling lines, and how it ended."""
        # -dr: values come as they are, without ACPICA's repairs. -dt: quicker. -to: a loop of AML ends after a quarter of the time.
        words = [*self.program, "-dr", "-dt", "-to", str(max(1, self.seconds // 4)), *self.files]
        with open(os.path.join(self.folder, "commands"), "w+") as file:
            file.writelines(f"{command}\n" for command in [*commands, "quit"])
            file.seek(0)
            run = subprocess.Popen(
                words, cwd=self.folder, stdin=file, stdout=subprocess.PIPE, stderr=subprocess.STDOUT, start_new_session=True
            )
        try:
            printed, ended = self.listen(run)
        finally:
            try:
                os.killpg(run.pid, signal.SIGKILL)
            except ProcessLookupError:
                pass
            run.stdout.close()
            run.wait()
        return [line.rstrip() for line in io.StringIO(printed.decode("latin-1")) if TELLING.match(line)], ended

    def listen(self, run):
        printed = bytearray()
        while True:
            rest = self.ends - time.monotonic()
            if rest <= 0:
                return printed, f"the {20 * self.seconds} seconds for all objects were over"
            if not select.select([run.stdout], [], [], min(self.seconds, rest))[0]:
                return printed, f"acpiexec gave no answer in {self.seconds} seconds"
            piece = os.read(run.stdout.fileno(), 1 << 16)
            printed += piece
            if not piece:
                status = run.wait()
                return printed, f"acpiexec ended by {signal.Signals(-status).name if status < 0 else f'status {status}'}"
            if len(printed) > MOST_PRINTED:
                return printed, "acpiexec printed without end"

    def namespace(self):
        """The nodes by their paths, in order, and what acpiexec complained of while it loaded the tables."""
        lines, ended = self.converse(["namespace"])
        nodes = nodes_in(lines)
        if not nodes:
            raise Stop(6, f"{ended}, before it listed what the tables declare")
        loaded = sum(line.startswith(("Table [DSDT", "Table [SSDT")) for line in lines)
        if loaded < len(self.files):
            say(f"acpiexec took {loaded} of {len(self.files)} tables")
        listed = next(at for at, line in enumerate(lines) if NODE.match(line))
        return nodes, [match[0] for match in map(COMPLAINT.search, lines[:listed]) if match]

    def values(self, paths):
        """The value or the Fault of what stands at each path. Where acpiexec dies of one, a new run takes those that are left."""
        left, found = list(paths), {}
        while left:
            lines, ended = self.converse(["namespace", *(f"evaluate {path}" for path in left)])
            answers, begun = answers_in(lines)
            found.update(answers)
            left = [path for path in left if path not in found]
            if time.monotonic() >= self.ends:
                return {**dict.fromkeys(left, Fault(ended)), **found}
            if left and begun not in left:
                raise Stop(6, f"{ended}, and left objects without an answer")
            if left:
                found[begun] = Fault(ended)
                left.remove(begun)
        return found


def nodes_in(lines):
    """The nodes of a listing of the namespace, by path."""
    nodes, around = {}, []
    for match in filter(None, map(NODE.match, lines)):
        depth, name, kind, address, said = match.groups()
        around[int(depth) :] = [name]
        path = "\\" + ".".join(around)
        nodes[path] = Node(path, kind, address, said)
    return nodes


def answers_in(lines):
    """What was answered for each path, and the path of an evaluation that was begun and isn't answered."""
    at, answers, begun = 0, {}, None
    paths = {node.address: node.path for node in nodes_in(lines).values()}
    while at < len(lines):
        line, at = lines[at], at + 1
        if line.startswith("Evaluating "):
            begun = line.split()[1]
        elif begun and line.startswith(f"Evaluation of {begun} returned object"):
            try:
                answers[begun], at = value_at(lines, at, paths)
            except IndexError:
                break
            except ValueError as fault:
                answers[begun] = Fault(fault)
        elif begun and line.startswith(f"Evaluation of {begun} failed with status "):
            answers[begun] = Fault(line.split()[-1])
        elif begun and line.startswith(f"No object was returned from evaluation of {begun}"):
            answers[begun] = Fault("nothing is returned")
        if begun in answers:
            begun = None
    return answers, begun


def value_at(lines, at, paths):
    """The value that is printed from this line on, and the line behind it."""
    line, at = lines[at].strip(), at + 1
    if match := re.match(r"\[Integer\] = ([0-9A-F]+)$", line):
        return int(match[1], 16), at
    if match := re.match(r"\[String\] Length ([0-9A-F]+) = \"(.*)\"(\.\.\.)?$", line):
        return text_of(match[2], int(match[1], 16)), at
    if match := re.match(r"\[Buffer\] Length ([0-9A-F]+) =(.*)$", line):
        if ":" in match[2]:
            return row_of(match[2]), at
        rows = (int(match[1], 16) + 15) // 16
        return b"".join(row_of(lines[at + row]) for row in range(rows)), at + rows
    if match := re.match(r"\[Package\] Contains (\d+) Elements:$", line):
        package = Package(int(match[1]), [])
        for _ in range(package.count):
            element, at = value_at(lines, at, paths)
            package.elements.append(element)
        return package, at
    if line.startswith("[Null Object]"):
        return None, at
    if (match := re.match(r"\[Object Reference\] = (0x[0-9a-f]+) <Node>", line)) and match[1] in paths:
        return Name(paths[match[1]]), at
    raise ValueError(f"a value that isn't data: {line[:60]}")


def text_of(escaped, length):
    def plain(match):
        what = match[1]
        return chr(int(what[-2:], 16)) if len(what) > 1 else ESCAPES.get(what, what)

    text = re.sub(r"\\(x(?:FFFFFF)?[0-9A-F]{2}|.)", plain, escaped)
    if len(text) != length:
        raise ValueError("a string that is longer than acpiexec prints")
    return text


def row_of(line):
    return bytes.fromhex(line.split(":", 1)[1].split("//")[0])
