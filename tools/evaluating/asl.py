"""Writes values and places as ASL."""

import re

from evaluating.parts import Name, Package

SPACES = {0x00: "SystemMemory", 0x01: "SystemIO", 0x02: "PCI_Config", 0x0A: "PCC", 0x7F: "FFixedHW"}


def short(path):
    """A path, or a segment, without the `_` that fill segments."""
    return re.sub(r"(?<=[^.\\])_+(?=\.|$)", "", path)


def asl_of(value):
    """A value in lines of ASL; ValueError, with why, where ASL can't spell it."""
    if isinstance(value, int):
        return [f"0x{value:X}"]
    if isinstance(value, str):
        return [f'"{"".join(map(spelled, value))}"']
    if isinstance(value, bytes):
        return buffer_lines(value)
    if isinstance(value, Name):
        return [short(value.path)]
    if isinstance(value, Package):
        return package_lines(value)
    raise ValueError("an element without a value stands before one that has one")


def spelled(character):
    if not 0 < ord(character) < 0x80:
        raise ValueError("a string with a byte that isn't ASCII")
    if character in '"\\':
        return f"\\{character}"
    return character if character.isprintable() else f"\\x{ord(character):02X}"


def buffer_lines(data):
    """A buffer, as the register that it holds where Register says exactly these bytes (6.4.3.7)."""
    if len(data) == 17 and data[:3] == b"\x82\x0c\x00" and data[15:] == b"\x79\x00" and data[3] in SPACES and data[6] <= 4:
        fields = [data[4], data[5], int.from_bytes(data[7:15], "little"), data[6]]
        return [f"ResourceTemplate () {{ Register ({SPACES[data[3]]}, {', '.join(f'0x{number:X}' for number in fields)}) }}"]
    rows = [", ".join(f"0x{byte:02X}" for byte in data[at : at + 17]) for at in range(0, len(data), 17)]
    return braced(f"Buffer (0x{len(data):X})", [[row] for row in rows])


def braced(head, elements):
    """A head and its elements, each in lines, with commas between; one element of a line stays on the line of the head."""
    if len(elements) < 2 and all(len(lines) == 1 for lines in elements):
        return [f"{head} {{ {elements[0][0]} }}" if elements else f"{head} {{}}"]
    for lines in elements[:-1]:
        lines[-1] += ","
    return [head, "{", *(f"    {line}" for lines in elements for line in lines), "}"]


def package_lines(package):
    """A package. Elements without a value at its end aren't given, as in AML; the count says that they are there."""
    given = list(package.elements)
    while given and given[-1] is None:
        given.pop()
    return braced(f"Package (0x{package.count:X})", filled([asl_of(element) for element in given]))


def filled(elements):
    """Elements of a line, but for packages, joined in lines of up to 90 columns."""
    rows, is_open = [], False
    for lines in elements:
        joins = len(lines) == 1 and not lines[0].startswith("Package")
        if joins and is_open and len(rows[-1][0]) + len(lines[0]) <= 88:
            rows[-1] = [f"{rows[-1][0]}, {lines[0]}"]
        else:
            rows.append(lines)
        is_open = joins
    return rows


def names_in(value):
    """The paths that a value refers to."""
    if isinstance(value, Name):
        yield value.path
    if isinstance(value, Package):
        for element in value.elements:
            yield from names_in(element)


def place_lines(segment, place, head=None):
    """A place and all that is in it; the head is that of a Scope, or the one that declares the place."""
    notes = place.notes
    if not head and place.node and place.node.kind == "Processor":
        number, length, address = re.search(r"ID (\w+) Len (\w+) Addr (\w+)", place.node.said).groups()
        head = f"Processor ({short(segment)}, 0x{number}, 0x{int(address, 16) & 0xFFFFFFFF:08X}, 0x{length})"
    elif not head:
        head = f"Device ({short(segment)})"
        notes = notes if place.node else ["neither a processor nor a container"]
    inner = [line for lines in place.objects for line in lines]
    for name, one in place.inner.items():
        inner += place_lines(name, one)
    return [*(f"// {note}" for note in notes), head, "{", *(f"    {line}" for line in inner), "}"]


def block_lines(revision, comment, names, inner):
    """The block: lines of comment, the names that its values refer to and it doesn't declare, and by segments what is in it."""
    lines = [f"// {line}" for line in comment]
    lines += [f'DefinitionBlock ("", "SSDT", {revision}, "POWER ", "MACHINE ", 0x00000001)', "{"]
    lines += [f"    External ({short(name)}, UnknownObj)" for name in names]
    for segment, place, is_scope in inner:
        lines += [f"    {line}" for line in place_lines(segment, place, f"Scope (\\{short(segment)})" if is_scope else None)]
    return [*lines, "}"]
