"""Finds the processors and the containers of a machine, and evaluates their objects."""

import re
from dataclasses import dataclass, field

from evaluating.asl import asl_of, names_in
from evaluating.parts import Fault, Node, Package, say

OF_PROCESSOR = "_HID _UID _STA _LPI _CST _CSD _PSS _PCT _PPC _PSD _TSS _PTC _TPC _TSD _CPC".split()
OF_CONTAINER = "_HID _UID _STA _LPI".split()
WHAT = {"ACPI0007": "processor", "ACPI0010": "container"}
PREDEFINED = {"_GPE", "_PR_", "_SB_", "_SI_", "_TZ_"}
DATA = {"Integer", "String", "Buffer", "Package"}
METHODS = {"Method", "MethodAlias"}
FIELDS = {"RegionField", "BankField", "IndexField", "BufferField"}
READ = DATA | METHODS | FIELDS | {"Alias"}


@dataclass
class Place:
    """A processor or a container, or what stands between: its node, lines about it, its objects in lines, and what is in it."""

    kind: str = "between"
    node: Node = None
    notes: list = field(default_factory=list)
    objects: list = field(default_factory=list)
    inner: dict = field(default_factory=dict)


@dataclass
class Counts:
    """How many values there are, and how many of them by a method or from a field; why there isn't one; names in values."""

    values: int = 0
    computed: int = 0
    fields: int = 0
    faults: list = field(default_factory=list)
    names: set = field(default_factory=set)


def ids_of(value):
    """The texts of a _HID or a _CID; a number spells an EISA identifier, whose bytes stand in the other order (6.1.5)."""
    if isinstance(value, str) and not isinstance(value, Fault):
        return [value]
    if isinstance(value, int):
        number = int.from_bytes((value & 0xFFFFFFFF).to_bytes(4, "little"), "big")
        return ["".join(chr(0x40 + (number >> shift & 0x1F)) for shift in (26, 21, 16)) + f"{number & 0xFFFF:04X}"]
    if isinstance(value, Package):
        return [text for element in value.elements for text in ids_of(element)]
    return []


def identified(machine, nodes):
    """The texts of the _HID and those of the _CID of each device."""
    devices = [node.path for node in nodes.values() if node.kind == "Device"]
    asked = [f"{path}.{name}" for path in devices for name in ("_HID", "_CID")]
    values = machine.values(path for path in asked if path in nodes and nodes[path].kind in READ)
    for path, value in values.items():
        if isinstance(value, Fault):
            say(f"{path} could not be evaluated, so that it isn't known what this device is: {value}")
    return {path: (ids_of(values.get(f"{path}._HID")), ids_of(values.get(f"{path}._CID"))) for path in devices}


def found_places(machine, nodes):
    """The processors and the containers, in the order of the namespace."""
    ids, places = identified(machine, nodes), []
    for path, node in nodes.items():
        hids, cids = ids.get(path, ([], []))
        known = [text for text in hids + cids if text in WHAT]
        if node.kind == "Processor":
            places.append(Place("processor", node))
        elif known and path[1:] not in PREDEFINED:
            places.append(Place(WHAT[known[0]], node))
            if known[0] not in hids:
                places[-1].notes.append(f"a {WHAT[known[0]]} by its _CID; its _HID is {', '.join(hids) or 'none'}")
                places[-1].objects.append([f'Name (_HID, "{known[0]}")'])
    return places


def fill(machine, nodes, places):
    """Evaluates the objects of each place, puts the lines of each there, and counts."""
    counts, wanted = Counts(), {}
    for place in places:
        for name in OF_PROCESSOR if place.kind == "processor" else OF_CONTAINER:
            node = nodes.get(f"{place.node.path}.{name}")
            if node and node.kind in READ and not (name == "_HID" and place.objects):
                wanted[node.path] = place
    values = machine.values(wanted)
    by_address = {node.address: node for node in nodes.values()}
    for path, place in wanted.items():
        place.objects.append(object_lines(path, comment_of(nodes[path], by_address), values[path], counts))
    return counts


def comment_of(node, by_address):
    """How this object comes to its value, where it isn't by data of its own."""
    by_alias = ""
    while node.kind in ("Alias", "MethodAlias") and (match := re.search(r"\((0x[0-9a-f]+)\)", node.said)):
        if match[1] not in by_address:
            break
        by_alias, node = "by an alias", by_address[match[1]]
    how = "computed by a method" if node.kind in METHODS else "read from a field" if node.kind in FIELDS else ""
    return ", ".join(part for part in (how, by_alias) if part)


def object_lines(path, comment, value, counts):
    """The lines of an object: the comment, and it or why it isn't there."""
    name = path[-4:]
    try:
        if isinstance(value, Fault):
            raise ValueError(value)
        lines = asl_of(value)
    except ValueError as fault:
        counts.faults.append(f"{path}: {fault}")
        return [f"// {name} could not be evaluated: {fault}{f'; it is {comment}' if comment else ''}"]
    counts.values += 1
    counts.computed += comment.startswith("computed")
    counts.fields += comment.startswith("read")
    counts.names.update(names_in(value))
    lines[0] = f"Name ({name}, {lines[0]}"
    lines[-1] += ")"
    return [f"// {comment}", *lines] if comment else lines
