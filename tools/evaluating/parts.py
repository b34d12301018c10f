"""What the parts of tools/evaluate share: how a run ends early, tools, values and nodes."""

import shutil
import sys
from dataclasses import dataclass


class Stop(Exception):
    """Ends the run with this status and this line."""

    def __init__(self, status, line):
        super().__init__(line)
        self.status, self.line = status, line


class Fault(str):
    """Why an object has no value."""


@dataclass
class Name:
    """A reference to what stands at a path. Other values are of int, str, bytes and Package; an element without one is None."""

    path: str


@dataclass
class Package:
    count: int
    elements: list


@dataclass
class Node:
    """What stands in acpiexec's namespace: its path, kind and address, and what else is said of it."""

    path: str
    kind: str
    address: str
    said: str


def say(line):
    print(f"evaluate: {line}", file=sys.stderr)


def tool(name, package="acpica-tools"):
    found = shutil.which(name)
    if not found:
        raise Stop(5, f"there is no {name} on the PATH; on Debian: apt-get install {package}")
    return found
