"""Reads what `check` prints, with what `show` prints behind or before it where it is there, and draws the plan."""

import re
from dataclasses import dataclass, field

from drawing.parts import UNFIT, several, strange
from drawing.svg import INK, PALE, RED, Picture, cut, width_of

CONTAINER = re.compile(r"container (\\\S*) parent (none|\\\S*) lpi (\d+)$")
PROCESSOR = re.compile(r"processor (\\\S*) parent (none|\\\S*) idle (lpi|cst|none) (\d+) perf (\d+) throttle (\d+) cpc (\d+)$")
DOMAIN = re.compile(r"domain (\d+) (perf|throttle|idle) (own|\d+|\d+\.\d+) (SW_ALL|SW_ANY|HW_ALL) members (\d+) (?:fit|unfit ([1-5]))$")
GROUP = re.compile(r"group (\d+) members (\d+)$")
NOTE = re.compile(r"note (\\\S*) (by method|by alias|empty|ignored|no such state|unfit domain \d+)$")
SHOWN = re.compile(r"\\\S* (= |device$|processor$|method$|alias )")
DEPENDS = re.compile(r"(\\\S*)\.(_PSD|_TSD|_CSD) = (.*)$")
ENTRY = re.compile(r"Package\(\d+\) \{[56], 0, (\d+), \d+, \d+(?:, (\d+))?\}")

ABSENT = {
    "by method": "is a method and counts as absent",
    "by alias": "is an alias and counts as absent",
    "empty": "is a list of no states and counts as absent",
    "ignored": "is a _CST beside an _LPI and counts as absent",
    "no such state": "has an entry about a C state that isn't there",
}
WIDE, HIGH, GAP, TRACK, PAD, ACROSS = 108, 44, 8, 20, 12, 8
DASHES = {"perf": "", "throttle": "7 3", "idle": "2 2", "group": ""}
NAMED = 16


@dataclass
class Container:
    path: str
    parent: str
    states: int
    inner: list = field(default_factory=list)
    marks: list = field(default_factory=list)


@dataclass
class Processor:
    path: str
    parent: str
    idle: tuple
    perf: int
    throttle: int
    cpc: int
    depends: dict = field(default_factory=dict)
    marks: list = field(default_factory=list)


@dataclass
class Bar:
    """A domain or a group: its members by their places among the processors, or None where the text doesn't tell them."""

    kind: str
    label: str
    told: str
    count: int
    members: list
    is_unfit: bool = False


@dataclass
class Plan:
    containers: list = field(default_factory=list)
    processors: list = field(default_factory=list)
    domains: list = field(default_factory=list)
    groups: list = field(default_factory=list)
    notes: list = field(default_factory=list)
    is_shown: bool = False


def is_line(line):
    return any(one.match(line) for one in (CONTAINER, PROCESSOR, DOMAIN, GROUP, NOTE, SHOWN)) or re.match(r"notes \d+$", line)


def read(lines):
    """The plan that the lines tell of."""
    plan, depends = Plan(), {}
    for number, line in enumerate(lines, 1):
        if match := CONTAINER.match(line):
            plan.containers.append(Container(match[1], match[2], int(match[3])))
        elif match := PROCESSOR.match(line):
            plan.processors.append(Processor(match[1], match[2], (match[3], int(match[4])), *map(int, match.groups()[4:])))
        elif match := DOMAIN.match(line):
            plan.domains.append(match.groups())
        elif match := GROUP.match(line):
            plan.groups.append(int(match[2]))
        elif match := NOTE.match(line):
            plan.notes.append(match.groups())
        elif match := DEPENDS.match(line):
            # What isn't understood isn't what check takes either, or names a domain in a way of its own, which no number fits.
            depends[match[1], match[2]] = ENTRY.findall(match[3]) or [("", "")]
            plan.is_shown = True
        elif SHOWN.match(line):
            plan.is_shown = True
        elif not re.match(r"notes \d+$", line):
            raise strange(number)
    for processor in plan.processors:
        processor.depends = {name: depends.get((processor.path, name), []) for name in ("_PSD", "_TSD", "_CSD")}
    return plan


def declares(processor, kind, number):
    """Whether it is in the domain of this kind and number, by what it declares; a number `own` is of one that declares none."""
    if kind == "idle":
        name, entry, has = "_CSD", tuple(number.split(".")), processor.idle[0] == "cst"
    else:
        name, entry, has = ("_PSD", (number, ""), processor.perf) if kind == "perf" else ("_TSD", (number, ""), processor.throttle)
    entries = processor.depends[name]
    return bool(has) and (not entries if number == "own" else entry in entries)


def members_of(plan, kind, number, count, nth):
    """The members of a domain, where what is shown, or their number, tells them; the nth of the domains `own` of its kind."""
    everyone = range(len(plan.processors))
    if plan.is_shown:
        found = [place for place in everyone if declares(plan.processors[place], kind, number)]
        found = found[nth : nth + 1] if number == "own" else found
    elif kind == "idle":
        return None
    else:
        found = [place for place in everyone if getattr(plan.processors[place], kind)]
    return found if len(found) == count else None


def bars_of(plan):
    """The domains and the groups."""
    bars, own, links = [], {"perf": 0, "throttle": 0}, []
    for place, kind, number, coord, count, unfit in plan.domains:
        members = members_of(plan, kind, number, int(count), own.get(kind, 0))
        own[kind] = own.get(kind, 0) + (number == "own")
        fit = f"unfit: {UNFIT[int(unfit)]}" if unfit else "fit"
        told = f"domain {place}: {kind} {number}, {coord}, {several(int(count), 'member')}, {fit}"
        bars.append(Bar(kind, f"{'! ' if unfit else ''}{kind} {number} {coord}", told, int(count), members, bool(unfit)))
        if kind == "idle" and coord != "HW_ALL":
            links.append(members)
    joined = [] if None in links else chained(links)
    for place, count in enumerate(plan.groups):
        members = joined[place] if place < len(joined) and len(joined[place]) == count else None
        told = f"group {place}: {several(count, 'member')} enter C states together"
        bars.append(Bar("group", f"group {place}", told, count, members))
    return bars


def chained(links):
    """Processors joined by chains of links, in the order of the first of each."""
    found = []
    for link in map(set, links):
        touching = [one for one in found if one & link]
        found = [one for one in found if not one & link] + [link.union(*touching)]
    return sorted(map(sorted, found))


# What is told below the picture


def mark(plan, bars):
    """Lines in red, one for what is noted of several in one way; and their numbers at whom they are about."""
    lines, by_path = [], {one.path: one for one in plan.processors + plan.containers}
    groups = {}
    for path, text in plan.notes:
        owner = path if path in by_path else path[: path.rfind(".")]
        if not text.startswith("unfit"):
            groups.setdefault((path[path.rfind(".") + 1 :], text), []).append(owner)
    for (name, text), owners in groups.items():
        lines.append(f"{name} of {listed(owners)} {ABSENT[text]}")
        for owner in owners:
            if owner in by_path:
                by_path[owner].marks.append(len(lines))
    leaders = {text.split()[-1]: path for path, text in plan.notes if text.startswith("unfit")}
    for (place, *_), bar in zip(plan.domains, bars):
        if bar.is_unfit:
            leader = leaders.get(place)
            lines.append(bar.told + (f"; {leader} leads it" if leader else ""))
            for processor in [by_path[leader]] if leader in by_path else []:
                processor.marks.append(len(lines))
            bar.label = f"!{len(lines)} {bar.label[2:]}"
    return lines


def listed(names):
    more = f" and {len(names) - NAMED} more" if len(names) > NAMED else ""
    return ", ".join(names[:NAMED]) + more


# Drawing


def last(path):
    return path[path.rfind(".") + 1 :].lstrip("\\")


def lines_of(processor):
    kind, count = processor.idle
    first = [f"{kind} {count}"] if count else []
    first += [f"perf {processor.perf}"] if processor.perf else []
    second = [f"throttle {processor.throttle}"] if processor.throttle else []
    second += [f"cpc {processor.cpc}"] if processor.cpc else []
    return [" · ".join(first), " · ".join(second)]


def draw_processor(picture, processor, x, y):
    ink = RED if processor.marks else INK
    told = f"{processor.path}: {', '.join(part for part in lines_of(processor) if part) or 'no states'}"
    picture.rect(x, y, WIDE, HIGH, "#f4f4f4", ink, 2 if processor.marks else 1, "5 3" if processor.marks else "", told)
    picture.text(x + 6, y + 14, last(processor.path), 12, bold=True)
    for row, text in enumerate(lines_of(processor)):
        picture.text(x + 6, y + 27 + 12 * row, text, 9)
    marks = " ".join(f"!{number}" for number in processor.marks)
    picture.text(x + WIDE - 5, y + 13, cut(marks, WIDE - 50, 10), 10, RED, True, "end")


def rows_of(places, bars):
    """The processors in rows, and below each row the tracks of the bars that have members in it."""
    rows = []
    for at in range(0, len(places), ACROSS):
        row, tracks = places[at : at + ACROSS], []
        for kind in ("perf", "throttle", "idle", "group"):
            free = []
            for bar in bars:
                columns = [column for column, place in enumerate(row) if bar.members and place in bar.members]
                if bar.kind == kind and columns:
                    spot = next((track for track in free if track[-1][1][-1] < columns[0]), None)
                    if spot is None:
                        free.append(spot := [])
                    spot.append((bar, columns))
            tracks += free
        rows.append((row, tracks))
    return rows


def runs(columns):
    """Neighbours among columns together: the first of each run and the last."""
    found = []
    for column in columns:
        if found and found[-1][1] == column - 1:
            found[-1][1] = column
        else:
            found.append([column, column])
    return found


def draw_track(picture, track, x, y):
    for bar, columns in track:
        ink, stroke = (RED, 2) if bar.is_unfit else (INK, 3 if bar.kind == "group" else 1)
        for first, end in runs(columns):
            left, wide = x + first * (WIDE + GAP), (end - first + 1) * (WIDE + GAP) - GAP
            picture.rect(left, y, wide, TRACK - 5, "none", ink, stroke, DASHES[bar.kind], bar.told, 7)
            picture.text(left + 7, y + 11, cut(bar.label, wide - 12, 9), 9, ink, bar.is_unfit)
        for (_, end), (begin, _) in zip(runs(columns), runs(columns)[1:]):
            picture.line(x + end * (WIDE + GAP) + WIDE, y + 7, x + begin * (WIDE + GAP), y + 7, ink, stroke, "1 3")


class Box:
    """A container, or the whole machine: its rows of processors, the boxes in it, and how large they are."""

    def __init__(self, plan, container, bars, room):
        path = container.path if container else "none"
        self.container = container
        places = [place for place, one in enumerate(plan.processors) if one.parent == path]
        self.rows = rows_of(places, bars)
        self.pad, self.head = (PAD, 24) if container else (0, 0)
        self.inner = [Box(plan, one, bars, room - 2 * PAD) for one in plan.containers if one.parent == path]
        self.width = max([len(row) * (WIDE + GAP) - GAP for row, _ in self.rows], default=0)
        y = sum(HIGH + GAP + len(tracks) * TRACK for _, tracks in self.rows)
        x, high, self.at = 0, 0, []
        for box in self.inner:
            if x and x + box.width > room:
                x, y, high = 0, y + high + PAD, 0
            self.at.append((x, y))
            self.width, high = max(self.width, x + box.width), max(high, box.height)
            x += box.width + PAD
        head = width_of(self.title(), 12) if container else 0
        self.width = max(self.width, head, WIDE) + 2 * self.pad
        self.height = y + high + self.head + 2 * self.pad - (0 if self.inner else GAP if self.rows else 0)

    def title(self):
        marks = "".join(f" !{number}" for number in self.container.marks)
        states = f" · lpi {self.container.states}" if self.container.states else ""
        return f"{self.container.path}{states}{marks}"

    def draw(self, picture, plan, x, y):
        if self.container:
            ink = RED if self.container.marks else PALE
            picture.rect(x, y, self.width, self.height, "#ffffff", ink, 2, "", f"container {self.title()}", 8)
            picture.text(x + PAD, y + 19, self.title(), 12, RED if self.container.marks else INK, True)
        x, y = x + self.pad, y + self.pad + self.head
        top = y
        for row, tracks in self.rows:
            for column, place in enumerate(row):
                draw_processor(picture, plan.processors[place], x + column * (WIDE + GAP), top)
            for number, track in enumerate(tracks):
                draw_track(picture, track, x, top + HIGH + 5 + number * TRACK)
            top += HIGH + GAP + len(tracks) * TRACK
        for box, (left, down) in zip(self.inner, self.at):
            box.draw(picture, plan, x + left, y + down)


def draw(plan, name):
    """The picture of a plan."""
    bars = bars_of(plan)
    told = mark(plan, bars)
    counts = [several(len(plan.processors), "processor"), several(len(plan.containers), "container")]
    counts += [several(len(plan.domains), "domain"), several(len(plan.groups), "group"), several(len(plan.notes), "note")]
    title = f"{name or 'Plan'}: {', '.join(counts)}"
    picture = Picture()
    picture.text(16, 28, title, 16, bold=True)
    Box(plan, None, bars, 2 * (ACROSS * (WIDE + GAP) + 2 * PAD) + PAD).draw(picture, plan, 16, 46)
    y = picture.height + 26
    for number, line in enumerate(told, 1):
        picture.text(16, y, f"!{number}  {line}", 11, RED)
        y += 16
    hidden = [bar for bar in bars if bar.members is None]
    if hidden:
        picture.text(16, y, "Without an outline, since the text doesn't tell their members (what `show` prints does):", 11)
        for bar in hidden:
            y += 16
            picture.text(30, y, bar.told, 11, RED if bar.is_unfit else INK)
        y += 16
    draw_legend(picture, y + 8)
    return picture.whole(title)


def draw_legend(picture, y):
    """What the outlines mean."""
    picture.text(16, y + 11, "A box in a frame is a processor in a container. Its numbers are of states; cpc is a revision.", 10)
    y, x = y + 20, 16
    for kind, text in (("perf", "domain of performance"), ("throttle", "of throttling"), ("idle", "of a C state"), ("group", "group")):
        picture.rect(x, y, 40, TRACK - 5, "none", INK, 3 if kind == "group" else 1, DASHES[kind], "", 7)
        picture.text(x + 46, y + 11, text, 10)
        x += 56 + width_of(text, 10)
    picture.rect(x, y, 40, TRACK - 5, "none", RED, 2, "5 3")
    picture.text(x + 46, y + 11, "! unfit or noted: the line of this number says why", 10, RED)
