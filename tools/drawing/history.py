"""Reads a history that `drive` or `cppc` prints, or that was audited, and draws a row for each processor along its entries."""

import re
from dataclasses import dataclass, field

from drawing.parts import UNFIT, UNFIT_CPC, Stop, several, strange
from drawing.svg import INK, PALE, RED, Picture, cut, width_of

OPEN = re.compile(r"open(?: -> register fault after (\d+))?$")
ASKS = r"idle \d+(?: \d+)?|wake|(?:perf|throttle|plimit|tlimit|desired|minimum|maximum) \d+"
REFUSED = (
    r"refused (?:no state, count \d+|disabled|latency \d+|above limit \d+|no table|unfit domain \d+ why [1-5]|unfit [1-6]"
    r"|out of range \d+ \d+|crossed \d+)"
)
ENTRY = re.compile(rf"(\d+) (\\\S*) ({ASKS}) -> (entered(?: \d+)+|running|stands \d+|{REFUSED}|register fault after \d+)$")
DONE = re.compile(r"  (set|enter) (\\\S*) (\[\d+,\d+,\d+,\d+,0x[0-9A-F]+\])(?: (0x[0-9A-F]+))?$")
AUDITED = re.compile(r"lawful entries \d+$")

STANDS = {"perf": "perf", "plimit": "perf", "throttle": "throttle", "tlimit": "throttle"}
SHADES = ["#ffffff", "#f0f0f0", "#dcdcdc", "#c6c6c6", "#b0b0b0"]
MOST = 4096
LISTED = 40


@dataclass
class Entry:
    """A request with its reply, or the opening, which has none; and the operations below it: what, path, register, value."""

    number: int
    path: str = ""
    ask: str = ""
    reply: str = ""
    done: list = field(default_factory=list)


def is_line(line):
    return any(one.match(line) for one in (OPEN, ENTRY, DONE))


def read(lines):
    """The entries, and whether the text says that they were audited."""
    entries, is_audited = [], False
    for number, line in enumerate(lines, 1):
        if AUDITED.match(line):
            is_audited = True
        elif (match := OPEN.match(line)) and not entries:
            entries.append(Entry(0, reply=f"register fault after {match[1]}" if match[1] else ""))
        elif (match := ENTRY.match(line)) and entries and int(match[1]) > entries[-1].number:
            entries.append(Entry(int(match[1]), *match.groups()[1:]))
        elif (match := DONE.match(line)) and entries:
            entries[-1].done.append(match.groups())
        else:
            raise strange(number)
    return entries, is_audited


def chosen(entries, first, end):
    """Those of these numbers; the opening counts as 0."""
    found = [one for one in entries if first <= one.number <= end]
    if not found:
        raise Stop(1, "no entry has such a number")
    if len(found) > MOST:
        raise Stop(1, f"more than {MOST} entries: name a part by --from and --to")
    return found


def words_of(reply, is_cppc):
    """A refusal or a fault in words."""
    kind, _, rest = reply.partition(" ")
    if kind == "register":
        return f"a register failed after {reply.split()[-1]} operations of it"
    if match := re.match(r"unfit domain (\d+) why (\d)", rest):
        return f"domain {match[1]} is unfit: {UNFIT[int(match[2])]}"
    if match := re.match(r"unfit (\d)", rest):
        return f"its domain is unfit: {UNFIT_CPC[int(match[1])]}"
    numbers = re.findall(r"\d+", rest)
    return {
        "no state": "there is no such state: the table has {0}",
        "disabled": "the state isn't enabled",
        "latency": "the state takes {0} microseconds to wake, which is more than was borne",
        "above limit": "the limit is state {0}",
        "no table": "it has no " + ("_CPC" if is_cppc else "such table"),
        "out of range": "the table goes from {0} to {1}",
        "crossed": "the other bound is {0}",
    }[re.sub(r"[ ,]*(count)?[ \d]*$", "", rest)].format(*numbers)


class Rows:
    """Where the rows are, how wide a column is, and which lanes a row has."""

    def __init__(self, entries, shown):
        paths = {one.path for one in entries if one.path} | {path for one in entries for _, path, _, _ in one.done}
        self.places = {path: place for place, path in enumerate(sorted(paths))}
        self.is_cppc = any(one.ask.split()[:1] in (["desired"], ["minimum"], ["maximum"]) for one in entries)
        told = {self.lane_of(one) for one in entries}
        self.lanes = [lane for lane in ("idle", "perf", "throttle", "at") if lane in told] or ["idle"]
        self.wide = 104 if shown <= 24 else 52 if shown <= 60 else 16
        self.is_told = self.wide == 104
        self.high = 22 + (13 if self.is_told else 0) + 18 * len(self.lanes)
        self.left = 28 + max((width_of(path, 11) for path in self.places), default=60)
        self.top = 66

    def lane_of(self, entry):
        """In which lane the reply of an entry is told, or none."""
        kind = entry.reply.split(" ")[0]
        if kind == "stands":
            return "at" if self.is_cppc else STANDS[entry.ask.split()[0]]
        return "idle" if kind in ("entered", "running") else None

    def y_of(self, path):
        return self.top + self.places[path] * self.high

    def lane(self, path, lane):
        return self.y_of(path) + 5 + (13 if self.is_told else 0) + 18 * self.lanes.index(lane)

    def x_of(self, column):
        return self.left + column * self.wide


def states_of(everything, entries, rows):
    """Of each processor and lane what is told: the column, a text, and how deep it idles. What was told before is in the first."""
    told, start = {}, next(place for place, one in enumerate(everything) if one is entries[0])
    for place, one in enumerate(everything[: start + len(entries)]):
        kind, _, rest = one.reply.partition(" ")
        if kind == "entered":
            state, paths = (rest, int(rest.split()[0])), {one.path}
        elif kind == "running":
            state, paths = ("", 0), {one.path}
        elif kind == "stands":
            # Whose register is set below it is a member of the domain.
            state, paths = (f"{rows.lane_of(one)} {rest}", 0), {one.path, *(path for what, path, _, _ in one.done if what == "set")}
        else:
            continue
        for path in sorted(paths):
            found, column = told.setdefault((path, rows.lane_of(one)), []), max(0, place - start)
            if found and found[-1][0] == column:
                found.pop()
            found.append((column, *state))
    return told


def draw_lane(picture, rows, path, lane, told, columns):
    """What is told of a processor, each until the next."""
    y = rows.lane(path, lane)
    for (column, text, depth), (until, *_) in zip(told, [*told[1:], (columns,)]):
        x, wide = rows.x_of(column) + 2, (until - column) * rows.wide - 3
        if lane == "idle" and depth:
            label = f"idle {text}"
            picture.rect(x, y, wide, 14, SHADES[min(depth, 4)], INK, 1, "", f"{path} idles in {text}", 2)
            picture.text(x + 4, y + 11, fitting(label, wide - 6), 9)
        elif lane != "idle":
            picture.rect(x, y, wide, 14, "none", PALE, 1, "4 2", f"{path}: {text}", 2)
            picture.text(x + 4, y + 11, fitting(text, wide - 6), 9)


def fitting(label, room):
    """A label, or its first number where there is no room for the whole."""
    return label if width_of(label, 9) <= room else cut(label.split()[1], room, 9)


def draw_done(picture, rows, column, one):
    """The operations at their places: a diamond for what is set, a triangle for what is entered."""
    by_path = {}
    for what, path, register, value in one.done:
        by_path.setdefault(path, []).append((what, value, f"{what} {path} {register}{f' {value}' if value else ''}"))
    for path, done in by_path.items():
        x, y = rows.x_of(column) + (9 if rows.is_told else rows.wide // 2), rows.y_of(path) + rows.high - 9
        if rows.is_told and len(done) <= 3:
            for what, value, said in done:
                draw_sign(picture, what, x, y, said)
                picture.text(x + 8, y + 3, cut(value or "enter", 86 if len(done) == 1 else 26, 8), 8, told=said)
                x += 33
        else:
            # There is room for one of each.
            for sign in sorted({what for what, _, _ in done}, reverse=True):
                draw_sign(picture, sign, x, y, "\n".join(said for what, _, said in done if what == sign))


def draw_sign(picture, what, x, y, said):
    if what == "set":
        picture.shape([(x, y - 5), (x + 5, y), (x, y + 5), (x - 5, y)], said)
    else:
        picture.shape([(x - 5, y - 4), (x + 5, y - 4), (x, y + 5)], said)


def draw_place(picture, rows, column, one):
    """Where there is no room for the request: what is said of it at the pointer."""
    if one.path and not rows.is_told:
        x, y = rows.x_of(column), rows.y_of(one.path)
        said = f"{one.number} {one.ask}: {one.reply}"
        picture.rect(x + 1, y + 1, rows.wide - 2, rows.high - 2, "#ffffff", "none", 0, "", said, 0)


def draw_ask(picture, rows, column, one):
    """The request, and in red that it was refused."""
    x, y = rows.x_of(column), rows.y_of(one.path)
    is_bad = one.reply.startswith(("refused", "register"))
    if rows.is_told:
        said = f"{one.number} {one.ask}: {one.reply}"
        picture.text(x + 4, y + 13, cut(one.ask, rows.wide - 8, 10), 10, RED if is_bad else INK, told=said)
    if is_bad:
        left, top = x + (rows.wide - 20 if rows.is_told else 3), y + 4
        for y1, y2 in ((top, top + 10), (top + 10, top)):
            picture.line(left, y1, left + 10, y2, RED, 2)


def draw_frame(picture, rows, entries):
    """The names of the rows and the numbers of the columns."""
    bottom = rows.top + len(rows.places) * rows.high
    step = 1 if rows.wide > 16 else 5
    for column, one in enumerate(entries):
        x = rows.x_of(column)
        picture.line(x, rows.top - 6, x, bottom, "#dddddd")
        if column == 0 or one.number % step == 0:
            name = str(one.number) if one.number else "open" if rows.wide > 16 else "o"
            picture.text(x + rows.wide // 2, rows.top - 10, name, 10, anchor="middle")
    right = rows.x_of(len(entries))
    for path in rows.places:
        y = rows.y_of(path)
        picture.line(16, y, right, y, PALE)
        picture.text(18, y + 17, path, 11, bold=True)
        if "idle" in rows.lanes:
            middle = rows.lane(path, "idle") + 7
            picture.line(rows.left, middle, right, middle, "#bbbbbb")
    picture.line(16, bottom, right, bottom, PALE)
    picture.reach(right, bottom)


def draw(read_entries, name, first, end):
    """The picture of a history."""
    everything, is_audited = read_entries
    entries = chosen(everything, first, end)
    rows = Rows(everything, len(entries))
    refusals = [one for one in entries if one.reply.startswith(("refused", "register"))]
    asked, done = sum(one.number > 0 for one in entries), sum(len(one.done) for one in entries)
    counts = [several(len(rows.places), "processor"), f"{asked} {'entry' if asked == 1 else 'entries'}"]
    counts += [several(done, "register operation"), f"{len(refusals)} not granted"]
    title = f"{name or 'History'}: {', '.join(counts)}{', audited' if is_audited else ''}"
    picture = Picture()
    picture.text(16, 28, title, 16, bold=True)
    for column, one in enumerate(entries):
        draw_place(picture, rows, column, one)
    draw_frame(picture, rows, entries)
    for (path, lane), told in states_of(everything, entries, rows).items():
        draw_lane(picture, rows, path, lane, told, len(entries))
    for column, one in enumerate(entries):
        draw_done(picture, rows, column, one)
        if one.path:
            draw_ask(picture, rows, column, one)
    y = picture.height + 26
    for one in refusals[:LISTED]:
        asked = f"{one.number} {one.path} {one.ask}" if one.number else "open"
        picture.text(16, y, f"{asked}: {words_of(one.reply, rows.is_cppc)}", 11, RED)
        y += 16
    if len(refusals) > LISTED:
        picture.text(16, y, f"and {len(refusals) - LISTED} more that weren't granted", 11, RED)
        y += 16
    draw_legend(picture, rows, y + 4)
    return picture.whole(title)


def draw_legend(picture, rows, y):
    """What the signs mean."""
    x = 16
    if "idle" in rows.lanes:
        for depth, label in ((0, "runs"), (1, "idles: its own state, and those of the containers around it that go idle with it")):
            if depth:
                picture.rect(x, y, 40, 14, SHADES[2], INK, 1, "", "", 2)
            else:
                picture.line(x, y + 7, x + 40, y + 7, "#bbbbbb")
            picture.text(x + 46, y + 11, label, 10)
            x += 46 + width_of(label, 10) + 20
        x, y = 16, y + 22
    if set(rows.lanes) - {"idle"}:
        picture.rect(x, y, 40, 14, "none", PALE, 1, "4 2", "", 2)
        label = "where its domain stood when it was last told here: by its own reply, or by a register of its own that was set"
        picture.text(x + 46, y + 11, label, 10)
        y += 22
    for what, x, label in (("set", 21, "a register is set"), ("enter", 155, "an idle state is entered")):
        draw_sign(picture, what, x, y + 7, "")
        picture.text(x + 12, y + 11, label, 10)
    x = 340
    picture.line(x, y + 2, x + 10, y + 12, RED, 2)
    picture.line(x, y + 12, x + 10, y + 2, RED, 2)
    picture.text(x + 16, y + 11, "refused, or a register failed: the line in red says why", 10, RED)
