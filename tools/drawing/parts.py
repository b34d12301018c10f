"""What the parts of tools/draw share."""


class Stop(Exception):
    """Ends the run with this status and this line."""

    def __init__(self, status, line):
        super().__init__(line)
        self.status, self.line = status, line


def several(count, word):
    return f"{count} {word}{'' if count == 1 else 's'}"


def strange(number):
    return Stop(1, f"line {number} is none of a plan, of shown objects or of a history")


UNFIT = {
    1: "its members declare different types",
    2: "its members declare different numbers of processors",
    3: "its members declare another number of processors than they are",
    4: "the tables of its members have different lengths",
    5: "one of its members has no control register",
}
UNFIT_CPC = {
    1: UNFIT[1],
    2: UNFIT[2],
    3: UNFIT[3],
    4: "the lowest or the highest performance of one member is no integer, or the lowest is above the highest",
    5: "the lowest or the highest performances of its members differ",
    6: "one of its members has no register for desired performance",
}
