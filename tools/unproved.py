#!/usr/bin/env python3
"""Runs the sources of the program unproved on words, for ./pw, where no proved program stands.

usage: unproved.py COMMAND WORD..

`rt try` compiles the sources with checks and runs them in a new folder, so each file that the words name is handed over under
a name of its own. What comes is printed when it is whole, the status is the program's, and two lines on the error output say
that nothing of this run is proved. Where no answer comes, nothing is printed, a line says why, and the status is 125.
"""

import os
import re
import shutil
import signal
import subprocess
import sys
import tempfile
from pathlib import Path

TOP = Path(__file__).resolve().parent.parent
SECONDS = "600"
NO_ANSWER = 125
TAKES_FILES = {"show", "check", "lint", "drive", "audit", "cppc", "rewrite"}
ENDED = re.compile(rb"\nchecked: .*\nraces: .*\nrun=ended status=(\d+) [^\n]*\n\Z")


def say(text):
    print(f"pw: {text}", file=sys.stderr, flush=True)


def give_up(why):
    say(why)
    say("nothing was printed of it; ./prove proves and builds the program, which has no such bound")
    sys.exit(NO_ANSWER)


def why(said):
    """What the toolchain says of a run without an answer; of an error before it, the last lines."""
    told = re.findall(r"^checked: (?:no-answer: )?(.*)$", said.decode(errors="replace"), re.M)
    lines = told[-1:] or said.decode(errors="replace").rstrip().splitlines()[-4:]
    return "\n  ".join(line[:200] for line in lines)


def is_text(word):
    """Whether a word is UTF-8. The program refuses others, and the toolchain can't hand them on."""
    try:
        word.encode()
    except UnicodeEncodeError:
        return False
    return True


def copied(word, copy):
    """Whether a file can be read, whose bytes are then in the copy."""
    try:
        with open(word, "rb") as source, open(copy, "wb") as made:
            shutil.copyfileobj(source, made)
    except OSError:
        return False
    return True


def handed_over(words, folder):
    """The words with each file's name exchanged for that of its copy in the folder, and the copies' names. A file that can't be read
    gets a name that isn't there, so that the program finds none either."""
    given, names = [words[0]], []
    flags_end = words[0] not in TAKES_FILES
    for number, word in enumerate(words[1:], 1):
        is_flag = word.startswith("-") and word != "-" and not flags_end
        flags_end = flags_end or word == "--"
        if words[0] in TAKES_FILES and not is_flag:
            name = f"handed-over-{number}"
            if copied(word, folder / name):
                names.append(name)
            word = name
        given.append(word)
    return given, names


def main():
    if not shutil.which("rt"):
        say("the program isn't built, and the toolchain that runs, proves and builds it isn't here: no command 'rt' is on the PATH")
        say("README.md says which kit is needed")
        sys.exit(NO_ANSWER)
    if not all(is_text(word) for word in sys.argv[1:]):
        print("words: refused", file=sys.stderr)
        sys.exit(2)
    say("this run is unproved: the sources are compiled with checks and run as they are, which takes a minute")
    say("./prove proves and builds the program; then ./pw runs that, at once")
    with tempfile.TemporaryDirectory() as made:
        folder = Path(made)
        words, names = handed_over(sys.argv[1:], folder)
        call = ["rt", "try", "--seconds", SECONDS]
        for name in names:
            call += ["--data", f"{name}={folder / name}"]
        signal.signal(signal.SIGTERM, lambda *_: sys.exit(128 + signal.SIGTERM))
        ran = subprocess.run([*call, "--", *words], cwd=TOP / "crates/pw", stdin=subprocess.DEVNULL, capture_output=True)
    ended = ENDED.search(b"\n" + ran.stderr)
    if not ended:
        give_up(f"this unproved run gave no answer: {why(ran.stderr)}")
    sys.stdout.buffer.write(ran.stdout)
    sys.stdout.buffer.flush()
    sys.stderr.buffer.write((b"\n" + ran.stderr)[1 : ended.start() + 1])
    sys.exit(int(ended[1]))


main()
