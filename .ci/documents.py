"""Checks README.md, CONTRIBUTING.md, docs/*.md and those below examples/; prints what is wrong, and a count."""

import os
import re
import subprocess
import sys
from pathlib import Path

TOP = Path(__file__).resolve().parent.parent
LINK = re.compile(r"\[[^\]]*\]\(([^)#\s]+)(#[^)\s]*)?\)")
passed, failed = 0, 0


def check(holds, message):
    global passed, failed
    if holds:
        passed += 1
    else:
        failed += 1
        print(message)


def documents():
    names = ["README.md", "CONTRIBUTING.md"]
    return [TOP / n for n in names] + sorted((TOP / "docs").glob("*.md")) + sorted((TOP / "examples").rglob("*.md"))


def crates():
    lines = (line.split("#")[0].strip() for line in (TOP / "crates.txt").read_text().splitlines())
    return [line.split(":")[0].split()[0] for line in lines if line]


def examples(text):
    """The commands of the blocks marked `console`, each with the lines that follow it."""
    for block in re.findall(r"^```console\n(.*?)^```", text, re.M | re.S):
        command, shown = None, []
        for line in block.splitlines():
            if line.startswith("$ "):
                if command:
                    yield command, shown
                command, shown = line[2:], []
            else:
                shown.append(line)
        if command:
            yield command, shown


def promised():
    """The fields of the records that say what is promised, and the cases."""
    begun, found = None, set()
    paths = [path for path in (TOP / "crates/pw_cli/specs").glob("*.antt") if path.stem not in ("Lib", "Runs")]
    for line in [line for path in paths for line in path.read_text().splitlines()]:
        if begins := re.match(r"(?:abbrev )?pub (?:record |data )?(\w+)", line):
            begun = begins[1]
        elif field := re.match(r"  (?:pub )?(\w+) :", line):
            found.add(f"{begun}.{field[1]}")
    return found


def source_lines():
    """The lines of each source of a crate and of each program in C, without the space before them, so that what a document shows
    can be found."""
    for path in [*(TOP / "crates").glob("*/src/**/*.rt"), *(TOP / "examples/c").glob("*.c")]:
        yield "\n".join(line.strip() for line in path.read_text(encoding="utf-8").splitlines()) + "\n"


def main():
    os.environ["PW_PROVED_ONLY"] = "1"
    if subprocess.run([TOP / "pw", "show", TOP / "examples" / "ppc.aml"], stdout=subprocess.DEVNULL).returncode:
        sys.exit("documents: their examples are those of the proved program: run ./prove")
    handles = (TOP / "HANDLES").read_text()
    check(handles == "Handles allowed: Threads, Wait.\n", "HANDLES: not the one line that it is to hold")
    claims = (TOP / "docs" / "CLAIMS.md").read_text()
    for name in crates():
        check(re.search(rf"^\*\*`{name}`\*\*", claims, re.M), f"docs/CLAIMS.md: no paragraph that begins with **`{name}`**")
    named = set(re.findall(r"`([A-Z]\w+\.(?!antt)\w+)`", (TOP / "docs" / "PROMISES.md").read_text()))
    for field in sorted(promised() ^ named):
        check(False, f"docs/PROMISES.md: {field} is " + ("no field of a promise" if field in named else "a field without a sentence"))
    check(named, "docs/PROMISES.md: no field is named")
    size = (TOP / "README.md").stat().st_size
    check(size <= 10_000, f"README.md: {size} bytes, more than 10,000")
    sources = list(source_lines())
    for path in documents():
        check(path.is_file(), f"{path.relative_to(TOP)}: missing")
        if not path.is_file():
            continue
        text = path.read_text(encoding="utf-8")
        for target, _ in LINK.findall(text):
            if "://" not in target:
                check((path.parent / target).exists(), f"{path.relative_to(TOP)}: no file {target}")
        for block in re.findall(r"^```(?:rust|c)\n(.*?)^```", text, re.M | re.S):
            shown = "\n".join(line.strip() for line in block.splitlines()) + "\n"
            check(any(shown in source for source in sources), f"{path.relative_to(TOP)}: no source has these lines:\n{block}")
        for command, shown in examples(text):
            run = subprocess.run(
                ["bash", "-c", command], cwd=TOP, text=True, stdin=subprocess.DEVNULL, stdout=subprocess.PIPE, stderr=subprocess.STDOUT
            )
            said = run.stdout.splitlines()
            check(said == shown, f"{path.relative_to(TOP)}: `{command}` prints\n  " + "\n  ".join(said))
    print(f"documents: {passed} passed, {failed} failed")
    sys.exit(1 if failed else 0)


main()
