#!/usr/bin/env python3
"""Plants bugs, one at a time, and says what finds each: the proof, a test, or nothing.

usage: python3 tools/plant.py [CRATE ..]                plants the bugs of these crates, or of all
       python3 tools/plant.py --only WORD [CRATE ..]    those alone whose name or kind has the word
       python3 tools/plant.py --table                   plants nothing, and prints how many bugs of each crate are said to be found by what

The file tools/plants/CRATE has the bugs of a crate, in blocks of lines with an empty line between them:

    bug: full_one_place_too_late
    kind: < for <=
    file: src/lib.rt
    old: MOST <= self.count
    new: MOST < self.count
    found: proof

`old` stands in the file exactly once; more pairs of `old` and `new` make one bug of several lines. `found` is what finds the bug: `proof`, `test`
or `nothing`. Where it is not `proof`, a line `why:` says why no proof finds it, or, where nothing does, why no test does. What follows `#` at the
start of a line is a comment.

The bugs are planted in a copy of the repository, with what checks have kept in crates/*/out, so no check should run there meanwhile. The crate has
to be proved before. A bug that the proof lets pass is then given to the tests and programs of the crate and of those above it, which run with no
proof, and which have to pass without it. The gate does not plant bugs: of the telling ones, the folders must-fail/ have edits.
"""

import argparse
import functools
import os
import re
import shutil
import subprocess
import sys
import tempfile

TOP = os.path.join(os.path.dirname(os.path.abspath(__file__)), "..")
PLANTS = os.path.join(TOP, "tools", "plants")


def planted(crate):
    """The bugs of a crate, each a list of its lines as pairs of a word and a text."""
    with open(os.path.join(PLANTS, crate), encoding="utf-8") as file:
        lines = [line.rstrip("\n") for line in file if not line.startswith("#")]
    blocks = [block.split("\n") for block in re.split(r"\n\s*\n", "\n".join(lines).strip("\n")) if block.strip()]
    lacking = [line for block in blocks for line in block if not re.match(r"\w+: ?", line)]
    if lacking:
        sys.exit(f"plant: a line of tools/plants/{crate} has no word and colon: {lacking[0]}")
    return [[tuple(re.match(r"(\w+): ?(.*)", line).groups()) for line in block] for block in blocks]


def said(bug, word):
    """What a bug's line of this word says, or nothing."""
    return next((text for name, text in bug if name == word), "")


def edit_of(bug):
    """The bug as an edit that must be refused."""
    return "".join(f"{name}: {text}\n" for name, text in bug if name in ("file", "old", "new"))


def crates():
    """Each crate of the repository, with those that it names."""
    with open(os.path.join(TOP, "crates.txt"), encoding="utf-8") as file:
        return {name.strip(): below.split() for name, below in (line.split(":") for line in file if line.strip())}


def at_or_above(crate):
    """The crate and those that stand on it."""
    every = crates()
    stands_on = lambda name: name == crate or any(stands_on(it) for it in every.get(name, []))
    return [name for name in every if stands_on(name)]


def apply(bug, folder):
    """Makes the bug's changes in a crate's folder."""
    path, old = "", ""
    for name, text in bug:
        if name == "file":
            path = os.path.join(folder, text)
        elif name == "old":
            old = text
        elif name == "new":
            with open(path, encoding="utf-8") as file:
                was = file.read()
            with open(path, "w", encoding="utf-8") as file:
                file.write(was.replace(old, text))


def runs_well(folder):
    """Whether the tests of a crate pass, and its program prints what it should and ends with status 0, with no proof."""
    try:
        return passes(folder)
    except subprocess.TimeoutExpired:
        return False


def passes(folder):
    """The same, where each run takes less than ten minutes."""
    how = {"stdout": subprocess.PIPE, "stderr": subprocess.STDOUT, "cwd": folder, "text": True, "timeout": 600}
    has = lambda name: os.path.exists(os.path.join(folder, name))
    sources = [os.path.join(at, name) for at, _, names in os.walk(os.path.join(folder, "src")) for name in names]
    if any("#[test]" in open(path, encoding="utf-8").read() for path in sources):
        if subprocess.run(["rt", "try", "--test"], stdin=subprocess.DEVNULL, **how).returncode:
            return False
    if not has("stdout"):
        return True
    with tempfile.TemporaryDirectory() as cases:
        for name in ("stdin", "stdout", "args"):
            to = os.path.join(cases, "case" + {"stdin": "", "stdout": ".stdout", "args": ".args"}[name])
            if has(name):
                shutil.copy(os.path.join(folder, name), to)
            elif name == "stdin":
                open(to, "w").close()
        words = ["rt", "try", "--cases", cases]
        if has("data"):
            names = sorted(os.listdir(os.path.join(folder, "data")))
            words += [word for name in names for word in ("--data", f"{name}={os.path.join(folder, 'data', name)}")]
        ran = subprocess.run(words, **how)
        return ran.returncode == 0 and " status=0 " in ran.stdout


@functools.cache
def sound_above(room, crate):
    """Stops where the tests or the program of a crate, or of one above it, do not pass with no bug planted."""
    for name in at_or_above(crate):
        if not runs_well(os.path.join(room, "crates", name)):
            sys.exit(f"plant: the tests or the program of {name} do not pass with no bug planted")


def found_by_test(room, crate, bug):
    """The first crate whose tests or program find a bug, or nothing."""
    sound_above(room, crate)
    folder = os.path.join(room, "crates", crate)
    kept = os.path.join(room, "kept")
    shutil.copytree(os.path.join(folder, "src"), kept)
    try:
        apply(bug, folder)
        return next((it for it in at_or_above(crate) if not runs_well(os.path.join(room, "crates", it))), "")
    finally:
        shutil.rmtree(os.path.join(folder, "src"))
        os.rename(kept, os.path.join(folder, "src"))


def plant(room, crate, bugs):
    """Plants bugs in a copy of the repository; answers how many are found otherwise than is said, or are no bugs."""
    if subprocess.run(["rt", "check"], cwd=os.path.join(room, "crates", crate), stdin=subprocess.DEVNULL, stdout=subprocess.DEVNULL).returncode:
        sys.exit(f"plant: {crate} is not proved with no bug planted")
    edits = os.path.join(room, "crates", crate, "must-fail")
    shutil.rmtree(edits, ignore_errors=True)
    os.mkdir(edits)
    for bug in bugs:
        with open(os.path.join(edits, said(bug, "bug") + ".edit"), "w", encoding="utf-8") as file:
            file.write(edit_of(bug))
    ran = subprocess.run(["rt", "must-fail", crate], cwd=room, stdin=subprocess.DEVNULL, stdout=subprocess.PIPE, stderr=subprocess.STDOUT, text=True)
    results = dict(re.findall(rf"^rt: must-fail {crate}/(\w+)\.edit: (.*)$", ran.stdout, re.M))
    odd = 0
    for bug in bugs:
        name = said(bug, "bug")
        result = results.get(name, "it was not tried")
        if result.startswith("refused, as it must be (only"):
            found, ground = "no verdict", result
        elif result.startswith("refused"):
            found, ground = "proof", result.partition(": ")[2]
        elif result.startswith("NOT REFUSED"):
            by = found_by_test(room, crate, bug)
            found, ground = ("test", by) if by else ("nothing", "")
        else:
            found, ground = "no bug", result
        as_said = found == said(bug, "found")
        odd += not as_said
        print(f"{crate}: {name} ({said(bug, 'kind')}): {found}{': ' + ground if ground else ''}{'' if as_said else ' (NOT AS SAID)'}", flush=True)
    return odd


def print_table(names):
    """Prints a row for each crate: how many bugs are planted, and how many the proof, a test and nothing is said to find."""
    print("| crate | planted | proof | test | nothing |\n|---|---|---|---|---|")
    whole = [0, 0, 0, 0]
    for crate in names:
        founds = [said(bug, "found") for bug in planted(crate)]
        row = [len(founds), *(founds.count(it) for it in ("proof", "test", "nothing"))]
        whole = [a + b for a, b in zip(whole, row)]
        print(f"| `{crate}` | {' | '.join(map(str, row))} |")
    print(f"| together | {' | '.join(map(str, whole))} |")


def main():
    parser = argparse.ArgumentParser(usage=__doc__, add_help=False)
    parser.add_argument("--only", default="")
    parser.add_argument("--table", action="store_true")
    parser.add_argument("crates", nargs="*")
    words = parser.parse_args()
    there = [name for name in crates() if os.path.exists(os.path.join(PLANTS, name))]
    lacking = [name for name in words.crates if name not in there]
    if lacking:
        sys.exit(f"plant: no bugs are written for {lacking[0]}")
    names = words.crates or there
    if words.table:
        return print_table(names)
    odd = planted_all = 0
    with tempfile.TemporaryDirectory(prefix="plant-") as room:
        for it in os.listdir(TOP):
            if it not in (".git", "target"):
                path = os.path.join(TOP, it)
                (shutil.copytree if os.path.isdir(path) else shutil.copy)(path, os.path.join(room, it))
        for crate in names:
            bugs = [bug for bug in planted(crate) if words.only in said(bug, "bug") + " " + said(bug, "kind")]
            odd += plant(room, crate, bugs) if bugs else 0
            planted_all += len(bugs)
    if not planted_all:
        sys.exit("plant: no bug has that word")
    if odd:
        sys.exit(f"plant: {odd} found otherwise than is said")


if __name__ == "__main__":
    main()
