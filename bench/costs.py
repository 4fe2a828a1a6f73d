#!/usr/bin/env python3
"""Prints what a build cost, by the times at which the files that it kept were written: seconds by crate, by function and by
kind of module, the dearest first. It reads what `./wfhost` or `rt check` left in crates/*/out/incremental, so it tells of the
last proof of each module. Of the libraries below a crate it counts what rattle reads between two modules, as `(reading)`, and
not what it reads before the first, nor the writing of the crate's own library. A second job puts seconds on some other
module: look at the size of a function's module `Lts` too, which grows with its cost. `--most N` prints N rows of each list
(30), and the crates that are named, or all, are counted.

`--keep` writes costs.txt, by which launcher.py orders its work and says how long it takes, from what `./wfhost` noted of the
crates that it proved from nothing. Crates of which it noted nothing keep their row, and the new rows are brought to the
speed of the machine of the old ones, unless all are new; a row that is only estimated says nothing of that. It writes the
minutes of docs/use/USAGE.md too, which follow from costs.txt; `--pages` writes these alone, as after a change of crates.txt.
`--expected` prints how long the first build of each program takes by costs.txt."""

import argparse
import re
import statistics
import sys
from collections import Counter
from pathlib import Path

TOP = Path(__file__).resolve().parent.parent
CRATES = TOP / "crates"
sys.path.insert(0, str(TOP))
import launcher

# What `./wfhost` builds.
PROGRAMS = ("wfhost_replay", "wfhost_files", "wfhost_tables", "wfhost_serve", "wfhost")
# The page that says how long the first build of each program takes, and its row of a program: the minutes on four processors,
# and on two.
PAGE = TOP / "docs/use/USAGE.md"
TIMED = re.compile(r"^(\|.*\| `(\w+)`[^|]*\|) (\d+) \| (\d+) \|$", re.MULTILINE)
# What stands at the head of costs.txt.
HEAD = """# The processor seconds that each crate takes if it is proved from nothing, with one job. Where a crate has no row, its lines
# count. bench/costs.py --keep writes this.
"""
# What stands behind a row that nobody measured.
MARK = " # estimated"
# The name of a module's file: the crate, the side, and the path.
FILE = re.compile(r"Rattle-(\w+?)(?:-(specs|proofs))?\.(.*)\.oantt")
# What stands in place of a module for what is read.
READING = "(reading)"
# The modules that a function's proof has, beside its own name.
KINDS = {
    "Lts", "Proof", "Tie", "Code", "Mir", "Layout", "Reads", "Kinds", "Statement", "Met", "Symbol", "TheLink", "Invariants",
    "Answers", "Places", "Locals", "Goal", "Goals", "Names", "Loans", "Links",
}
# The most seconds between two files that are one module's cost: more is a pause between two checks.
MOST_PAUSE = 400
# A file of at most so many bytes costs nothing by itself: what takes more seconds than these before it is read for others.
SMALL, SHORT = 4_000, 1


def modules_of(crate):
    """The modules that are kept of a crate, each with its seconds and its size, in the order in which they were written."""
    files = [(file.stat(), file.name) for file in crate.glob("out/incremental/*/*.oantt")]
    files = sorted((stat.st_mtime, stat.st_size, name) for stat, name in files)
    last = files[0][0] if files else 0
    for written, size, name in files:
        pause, last = written - last, written
        found = FILE.fullmatch(name)
        if pause >= MOST_PAUSE:
            continue
        if size <= SMALL and pause > SHORT:
            yield READING, pause, 0
        elif found and found[2] == "proofs":
            yield found[3], pause, size
        else:
            yield f"specs.{name}", pause, size


def parted(module):
    """The function and the kind of a module."""
    words = module.split(".")
    if module == READING:
        return READING, "reading"
    if words[0] == "specs":
        return "(specs)", "specs"
    kinds = [at for at, word in enumerate(words) if word in KINDS]
    if kinds:
        return "::".join(words[: kinds[0]]), words[kinds[0]]
    return "::".join(words), "other"


def table(title, rows, most):
    """Prints the dearest rows of a list."""
    whole = sum(seconds for _, seconds in rows) or 1
    print(f"\n{title}: {len(rows)} rows, {whole:.0f} s")
    for name, seconds in sorted(rows, key=lambda row: -row[1])[:most]:
        print(f"{seconds:8.1f} s {100 * seconds / whole:5.1f} %  {name}")


def rows_kept(old, measured, names, estimated):
    """The rows of costs.txt: those of the old table, and what was measured last of each crate."""
    # One more job takes three tenths of the processor more.
    new = {name: seconds / (1 + 0.3 * (jobs - 1)) for name, seconds, _, jobs in measured if name in names}
    ratios = [new[name] / old[name] for name in new if old.get(name) and name not in estimated]
    ratio = statistics.median(ratios) if ratios and old.keys() - new.keys() else 1
    rows = {**old, **{name: seconds / ratio for name, seconds in new.items()}}
    return [(name, rows[name]) for name in names if name in rows]


def keep():
    """Writes costs.txt."""
    old, measured = dict(launcher.rows_in(launcher.TABLE)), launcher.rows_measured()
    if not measured:
        sys.exit("costs: ./wfhost has noted no crate here: build a program by it first")
    lines = [line.partition("#")[0] for line in (TOP / "crates.txt").read_text(encoding="utf-8").split("\n")]
    names = [line.split(":")[0].split()[0] for line in lines if ":" in line]
    table = launcher.TABLE.read_text(encoding="utf-8") if launcher.TABLE.exists() else ""
    estimated = {line.split()[0] for line in table.split("\n") if line.endswith(MARK)}
    rows, own = rows_kept(old, measured, names, estimated), {row[0] for row in measured if row[0] in names}
    marks = {name: MARK * (name in estimated - own) for name, _ in rows}
    launcher.TABLE.write_text(HEAD + "".join(f"{name} {seconds:.0f}{marks[name]}\n" for name, seconds in rows), encoding="utf-8")
    print(f"costs: {len(rows)} rows, of which {len(own)} were measured here")
    write_page()


def write_page():
    """Writes how long the first build of each program takes into its page."""
    PAGE.write_text(with_minutes(PAGE.read_text(encoding="utf-8")), encoding="utf-8")


def with_minutes(page):
    """A page with the minutes that follow from costs.txt in its rows of programs."""
    return TIMED.sub(lambda row: f"{row[1]} {' | '.join(minutes_of(row[2]))} |", page)


def minutes_of(program):
    """The minutes that the first build of a program takes on four processors, and on two, as its page has them."""
    costs, below = build_of(program)
    return [f"{launcher.simulated(costs, below, lanes) / 60:.0f}" for lanes in (4, 2)]


def build_of(program):
    """What each crate of a program's first build costs, and on which others it stands."""
    crates = launcher.crates_of(program)
    return launcher.costs_of(crates), {crate.name: {one.name for one in crate.below} for crate in crates}


def expect():
    """Prints how long the first build of each program takes, and the chain of crates that takes longest."""
    for program in PROGRAMS:
        costs, below = build_of(program)
        heights = launcher.heights_of(costs, below)
        times = [f"{launcher.simulated(costs, below, lanes) / 60:.0f} min on {lanes}" for lanes in (1, 2, 4, 8)]
        whole = f"{sum(costs.values()):.0f} s of a processor, of which the longest chain takes {max(heights.values()):.0f}"
        print(f"{program}: {len(costs)} crates, {whole}; {', '.join(times)} processors")
        print(f"    {', '.join(chain_of(heights, below))}")


def chain_of(heights, below):
    """The crates of the longest chain, the lowest first."""
    chain, left = [], [*heights]
    while left:
        chain.append(max(left, key=heights.get))
        left = [name for name in left if chain[-1] in below[name]]
    return chain


def main():
    asked = argparse.ArgumentParser(description=__doc__, formatter_class=argparse.RawDescriptionHelpFormatter)
    asked.add_argument("--most", type=int, default=30)
    asked.add_argument("--keep", action="store_true")
    asked.add_argument("--pages", action="store_true")
    asked.add_argument("--expected", action="store_true")
    asked.add_argument("crates", nargs="*")
    given = asked.parse_args()
    if given.keep:
        return keep()
    if given.pages:
        return write_page()
    if given.expected:
        return expect()
    names = given.crates or sorted(folder.name for folder in CRATES.iterdir())
    crates, functions, kinds, sizes = Counter(), Counter(), Counter(), Counter()
    for name in names:
        for module, seconds, size in modules_of(CRATES / name):
            function, kind = parted(module)
            crates[name] += seconds
            functions[f"{name}::{function}"] += seconds
            kinds[kind] += seconds
            if kind == "Lts":
                sizes[f"{name}::{function}"] += size
    if not crates:
        sys.exit("costs: nothing is kept of these crates: build them first")
    table("crates", crates.items(), given.most)
    named = [(f"{name} (Lts {sizes[name] / 1e6:.1f} MB)" if sizes[name] else name, seconds) for name, seconds in functions.items()]
    table("functions", named, given.most)
    table("kinds of modules", kinds.items(), given.most)


if __name__ == "__main__":
    main()
