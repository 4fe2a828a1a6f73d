#!/usr/bin/env python3
"""Tries `./wfhost` without rt: which program it takes for a command, when it starts that at once and when launcher.py builds it
first, what launcher.py has a stand-in for rt do, how long it expects that to take, how often quick_rt.py has a crate read, what
bench/costs.py makes of a build's files, and that costs.txt names crates alone.

    tests/starts.py

The last line is `N tried, M wrong`, and the status is 1 where one is wrong."""

import os
import shutil
import subprocess
import sys
import tempfile
from pathlib import Path

from rows import TOP, difference, try_rows, words_of

sys.path.insert(1, str(TOP))
sys.path.insert(1, str(TOP / "bench"))
import costs  # noqa: E402
import launcher  # noqa: E402
import quick_rt  # noqa: E402

LIMIT_SECONDS = 60
ALL, REPLAY, FILES, TABLES, SERVE = "wfhost", "wfhost_replay", "wfhost_files", "wfhost_tables", "wfhost_serve"
# Words, and the program that has to be built for them.
PROGRAMS = [
    ("replay examples/histories", REPLAY),
    ("explain --html nap.json", FILES),
    ("query racer.json phase", FILES),
    ("check order.json", TABLES),
    ("try order.json", TABLES),
    ("serve examples/histories --workers 4", SERVE),
    ("work --task-queue orders", ALL),
    ("", REPLAY),
    ("--help", REPLAY),
    ("--version", REPLAY),
    ("work --help", REPLAY),
    ("work --task-queue --help", ALL),
    ("reply examples/histories", REPLAY),
    ("--build", ALL),
    ("--build serve", SERVE),
    ("--build replay", REPLAY),
    ("--unproved explain nap.json", FILES),
    ("--unproved work --task-queue orders", ALL),
]
# The programs that are built, those of them that are older than a source, words, and what has to be started: a program, or
# launcher.py.
STARTS = [
    ([REPLAY], [], "replay histories", REPLAY),
    ([REPLAY], [REPLAY], "replay histories", "launcher"),
    ([REPLAY], [], "explain nap.json", "launcher"),
    ([REPLAY, ALL], [], "replay histories", ALL),
    ([REPLAY, ALL], [ALL], "replay histories", REPLAY),
    ([ALL], [], "work --task-queue orders", ALL),
    ([REPLAY, FILES, TABLES, SERVE], [], "work --task-queue orders", "launcher"),
    ([REPLAY, ALL], [], "--unproved replay histories", "launcher"),
    ([REPLAY, ALL], [], "--build", "launcher"),
    ([REPLAY, ALL], [], "--build replay", "launcher"),
]
# Words that are refused, with nothing built or started.
REFUSED = ["--build reply", "--build replay histories", "--build --help"]
# What stands in for rt: it notes its crate and its command, and leaves what rt leaves, unless it is to fail in that crate. In one
# crate it says that it did not begin from nothing.
RT = """#!/bin/sh
name=${PWD##*/}
echo "$name $1" >>"$NOTES"
[ "$name" != beside ] || echo "rt: $name: begins with what a check kept in /elsewhere"
mkdir -p out/incremental out/rlib
[ "$name" != "$FAILS" ] || exit 1
touch out/rlib/stamp
[ "$1" = lib ] || { printf '#!/bin/sh\\necho %s "$@"\\n' "$name" >"out/$name" && chmod +x "out/$name"; }
"""
# The crates of the repository in which it stands in.
CRATES_TXT = """low:
beside: low
mid: low
wfhost: mid beside
wfhost_replay: mid
wfhost_serve: mid
"""
# One start after the other: the crate of which a source was changed before, the crate in which rt fails, words, what rt has to
# do, what has to be printed, and the status.
BUILDS = [
    ("", "", "replay x", "low lib, mid lib, wfhost_replay run", "wfhost_replay replay x", 0),
    ("", "", "replay y", "", "wfhost_replay replay y", 0),
    ("", "", "serve x", "wfhost_serve run", "wfhost_serve serve x", 0),
    ("mid", "", "serve y", "mid lib, wfhost_serve run", "wfhost_serve serve y", 0),
    ("beside", "", "serve z", "wfhost_serve run", "wfhost_serve serve z", 0),
    ("", "", "--build", "beside lib, wfhost run", "", 0),
    ("", "", "replay z", "", "wfhost replay z", 0),
    ("mid", "mid", "replay z", "mid lib", "", 2),
    ("", "", "replay z", "mid lib, wfhost_replay run", "wfhost_replay replay z", 0),
    ("", "", "--unproved replay z", "wfhost_replay try", "", 0),
]
# The crates of which it is noted what they took, since they were proved from nothing.
MEASURED = ["low", "mid", "wfhost_replay", "wfhost_serve", "wfhost"]
# A table of tasks, each with its seconds and those that it waits for; the lanes; and the seconds until all are done. Where a task
# has no other beside it, it gets a job for each lane, which saves a fifteenth of its time for each further one.
CHAIN = "a 30: ; b 60: a; c 90: a b"
WIDE = "a 30: ; b 30: ; c 30: ; d 30: ; top 30: a b c d"
# The one with the longest way up comes first, though others are dearer themselves.
LONG = "cheap 10: ; dear 60: ; dearer 70: ; high 100: cheap; top 30: high dear dearer"
SCHEDULES = [
    (CHAIN, 1, 180),
    (CHAIN, 4, 144),
    (WIDE, 1, 150),
    (WIDE, 2, 30 + 30 + 28),
    (WIDE, 4, 30 + 24),
    (LONG, 1, 270),
    (LONG, 2, 70 + 60 + 28),
    ("", 4, 0),
]
# Crates, each after those that it stands on, and the longest chain, of which all stand on one another.
CHAINS = [
    ("a 9: ; b 5: ; c 4: b; d 1: a b c", "b c d"),
    ("a 9: ; b 5: ; c 3: b; d 1: a b c", "a d"),
    ("a 2:", "a"),
]
# The files of a build, each with its bytes and the seconds after the one before, and what each second went to.
MODULES = [
    ("Rattle-k.oantt", 1_000, 0, ("(specs)", 0)),
    ("Rattle-k-proofs.f.oantt", 1_000, 7, ("(reading)", 7)),
    ("Rattle-k-proofs.f.Lts.oantt", 3_000, 1, ("f", 1)),
    ("Rattle-k-proofs.g.T.h.Proof.oantt", 90_000, 5, ("g::T::h", 5)),
    ("Rattle-k-specs.Kinds.oantt", 90_000, 2, ("(specs)", 2)),
    ("Rattle-k-specs.contracts.f.Key.oantt", 3_000, 9, ("(reading)", 9)),
    ("Rattle-k-proofs.g.oantt", 1_000, 500, None),
]
# What has begun, with the seconds that it took.
BEGUN = [
    (WIDE, 4, {"a": 10, "b": 20, "c": 0, "d": 0}, 30 + 24),
    (WIDE, 4, {"a": 10, "b": 20, "c": 25, "d": 15}, 20 + 24),
    (CHAIN, 1, {"a": 40}, 150),
]
# What tasks took by the clock with so many jobs, where EVEN has their seconds, and the factor of the machine. Too little says
# nothing of it.
EVEN = "a 200: ; b 200: ; c 100:"
PACES = [
    ([], 1),
    ([("c", 300, 1)], 1),
    ([("a", 400, 1)], 2),
    ([("a", 400, 1), ("b", 200, 1)], 1.5),
    ([("a", 160, 4), ("unknown", 500, 1)], 1),
]


def table_of(text):
    """The seconds of each task of a table, and what it waits for."""
    rows = [row.split(":") for row in text.split(";") if row.strip()]
    names = [(*head.split(), tail.split()) for head, tail in rows]
    return {name: int(seconds) for name, seconds, _ in names}, {name: set(below) for name, _, below in names}


def make_top(folder):
    """Makes a repository whose launcher.py, and whose programs once they are built, print who they are and their words."""
    shutil.copy(TOP / "wfhost", folder / "wfhost")
    (folder / "launcher.py").write_text('import sys; print("launcher", *sys.argv[2:])\n', encoding="utf-8")
    (folder / "crates/low/src").mkdir(parents=True)
    for file in ("HANDLES", "crates.txt", "crates/low/src/lib.rt"):
        (folder / file).touch()
        os.utime(folder / file, (2000, 2000))
    os.utime(folder / "crates/low/src", (2000, 2000))


def build(folder, program, is_old):
    """Makes a program there that seems built, before or after the sources were changed."""
    named = folder / "crates" / program / "out/launcher.named/wfhost"
    named.parent.mkdir(parents=True)
    named.write_text(f'#!/bin/sh\necho {program} "$@"\n', encoding="utf-8")
    named.chmod(0o755)
    stamp = named.parent.parent / "launcher.stamp"
    stamp.touch()
    os.utime(stamp, (1000, 1000) if is_old else (3000, 3000))


def run_in(folder, words, environment=None):
    """Runs `./wfhost` there with these words."""
    command, pipe = ["sh", folder / "wfhost", *words.split()], subprocess.PIPE
    return subprocess.run(command, env=environment, stdout=pipe, stderr=pipe, timeout=LIMIT_SECONDS, encoding="utf-8")


def started(built, old, words):
    """What `./wfhost` starts with these words, where these programs are built, and those older than a source."""
    with tempfile.TemporaryDirectory() as made:
        folder = Path(made)
        make_top(folder)
        for program in built:
            build(folder, program, program in old)
        return run_in(folder, words).stdout.strip()


def refused(words):
    """What `./wfhost` prints with these words, its status, and how many lines say why."""
    with tempfile.TemporaryDirectory() as made:
        folder = Path(made)
        make_top(folder)
        ran = run_in(folder, words)
    return ran.stdout, ran.returncode, len(ran.stderr.splitlines())


def builds():
    """Yields the rows of BUILDS, one after the other in one repository."""
    with tempfile.TemporaryDirectory() as made:
        folder = Path(made)
        for file in ("wfhost", "launcher.py", "quick_rt.py"):
            shutil.copy(TOP / file, folder / file)
        for file, text in (("crates.txt", CRATES_TXT), ("HANDLES", ""), ("costs.txt", ""), ("bin/rt", RT), ("notes", "")):
            (folder / file).parent.mkdir(exist_ok=True)
            (folder / file).write_text(text, encoding="utf-8")
        (folder / "bin/rt").chmod(0o755)
        for name in CRATES_TXT.replace(":", "").split():
            (folder / "crates" / name / "src").mkdir(parents=True, exist_ok=True)
            (folder / "crates" / name / "src/lib.rt").touch()
        for changed, fails, words, done, printed, status in BUILDS:
            if changed:
                (folder / "crates" / changed / "src/lib.rt").touch()
            (folder / "notes").write_text("", encoding="utf-8")
            told = {"PATH": f"{folder / 'bin'}:{os.environ['PATH']}", "NOTES": str(folder / "notes"), "FAILS": fails}
            ran = run_in(folder, words, {**os.environ, **told})
            notes = ", ".join((folder / "notes").read_text(encoding="utf-8").split("\n")[:-1])
            yield f"./wfhost {words}, changed {changed}", (done, printed, status), (notes, ran.stdout.strip(), ran.returncode)
        rows = (folder / "crates/wfhost/out/launcher.costs").read_text(encoding="utf-8").split("\n")
        yield "what was measured", MEASURED, [row.split()[0] for row in rows[:-1]]
        # `rt ci` takes none.
        yield "the links among the crates", [], [str(one) for one in (folder / "crates").rglob("*") if one.is_symlink()]


class Counted:
    """A crate as rt has it, which counts how often its files are read for a sum."""

    def __init__(self, name, *deps):
        self.name, self.deps, self.reads = name, deps, 0

    def stamp(self):
        self.reads += 1
        return f"{self.name}({' '.join(dep.stamp() for dep in self.deps)})"


class CountedOnce(Counted):
    stamp = quick_rt.once(Counted.stamp)


def sums():
    """Yields two sums of a crate from which two ways lead to the lowest, and how often that is read for both: by rt, and once for
    each sum."""
    for kind, reads in ((Counted, 4), (CountedOnce, 2)):
        low = kind("low")
        top = kind("top", kind("left", low), kind("right", low))
        yield f"two sums of a {kind.__name__}", ("top(left(low()) right(low()))", reads), (top.stamp() and top.stamp(), low.reads)


def parts_of_build():
    """Yields what the seconds of a build went to, by the times of its files."""
    with tempfile.TemporaryDirectory() as made:
        kept, now = Path(made, "out/incremental/kit"), 1_000
        kept.mkdir(parents=True)
        for name, size, seconds, _ in MODULES:
            now += seconds
            (kept / name).write_bytes(bytes(size))
            os.utime(kept / name, (now, now))
        came = [(costs.parted(module)[0], round(seconds)) for module, seconds, _ in costs.modules_of(Path(made))]
    yield "the parts of a build", [wanted for *_, wanted in MODULES if wanted], came


def tries():
    """Yields each row with what is wanted and what came."""
    for words, program in PROGRAMS:
        yield f"./wfhost {words}", f"launcher {program} {words}".strip(), started([], [], words)
    for built, old, words, wanted in STARTS:
        came = started(built, old, words)
        yield f"./wfhost {words}, built {built}, old {old}", wanted, came.split(" ")[0]
    for words in REFUSED:
        yield f"./wfhost {words}", ("", 2, 1), refused(words)
    yield from builds()
    yield from sums()
    for text, lanes, seconds in SCHEDULES:
        yield f"{lanes} lanes for {text}", seconds, round(launcher.simulated(*table_of(text), lanes))
    for text, lanes, begun, seconds in BEGUN:
        yield f"{lanes} lanes for {text}, begun {begun}", seconds, round(launcher.simulated(*table_of(text), lanes, begun))
    for text, chain in CHAINS:
        table, below = table_of(text)
        yield f"the chain of {text}", chain, " ".join(costs.chain_of(launcher.heights_of(table, below), below))
    yield from parts_of_build()
    page = "| `replay` | `wfhost_replay` | 1 | 2 |\n| `wfhost_replay` | 1 | 2 |\nno row | 1 | 2 |\n"
    minutes = " | ".join(costs.minutes_of(REPLAY))
    yield "minutes that are written", page.replace("1 | 2", minutes, 1), costs.with_minutes(page)
    for taken, factor in PACES:
        yield f"pace of {taken}", factor, round(launcher.Pace(table_of(EVEN)[0], taken).factor(), 3)
    for program in (ALL, REPLAY, FILES, TABLES, SERVE):
        names = [crate.name for crate in launcher.crates_of(program)]
        yield f"the last crate of {program}", program, names[-1]
    rows = (TOP / "crates.txt").read_text(encoding="utf-8").split("\n")
    listed = {row.split(":")[0].split()[0] for row in rows if ":" in row}
    unlisted = [row[0] for row in launcher.rows_in(launcher.TABLE) if row[0] not in listed]
    yield "the names in costs.txt that are no crates", [], unlisted


if __name__ == "__main__":
    asked = words_of(__doc__).parse_args()
    sys.exit(try_rows(((what, difference(came, wanted)) for what, wanted, came in tries()), asked))
