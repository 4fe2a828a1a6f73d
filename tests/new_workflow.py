#!/usr/bin/env python3
"""Tries `./new-workflow`: what it refuses, what it makes, of rows and of code, and that the scenarios of what it makes pass. With
`--program` the programs of what it makes are tried too, by their recorded history, which takes some minutes. The last line is
`N tried, M wrong`, and the status is 1 where one is wrong."""

import re
import subprocess
import sys
import tempfile
from itertools import chain
from pathlib import Path

from rows import TOP, try_rows, words_of

LIMIT_SECONDS = 1_800
# The options, and names that are refused, each with what is said of it.
BAD_NAMES = [([], "reminder", "is no name of a workflow type"), ([], "Order-Refund", "is no name of a workflow type"),
             ([], "StartTimer", "is a word that rows are written in"), ([], "WhRows", "there is a crate wh_rows already"),
             (["--code"], "Meter", "is a word that the step function uses"), (["--rows"], "OrderRefund", "Makes a folder")]
WORKER = ["args", "data/histories/order_refund.json", "src/main.rt", "stdout"]
# The options, and the files of what is made.
OWN = [([], {"order_refund": ["src/lib.rt", "src/tests.rt"], "order_refund_worker": WORKER}),
       (["--code"], {"order_refund": ["specs/Lib.antt", "specs/OrderRefund.antt", "src/lib.rt", "src/tests.rt"],
                     "order_refund_worker": WORKER})]
# The name of what is copied, outside of comments.
OTHER_NAME = re.compile(r"^(?!\s*(?://|--)).*\breminder(?![a-z])|Reminder|REMINDER", re.MULTILINE)


def run(words, folder):
    return subprocess.run(words, cwd=folder, capture_output=True, text=True, timeout=LIMIT_SECONDS)


def new_workflow(*words):
    return run([TOP / "new-workflow", *map(str, words)], TOP)


def refusals(room):
    """Yields what it should refuse, each with what is wrong."""
    for options, name, said in BAD_NAMES:
        ran = new_workflow(*options, room / "bad", name)
        is_right = ran.returncode == 1 and said in ran.stderr and not (room / "bad").exists()
        yield " ".join(["the name", *options, name]), "" if is_right else f"status {ran.returncode}: {ran.stderr}"
    (room / "full").mkdir()
    (room / "full/note").write_text("mine")
    ran = new_workflow(room / "full", "OrderRefund")
    is_right = ran.returncode == 1 and "not empty" in ran.stderr and len([*(room / "full").iterdir()]) == 1
    yield "a folder that is not empty", "" if is_right else f"status {ran.returncode}: {ran.stderr}"


def made(folder, options, own):
    """Yields what it should make, each with what is wrong."""
    ran = new_workflow(*options, folder, "OrderRefund")
    yield "a new folder", "" if ran.returncode == 0 and str(folder) in ran.stdout else ran.stderr
    for crate, files in own.items():
        place = folder / "crates" / crate
        found = sorted(str(file.relative_to(place)) for file in place.rglob("*") if file.is_file())
        yield f"the files of {crate}", "" if found == files else f"they are {found}"
        left = [file for file in found if OTHER_NAME.search((place / file).read_text())]
        yield f"the name in {crate}", "" if not left else f"another one stands in {left}"
    listed = re.findall(r"^(\w+):(.*)", (folder / "crates.txt").read_text(), re.MULTILINE)
    there = sorted(one.name for one in (folder / "crates").iterdir())
    yield "crates.txt", "" if sorted(name for name, _ in listed) == there else f"it has {listed}"
    for crate in own:
        sources = "".join(file.read_text() for file in (folder / "crates" / crate / "src").iterdir())
        lacking = {*re.findall(r"^use (\w+)::", sources, re.MULTILINE)} - {"std", "crate", *dict(listed)[crate].split()}
        yield f"the line of {crate}", "" if not lacking else f"it lacks {sorted(lacking)}"


def tried(folder, has_program):
    """Yields what should pass in the folder, each with what is wrong."""
    ran = run(["rt", "try", "--test"], folder / "crates/order_refund")
    yield "its scenarios", "" if "2 passed; 0 failed" in ran.stdout + ran.stderr else (ran.stdout + ran.stderr)[-2_000:]
    if has_program:
        worker = folder / "crates/order_refund_worker"
        ran = run(["rt", "try", "--", "replay", str(worker / "data/histories")], worker)
        said = ran.stdout + ran.stderr
        yield "its program", "" if (worker / "stdout").read_text() in said else said[-2_000:]


def main():
    parser = words_of(__doc__)
    parser.add_argument("--program", action="store_true", help="tries the program of what is made too")
    asked = parser.parse_args()
    with tempfile.TemporaryDirectory() as path:
        room, rows = Path(path), [refusals(Path(path))]
        for number, (options, own) in enumerate(OWN):
            folder = room / f"shop{number}"
            rows += [made(folder, options, own), tried(folder, asked.program)]
        return try_rows(chain(*rows), asked)


if __name__ == "__main__":
    sys.exit(main())
