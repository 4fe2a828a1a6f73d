#!/usr/bin/env python3
"""Tries edits of which it is known what comes of them, by the code of tests/edits.py, in a crate of three functions that it
writes to a folder of its own: what is wrong has to be refused, and what is right not, what doesn't compile is a bad edit,
and a goal that is open in another function refuses nothing. What is refused, and that alone, has to be kept, till a file is
changed. Where something fails that should not, each edit that is not tried for that has to count as wrong. What ends for
memory has to be tried again. The last line is `N tried, M wrong`."""

import contextlib
import io
import signal
import subprocess
import sys
import tempfile
import time
from itertools import chain
from pathlib import Path
from types import SimpleNamespace

import edit_trial
from edit_crates import COMMANDS, Crate, Kit
from edit_store import Store
from edit_trial import Check, Edit, Trial
from edits import Lanes, tell, try_all
from rows import difference, try_rows, words_of

NAME = "edited"
CODE = """//! Choices.
#![tactic(auto)]

ghost use Rattle.std.specs.Prelude.{◌≡◌};

/// Returns the first number.
fn first(one: u64, other: u64) -> u64
    ensures { result ≡ one }
{
    let _ = other;
    one
}

/// Returns the second number.
pub fn second(one: u64, other: u64) -> u64
    ensures { result ≡ other }
{
    first(other, one)
}

/// Returns the truth that it is given.
pub fn same(truth: bool) -> bool
    ensures { result ≡ truth }
{
    truth
}
"""
# What is to be said of each edit, with the old and the new text.
EDITS = {
    "chooses_a_truth": ("BAD EDIT: it doesn't compile", "first(other, one)", "first(other, true)"),
    "chooses_the_first": ("refused: edited::second leaves", "first(other, one)", "first(one, other)"),
    "names_a_local": ("NOT REFUSED", "    truth", "    let told = truth; told"),
    "says_less_to_its_callers": ("NOT REFUSED", "result ≡ one", "result ≡ result"),
    "changes_what_is_not_there": ("BAD EDIT: an old text stands in src/lib.rt 0 times", "first(one, one)", "one"),
}


# What a check says of an impl, with the module and the name of that, and what refuses an edit of its ghost items.
UNTRUE = "impl edited::{}: not proved: antt refuses `lawful-value`\nsrc/{}.rt:9:5: error: `lawful-value`: {}\n"
IMPLS = [
    (("KindSort", "lib", "the sides differ"), (), "edited::KindSort claims what does not hold, `lawful`"),
    (("KindSort", "lib", "`Kind` has no field `rank`"), (), None),
    (("sorts::KindSort", "sorts", "the sides differ"), ("sorts",), "edited::sorts::KindSort claims what does not hold, `lawful`"),
]


class Tried(Trial):
    """A trial that notes what is said of each edit."""

    def note(self, edit, text, is_wrong):
        self.said[edit.name] = text


class Failing:
    """A store that has all edits, and fails at one."""

    def holds(self, crate, edit):
        if edit.name == "names_a_local":
            raise KeyError(edit.name)
        return True


# The crates of a lane whose time is up, its store, what fails in it, and its last line.
LANES = [
    (["unreadable", NAME], None, "UnicodeDecodeError", "6 tried, 6 wrong (4 left, since the time was up)"),
    ([NAME], Failing(), "KeyError", "5 tried, 3 wrong"),
]


# How the tries of a check end, each with a status and what it says, how many there are to be, and whether functions have states.
OPEN = "fn edited::second: not proved: rattle did not prove `returns`\n"
SHORT = f"the operating system would not commit more memory\n{OPEN}"
ENDS = [
    ([(1, OPEN)], 1, True),
    ([(2, "")], 1, False),
    ([(-signal.SIGKILL, ""), (1, OPEN)], 2, True),
    ([(-signal.SIGABRT, SHORT), (3, SHORT), (1, OPEN)], 3, True),
    ([(1, SHORT)] * 9, edit_trial.TRIES, False),
]


def write(folder, code):
    """Writes the crate and its edits."""
    (folder / "src").mkdir(parents=True)
    (folder / "src/lib.rt").write_bytes(code)
    (folder / "edits").mkdir()
    for name, (_, old, new) in EDITS.items():
        text = f"file: src/lib.rt\nold: {old}\nnew: {new}\n"
        (folder / f"edits/{name}.edit").write_text(text, encoding="utf-8")


def crate_in(folder):
    """The crate in a folder."""
    crate = Crate(folder.name, [], {})
    crate.folder, crate.root, crate.kept = folder, "src/lib.rt", folder / "kept"
    return crate


def by_the_prover(room):
    """Yields what is wrong with what comes of each edit and with what is kept of it."""
    folder, kept, kit = room / NAME, room / "refused", Kit()
    kept.mkdir()
    crate = crate_in(folder)
    # Files that were touched since a gate began are not trusted.
    time.sleep(0.1)
    trial = Tried(crate, kit, room / "room", float("inf"), Store(kit, kept))
    trial.said = {}
    trial.try_all()
    for name, (wanted, *_) in EDITS.items():
        said = trial.said.get(name, "nothing")
        yield name, "" if said.startswith(wanted) else f"{said!r}, not {wanted!r}"
        is_kept = Store(kit, kept).holds(crate, Edit(folder / f"edits/{name}.edit"))
        yield f"{name}, whether that it was refused is kept", difference(is_kept, wanted.startswith("refused"))
    time.sleep(0.1)
    later = Store(kit, kept)
    (folder / "src/lib.rt").write_text(CODE.replace("Choices", "Some choices"), encoding="utf-8")
    for gate in (later, Store(kit, kept)):
        is_kept = any(gate.holds(crate, Edit(file)) for file in crate.edits())
        yield "whether a refusal counts that is of another text", difference(is_kept, False)


def by_lanes(room):
    """Yields what is wrong with what lanes say in which something fails."""
    write(room / "unreadable", b"\xff")
    for names, store, failure, line in LANES:
        crates, said = [crate_in(room / name) for name in names], io.StringIO()
        lanes = Lanes(crates, dict(zip(names, crates)), 1, False)
        with contextlib.redirect_stdout(said):
            try_all(lanes, None, room / "lane", 0, store)
            tell(lanes, None)
        lines = said.getvalue().splitlines()
        is_right = lines[-1] == line and any(one.startswith(failure) for one in lines)
        yield failure, "" if is_right else f"the last line was to be {line}, and all is\n{said.getvalue()}"


def by_impls(room):
    """Yields what is wrong with what is told of a check's words on impls."""
    for words, module, wanted in IMPLS:
        check = Check(crate_in(room / NAME), subprocess.CompletedProcess([], 1, UNTRUE.format(*words)))
        refusal = check.refusal(SimpleNamespace(changes={(module, ("KindSort", "ghost"))}))
        yield f"an impl, {words}", difference(refusal, wanted)


def by_ends(room):
    """Yields what is wrong with how often a check is tried that ends for memory."""
    for ends, *wanted in ENDS:
        ran = (subprocess.CompletedProcess([], *end) for end in ends)
        edit_trial.COMMANDS = SimpleNamespace(run=lambda *_: (next(ran), 1), are_over=True)
        trial = Trial(crate_in(room / NAME), SimpleNamespace(check=[], folder=room), room, float("inf"))
        states = trial.run({}).states
        yield f"checks that end so: {ends}", difference([trial.seconds, bool(states)], wanted)
    edit_trial.COMMANDS = COMMANDS


def main():
    asked = words_of(__doc__).parse_args()
    COMMANDS.be_guarded()
    with tempfile.TemporaryDirectory(prefix="edits-of-edits.") as made:
        room = Path(made)
        write(room / NAME, CODE.encode())
        return try_rows(chain(by_lanes(room), by_impls(room), by_ends(room), by_the_prover(room)), asked)


if __name__ == "__main__":
    sys.exit(main())
