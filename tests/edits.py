#!/usr/bin/env python3
"""Tries the edits crates/*/edits/*.edit, or those of the crates that are named: the prover has to refuse each.

Edits of different functions of a crate are tried in one round: one check of a copy of its code, with all of them in
place, over the libraries as they are built. It takes each other function by its contract. An edit is refused where a
function that it changes has an open goal. A function that calls one that is not proved waits for it, so its edit goes into
the next round. The ghost items of an impl count as one function more: an edit of them, or of a constant that those of an
impl for the same type name, is also refused where one of them does not hold. An edit is wrong that is not refused, can't be
applied or doesn't compile, or fails only because a proof file cites a name that it took away.

`rt ci` and `./wfhost` leave the libraries that this needs; any other is built first. With `--seconds N` no round begins
after so many seconds, and the last line says how many edits are left. That line is `N tried, M wrong`, and the status is 0
where edits were tried and none is wrong.

With `--beside FILE` it runs beside `rt ci`, of which it reads on its standard input what that says of each crate, up to a
line `end`. A crate's edits begin when the libraries below are proved in that run. The last line goes to FILE. What an
earlier gate refused is not tried where nothing that it stands on has changed, and what this one refuses is kept for later
ones; with `--anew` neither."""

import _thread
import argparse
import contextlib
import os
import re
import shutil
import signal
import sys
import tempfile
import threading
import time
import traceback
from pathlib import Path

from edit_crates import COMMANDS, CRATES, Ended, Kit, Wrong, build, crates_listed, say
from edit_store import Store
from edit_trial import Trial

sys.path.insert(0, str(CRATES.parent))
import launcher

# What `rt ci` says of a crate's proof.
OF_CRATE = re.compile(r"rt: (\w+) (proved$|is kept\b|NOT PROVED\b)")
# The memory that is to be free where a check begins beside `rt ci`, or later, and what one takes that began just now, in KiB.
FREE_BESIDE, FREE, TAKEN = 6_000_000, 4_000_000, 1_500_000
# `rt ci` comes first, and then the tables: checks of edits fill what they leave, and where memory ends one of them is killed.
LAST = ["sh", "-c", '{ echo 1000 >/proc/self/oom_score_adj; } 2>/dev/null; exec nice -n 19 "$@"', "sh"]
# The seconds in which a check comes to take most of its memory.
GROWS = 30
A_DAY = 86_400


class Lanes:
    """The crates whose edits wait for the libraries below, the checks that run, and what came of the edits."""

    def __init__(self, crates, listed, count, is_beside):
        self.edits = {crate: len(crate.edits()) for crate in crates}
        self.waiting = sorted(crates, key=self.work, reverse=True)
        self.listed, self.count, self.has_ended = listed, count, not is_beside
        self.proved = set() if is_beside else {*listed.values()}
        self.begun, self.checks, self.changed = [], 0, threading.Condition()
        # Whether the check that runs is to have none beside it.
        self.is_alone = False
        self.refused = self.wrong = self.left = 0
        # The edits that are wrong, by the names of crate and edit, and the crates of which some were not tried.
        self.named = []

    def work(self, crate):
        """About how long the edits of a crate take: each is refused, and each round reads the libraries below."""
        return self.edits[crate] * (20 + len(crate.below))

    def follow(self, said, folder):
        """Does what `rt ci` says, and has all edits begin at its end."""
        try:
            self.hear(said, folder)
        except Ended:
            return
        except Exception:
            say(f"what `rt ci` says can't be followed:\n{traceback.format_exc()}")
        with self.changed:
            self.has_ended = True
            self.changed.notify_all()

    def hear(self, said, folder):
        """Reads what `rt ci` says, and holds the libraries that it proves."""
        for line in iter(said.readline, "end\n"):
            of_crate = OF_CRATE.match(line)
            if not line:
                # What runs this is gone.
                os.kill(os.getpid(), signal.SIGTERM)
                raise Ended
            if of_crate and of_crate[2] != "NOT PROVED" and of_crate[1] in self.listed:
                self.hold(self.listed[of_crate[1]], folder)
        if not self.proved:
            self.build()

    def hold(self, crate, folder):
        """Notes that a crate is proved. Its library is in place, if it is one."""
        with self.changed:
            if COMMANDS.are_over:
                raise Ended
            try:
                if crate.library.exists():
                    crate.hold_library(folder)
            except OSError as why:
                say(f"{crate.name}: its library can't be held: {why}")
                return
            self.proved.add(crate)
            self.changed.notify_all()

    def build(self):
        """Where `rt ci` said nothing of any crate, takes the libraries that are built, or builds them."""
        below = [*dict.fromkeys(one for crate in [*self.waiting] for one in crate.below)]
        try:
            build(below)
            self.proved |= {*self.listed.values()}
        except Wrong as why:
            say(why)

    def next_crate(self):
        """The next crate whose edits can be tried, or can't be any more; None if there is no other."""
        with self.changed:
            while self.waiting:
                ready = [crate for crate in self.waiting if self.has_ended or self.proved.issuperset(crate.below)]
                if ready:
                    self.waiting.remove(ready[0])
                    return ready[0]
                self.changed.wait()
        return None

    def note(self, crate, trial):
        """Counts what came of the edits of a crate. Each is wrong that is neither refused nor left, whatever it is that keeps it
        from being tried."""
        refused, names, left = (trial.refused, trial.wrong, trial.left) if trial else (0, [], 0)
        wrong = max(len(names), self.edits[crate] - refused - left)
        with self.changed:
            self.refused, self.wrong, self.left = self.refused + refused, self.wrong + wrong, self.left + left
            self.named += [f"{crate.name}/{name}" for name in names]
            self.named += [f"{wrong - len(names)} of {crate.name} that were not tried"] * (wrong > len(names))

    def end(self):
        """Ends all that runs, and lets nothing begin."""
        COMMANDS.end()
        with self.changed:
            self.waiting.clear()
            self.changed.notify_all()

    @contextlib.contextmanager
    def check(self, ended):
        """A check, which begins when there is memory for it, and which ended so many times for lack of it."""
        with self.changed:
            while not self.has_room(ended) and not COMMANDS.are_over:
                self.changed.wait(2)
            self.checks += 1
            self.is_alone = ended > 1
            self.begun.append(time.monotonic())
        try:
            yield
        finally:
            with self.changed:
                self.checks -= 1
                self.is_alone = False
                self.changed.notify_all()

    def has_room(self, ended):
        """Whether there is memory for one check more. One that ended twice for memory runs alone, since where memory is short the
        largest check is killed, each time the same."""
        if self.has_ended and not self.checks:
            return True
        if ended > 1 or self.is_alone or not self.has_ended and self.checks >= max(1, self.count - 1):
            return False
        self.begun = [begun for begun in self.begun if time.monotonic() - begun < GROWS]
        return launcher.free_memory() > (FREE if self.has_ended else FREE_BESIDE) + TAKEN * len(self.begun)


def try_crate(crate, kit, room, until, store, lanes):
    """Tries the edits of a crate until a time."""
    trial = None
    try:
        lacking = [one.name for one in crate.below if one not in lanes.proved]
        if lacking:
            raise Wrong(f"its edits are not tried, since the library {lacking[0]} is not proved")
        trial = Trial(crate, kit, room / crate.name, until, store, lanes.check)
        trial.try_all()
    except (Wrong, OSError) as why:
        say(f"{crate.name}: {why}")
    except Ended:
        pass
    except Exception:
        say(f"{crate.name}: its edits can't be tried:\n{traceback.format_exc()}")
    lanes.note(crate, trial)
    # What its checks wrote is hundreds of megabytes for a large crate.
    shutil.rmtree(room / crate.name, ignore_errors=True)


def try_all(lanes, *given):
    """Tries the edits of one crate after another, in as many lanes as there are processors."""

    def lane():
        for crate in iter(lanes.next_crate, None):
            try_crate(crate, *given, lanes)

    running = [threading.Thread(target=lane) for _ in range(lanes.count)]
    for one in running:
        one.start()
    for one in running:
        one.join()


def end_by_signals(lanes):
    """Has a signal that ends this end what runs. Then no lane goes on, and the room is removed. Returns the list of the signals
    that came."""
    came = []

    def end(number, _):
        came.append(number)
        # What is interrupted here may hold what the end waits for.
        _thread.start_new_thread(lanes.end, ())

    for number in (signal.SIGINT, signal.SIGTERM, signal.SIGHUP):
        signal.signal(number, end)
    return came


def store_of(kit):
    """A store of what is refused, or None where there can be none."""
    try:
        return Store(kit)
    except OSError as why:
        say(f"nothing is kept, and nothing taken: {why}")
        return None


def place_of_rooms():
    """A folder for what checks write, on the disk of the libraries where there is one that `rt ci` does not look at."""
    git = CRATES.parent / ".git"
    if not git.is_dir():
        return None
    for room in git.glob("edits.*"):
        # A run that was killed left it.
        with contextlib.suppress(OSError):
            if time.time() - room.stat().st_mtime > A_DAY:
                shutil.rmtree(room, ignore_errors=True)
    return git


def words():
    """The words of the command."""
    parser = argparse.ArgumentParser(usage=__doc__)
    parser.add_argument("--seconds", type=int, default=None)
    parser.add_argument("--beside", type=Path, metavar="FILE")
    parser.add_argument("--anew", action="store_true")
    parser.add_argument("crates", nargs="*")
    return parser.parse_args()


def chosen(names, listed):
    """The crates with these names, or all that have edits."""
    names = [*dict.fromkeys(names)] or [name for name, crate in listed.items() if crate.edits()]
    for name in names:
        if name not in listed or not listed[name].edits():
            sys.exit(f"edits: no crates/{name}/edits")
    return [listed[name] for name in names]


def begin(given, crates, lanes, kit, room):
    """Builds the libraries, or begins to follow `rt ci`."""
    if not given.beside:
        build([*dict.fromkeys(one for crate in crates for one in crate.below)])
        return
    kit.check = [*LAST, *kit.check]
    for crate in crates:
        crate.kept = Path(os.devnull)
    threading.Thread(target=lanes.follow, args=(sys.stdin, room / "libraries"), daemon=True).start()


def main():
    given, listed = words(), crates_listed()
    until = float("inf") if given.seconds is None else time.monotonic() + given.seconds
    crates, kit = chosen(given.crates, listed), Kit()
    lanes = Lanes(crates, listed, launcher.processors(), given.beside)
    COMMANDS.be_guarded()
    came, why = end_by_signals(lanes), None
    room = Path(tempfile.mkdtemp(dir=place_of_rooms(), prefix="edits."))
    try:
        begin(given, crates, lanes, kit, room)
        try_all(lanes, kit, room, until, store_of(kit) if given.beside and not given.anew else None)
    except (Wrong, Ended) as one:
        why = one
    finally:
        with lanes.changed:
            shutil.rmtree(room, ignore_errors=True)
    if why and not came:
        say(why)
    status = 128 + came[0] if came else 1 if why else tell(lanes, given.beside)
    # A thread may still wait for what `rt ci` says.
    sys.stdout.flush()
    os._exit(status)


def tell(lanes, file):
    """Says the last line, or writes it to a file, and returns the status. What no lane counted is wrong."""
    refused, left = lanes.refused, lanes.left
    wrong = max(lanes.wrong, sum(lanes.edits.values()) - refused - left)
    if lanes.named:
        # Their own lines are among those of all others.
        say(f"wrong: {', '.join(lanes.named)}")
    line = f"{refused + wrong} tried, {wrong} wrong" + f" ({left} left, since the time was up)" * bool(left)
    if left and not refused + wrong:
        line = "skipped: no time was left"
    if file:
        file.write_text(f"{line}\n", encoding="utf-8")
    else:
        print(line)
    return 1 if wrong or not refused and not left else 0


if __name__ == "__main__":
    main()
