"""What the scripts share that try rows: their command lines, what is wrong and how it is told, and the last line.

A row is a name with its faults, or with a call that finds them: a text, some texts, or nothing. A call may raise Wrong instead.
What is wrong is printed as `NAME: FAULT`; the last line is `N tried, M wrong`, and the exit status is 1 where a row is wrong, or
where there is none."""

import argparse
import os
import shutil
import sys
import time
from concurrent.futures import ThreadPoolExecutor
from pathlib import Path

TOP = Path(__file__).resolve().parent.parent
PROGRAM, ORDERS = (TOP / f"crates/{name}/out/{name}" for name in ("wfhost", "order_worker"))
sys.dont_write_bytecode = True
# How many rows are tried at once that need a processor, and that wait most of the time.
PROCESSORS, WAITING = len(os.sched_getaffinity(0)), 4
# How many faults of a row are printed.
MOST_FAULTS = 20


class Wrong(Exception):
    """What is not as it should be."""


# What is wanted.


def difference(found, wanted):
    """What is wrong where this is found and that is wanted."""
    return "" if found == wanted else f"{found!r}, not {wanted!r}"


def same(what, found, wanted):
    if found != wanted:
        raise Wrong(f"{what}: {difference(found, wanted)}")


def has(what, found, wanted):
    if wanted not in found:
        raise Wrong(f"{what}: {found!r}, without {wanted!r}")


def soon(what, condition, within=10.0):
    """Waits until the condition holds: after how many seconds it does."""
    begun = time.monotonic()
    while not condition():
        if time.monotonic() - begun > within:
            raise Wrong(f"not within {within} s: {what}")
        time.sleep(0.01)
    return time.monotonic() - begun


# Command lines.


def words_of(doc):
    """The command line of a script, whose help is the script's own text."""
    parser = argparse.ArgumentParser(description=doc, formatter_class=argparse.RawDescriptionHelpFormatter)
    parser.add_argument("--times", action="store_true", help="prints how many seconds each row takes")
    return parser


def pick(parser, rows, names):
    """Those of the rows that are named, or all: rows by their names."""
    for name in names:
        if name not in rows:
            parser.error(f"there is no {name}, but {', '.join(rows)}")
    return {name: rows[name] for name in names} or rows


def need(parser, program):
    """Ends the script where a program is not there."""
    if not shutil.which(str(program)):
        parser.error(f"{program} is not there: `./wfhost --build` builds it")


# Rows.


def faults_in(found):
    """The faults, or those that a call finds, as a list."""
    try:
        found = found() if callable(found) else found
        return [found] if isinstance(found, str) and found else list(found or ())
    except Wrong as why:
        return [str(why)]
    except Exception as why:
        return [f"{type(why).__name__}: {why}"]


def outcomes(rows, at_once):
    """Yields the name of each row, its faults, and the seconds that it took."""

    def timed(row):
        begun = time.monotonic()
        return row[0], faults_in(row[1]), time.monotonic() - begun

    if at_once > 1:
        with ThreadPoolExecutor(at_once) as threads:
            yield from threads.map(timed, rows)
        return
    begun = time.monotonic()
    for name, found in rows:
        yield name, faults_in(found), time.monotonic() - begun
        begun = time.monotonic()


def try_rows(rows, asked, at_once=1, note=""):
    """Tries rows, so many at once, and gives the exit status. The note follows on the last line."""
    count = wrong = 0
    for name, faults, took in outcomes(rows, at_once):
        count, wrong = count + 1, wrong + bool(faults)
        if asked.times:
            print(f"{name}: {took:.1f} s", flush=True)
        for fault in faults[:MOST_FAULTS]:
            print(f"{name}: {fault}", flush=True)
        if len(faults) > MOST_FAULTS:
            print(f"{name}: and {len(faults) - MOST_FAULTS} more", flush=True)
    print(f"{count} tried, {wrong} wrong{note}")
    return 1 if wrong or not count else 0


class Tries:
    """Functions that are rows: those of the gate, those that take long, and those that are left out, each with the reason."""

    def __init__(self, doc, gate, long=(), left_out=None):
        self.gate, self.long, self.left_out = ({one.__name__: one for one in some} for some in (gate, long, left_out or {}))
        self.reasons = left_out or {}
        self.parser = words_of(doc)
        self.parser.add_argument("--long", action="store_true", help="also those that take long")
        self.parser.add_argument("names", nargs="*", metavar="NAME", help="names of tries, all where there is none")

    def run(self, asked):
        """Tries those that are asked for, or all, and gives the exit status."""
        chosen = pick(self.parser, {**self.gate, **self.long, **self.left_out}, asked.names)
        if not asked.names:
            chosen = {**self.gate, **(self.long if asked.long else {})}
            for one, why in self.reasons.items():
                print(f"{one.__name__} is left out: {why}")
        return try_rows(chosen.items(), asked, WAITING)
