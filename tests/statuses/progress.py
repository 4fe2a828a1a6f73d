"""What is told of progress, in lines of its own and on a terminal, and that the report is the same beside it."""

import os
import subprocess
import threading

from .rooms import NAP, NOT_JSON, link_to
from .runs import LIMIT_SECONDS
from .texts import MISSING, UNCOMPARED, cannot_read

# The places of the files that are no JSON, among those of a folder.
BAD = (10, 70, 71)
NOT_JSON_PLACE = "not JSON at line 2 column 3"
# After 64 files of 200 each: a batch has 64 files, or a twentieth of all where that is more.
TOLD = """wfhost: 64 of 200 files, 1 fault
wfhost: 128 of 200 files, 3 faults
wfhost: 192 of 200 files, 3 faults
"""


def name_of(place):
    """The name of the file at a place."""
    return f"{1000 + place}.json"


def files(count, bad=(), others=None):
    """So many files, some of which are no JSON, and others in their places."""
    return {name_of(place): NOT_JSON if place in bad else NAP for place in range(count)} | (others or {})


def report(count, bad=(), name=name_of):
    """What is reported of them."""
    lines = [f"{name(place)}: " + ("unreadable, not JSON" if place in bad else "ok, 2 tasks") for place in range(count)]
    return "\n".join([*lines, f"{count} files, {count - len(bad)} ok", ""])


def service(count, bad=()):
    """What is reported of a service of them."""
    lines = [
        f"{name_of(place)}: " + ("unreadable, not JSON" if place in bad else "2 tasks, 2 completed, 0 failed")
        for place in range(count)
    ]
    tasks = 2 * (count - len(bad))
    return "\n".join([*lines, f"taken {tasks}, completed {tasks}, failed 0, in hand 0", ""])


def json_report(count):
    """The same of good files as JSON."""
    lines = [f'{{"file":"{name_of(place)}","verdict":"ok","tasks":2,"live":false}}' for place in range(count)]
    return "\n".join([*lines, f'{{"files":{count},"ok":{count}}}', ""])


def causes(bad):
    """What is told of files that are no JSON."""
    return "".join(f"wfhost: {name_of(place)}: {NOT_JSON_PLACE}\n" for place in bad)


def progress(room):
    """Lines of progress, and the report beside them."""
    some, one_more, one_batch = (room.folder(files(count, bad)) for count, bad in ((200, BAD), (65, ()), (64, ())))
    many = room.folder(files(2000))
    gone = room.folder(files(200, BAD, {name_of(150): link_to("nowhere")}))
    by_hundreds = "".join(f"wfhost: {done} of 2000 files, 0 faults\n" for done in range(100, 2000, 100))
    paths = [f"{many}/{name_of(place)}" for place in range(65)]
    by_path = report(65, name=paths.__getitem__)
    one_line = "wfhost: 64 of 65 files, 0 faults\n"
    return [
        (["replay", some], 1, report(200, BAD), causes(BAD)),
        (["replay", some, "--progress"], 1, report(200, BAD), TOLD + causes(BAD)),
        (["replay", one_more, "--progress"], 0, report(65), one_line),
        (["replay", one_more, "--json", "--progress"], 0, json_report(65), one_line),
        (["replay", *paths, "--progress"], 0, by_path, one_line),
        (["replay", "--progress", one_batch], 0, report(64), ""),
        (["replay", many, "--progress"], 0, report(2000), by_hundreds),
        # What was told before a file that can't be read stays.
        (["replay", gone, "--progress"], 2, "", "".join(TOLD.splitlines(True)[:2]) + cannot_read(gone, MISSING, name_of(150))),
        (["replay", one_more, "--progress"], 0, report(65), None, {"error": "full"}),
        (["replay", one_more, "--progress"], 0, report(65), None, {"error": "broken"}),
        (["replay", one_more, "--progress"], 0, one_line + report(65), None, {"merged": True}),
        (["serve", some], 1, service(200, BAD), causes(BAD) + UNCOMPARED),
        (["serve", some, "--progress"], 1, service(200, BAD), TOLD + causes(BAD) + UNCOMPARED),
        (["serve", "--progress", one_more, "--workers", "3"], 0, service(65), one_line + UNCOMPARED),
        (["serve", "--progress", one_batch], 0, service(64), UNCOMPARED),
        (["serve", gone, "--progress"], 2, "", "".join(TOLD.splitlines(True)[:2]) + cannot_read(gone, MISSING, name_of(150))),
        (["serve", one_more, "--progress"], 0, service(65), None, {"error": "full"}),
        (["serve", one_more, "--progress"], 0, one_line + service(65) + UNCOMPARED, None, {"merged": True}),
    ]


def on_terminal(room, words):
    """The status and the standard output of a run whose standard error is a terminal, and what the terminal takes."""
    own, theirs = os.openpty()
    taken = []

    def take():
        while True:
            try:
                given = os.read(own, 65536)
            except OSError:
                return
            if not given:
                return
            taken.append(given)

    reader = threading.Thread(target=take)
    reader.start()
    try:
        ran = subprocess.run(
            [room.program, *words], stdin=subprocess.DEVNULL, stdout=subprocess.PIPE, stderr=theirs, timeout=LIMIT_SECONDS
        )
    finally:
        os.close(theirs)
        reader.join()
        os.close(own)
    return ran.returncode, ran.stdout.decode(), b"".join(taken).decode()


def terminals(room):
    """On a terminal a line is written over itself without being asked for, and erased before the report's own lines."""
    some, one_batch = room.folder(files(200, BAD)), room.folder(files(64))
    told = "".join(f"\r{line}\x1b[K" for line in TOLD.splitlines()) + "\r\x1b[K"
    # A terminal begins a line anew where one ends.
    ended, uncompared = causes(BAD).replace("\n", "\r\n"), UNCOMPARED.replace("\n", "\r\n")
    rows = [
        (["replay", some], (1, report(200, BAD), told + ended)),
        (["replay", some, "--progress"], (1, report(200, BAD), told + ended)),
        (["replay", one_batch], (0, report(64), "")),
        (["serve", some], (1, service(200, BAD), told + ended + uncompared)),
        (["serve", some, "--progress"], (1, service(200, BAD), told + ended + uncompared)),
        (["serve", one_batch], (0, service(64), uncompared)),
    ]
    for words, wanted in rows:
        found = on_terminal(room, words)
        yield [*words, "on a terminal"], "" if found == wanted else f"{found[0]}, {found[2]!r}, not {wanted[0]}, {wanted[2]!r}"
