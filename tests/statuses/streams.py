"""The largest files, streams that take nothing, and little memory."""

import os

from .rooms import NAP, NOT_JSON, padded
from .texts import NOT_TAKEN, NO_MEMORY, REPLAYED, SERVED, UNCOMPARED, cannot_read, long_report

MOST_BYTES = 67_108_864
# Too little for a file of this size, and enough for the program to start.
SMALL_MEMORY = 48 << 20
LARGE_FILE = b'{"events":[' + b'"' + b"x" * (60 << 20) + b'"]}'


def sizes(room):
    """Files of the largest size, of one byte more, and of much more. Of one that is too long nothing else is told, though it is
    no JSON."""
    well = room.folder({"nap.json": padded(MOST_BYTES)})
    over, huge = (
        room.folder({"nap.json": lambda path: path.write_bytes(NAP) and os.truncate(path, size)})
        for size in (MOST_BYTES + 1, 1 << 34)
    )
    unread = "nap.json: unreadable, file too long\n"
    served = f"{unread}taken 0, completed 0, failed 0, in hand 0\n"
    dash = REPLAYED.replace("nap.json", "-")
    return [
        (["replay", well], 0, REPLAYED, ""),
        (["serve", well], 0, SERVED, UNCOMPARED),
        (["replay", "-"], 0, dash, "", {"given": padded(MOST_BYTES)}),
        (["replay", over], 1, f"{unread}1 files, 0 ok\n", ""),
        (["serve", over], 1, served, ""),
        (["explain", f"{over}/nap.json"], 1, unread, ""),
        (["replay", "-"], 1, "-: unreadable, file too long\n1 files, 0 ok\n", "", {"given": padded(MOST_BYTES + 1)}),
        (["replay", huge], 1, f"{unread}1 files, 0 ok\n", "", {"memory": 1 << 33}),
        (["serve", huge], 1, served, "", {"memory": 1 << 33}),
        (["explain", f"{huge}/nap.json"], 1, unread, "", {"memory": 1 << 33}),
        # Of what has no end no more is read.
        (["replay", "-"], 1, "-: unreadable, file too long\n1 files, 0 ok\n", "", {"source": "/dev/zero", "memory": 1 << 30}),
        (["replay", "/dev/zero"], 1, "zero: unreadable, file too long\n1 files, 0 ok\n", "", {"memory": 1 << 30}),
    ]


def streams(room):
    """Streams that take nothing, memory that does not suffice, and a folder that is larger than memory."""
    well, bad, empty = (room.folder(files) for files in ({"nap.json": NAP}, {"nap.json": NOT_JSON}, {}))
    many = room.folder({f"{number}.json": NAP for number in range(1000, 5000)})
    large = room.folder({"large.json": LARGE_FILE})
    wide = room.folder({f"{number}.json": padded(200_000) for number in range(100, 200)})
    replayed = "".join(f"{number}.json: ok, 2 tasks\n" for number in range(100, 200)) + "100 files, 100 ok\n"
    replays = [["replay", well], ["replay", bad], ["replay", well, "--json"]]
    commands = [*replays, ["serve", well], ["explain", f"{well}/nap.json"], ["--help"]]
    return [
        *((words, 2, None, NOT_TAKEN, {"out": "full"}) for words in commands),
        # Of a pipe that nobody reads nothing is told, but what was told before stays.
        *((words, 2, None, "", {"out": "broken"}) for words in [*commands, ["replay", many]]),
        (["replay", empty], 2, None, f"wfhost: no .json file in {empty}\n", {"out": "broken"}),
        *(([command, well], 2, "", NOT_TAKEN, {"closed": 1}) for command in ("replay", "serve")),
        *(([command, "-"], 2, "", cannot_read("-", "the system can't read it"), {"closed": 0}) for command in ("replay", "explain")),
        (["serve", well], 0, SERVED, "", {"closed": 2}),
        (["replay", bad], 1, "nap.json: unreadable, not JSON\n1 files, 0 ok\n", None, {"error": "full"}),
        (["serve", well], 0, SERVED, None, {"error": "full"}),
        (["serve", well], 0, SERVED, None, {"error": "broken"}),
        (["replay"], 2, "", None, {"error": "full"}),
        (["replay", wide], 0, replayed, "", {"data": 6 << 20}),
        (["serve", wide], 0, long_report(100, 2), UNCOMPARED, {"data": 6 << 20}),
        (["replay", large], 2, "", NO_MEMORY, {"memory": SMALL_MEMORY}),
        (["serve", large], 2, "", NO_MEMORY, {"memory": SMALL_MEMORY}),
        (["explain", f"{large}/large.json"], 2, "", NO_MEMORY, {"memory": SMALL_MEMORY}),
    ]
