"""Which files are read, in which order, and how they are called; links, pipes and rights."""

import os
from pathlib import Path

from .rooms import NAP, NOT_JSON, link_to
from .texts import (
    EXPLAINED,
    FORBIDDEN,
    IS_FOLDER,
    MISSING,
    NO_FILE,
    NO_FOLDER,
    REPLAYED,
    SERVED,
    UNCOMPARED,
    cannot_read,
)

# Names in the order of their bytes. Those that end in `.json` are read.
NAMES = [".json", "B.json", "C.JSON", "a-b.json", "a.json", "ab.json", "d.json.bak", "e.txt", "json", "xjson"]
READ_NAMES = [".json", "B.json", "a-b.json", "a.json", "ab.json"]
# By the numbers of their characters as Windows and Java order them, the last two would stand the other way round.
STRANGE_NAMES = {"\x1f\n.json": NAP, '"\\.json': NAP, "\uffff.json": NAP, "\U00010000.json": b"5"}
REPLAYED_STRANGE = r"""??.json: ok, 2 tasks
"\.json: ok, 2 tasks
?.json: ok, 2 tasks
?.json: unreadable, no events
4 files, 3 ok
"""
LONG_NAME = "n" * 250 + ".json"


def files(room):
    """Which files are read, in which order, and how they are called."""
    well, empty = room.folder({"nap.json": NAP}), room.folder({})
    bad = room.folder({"nap.json": b"{"})
    mixed = room.folder({name: NAP for name in reversed(NAMES)} | {"folder": lambda path: path.mkdir()})
    Path(mixed, "folder", "inner.json").write_bytes(NAP)
    strange = room.folder(dict(reversed(STRANGE_NAMES.items())))
    strange_json = "".join(
        f'{{"file":"{name}","verdict":{verdict}}}\n'
        for name, verdict in [
            ("??.json", '"ok","tasks":2,"live":false'),
            (r"\"\\.json", '"ok","tasks":2,"live":false'),
            ("?.json", '"ok","tasks":2,"live":false'),
            ("?.json", '"unreadable","fault":"no events"'),
        ]
    )
    long = room.folder({LONG_NAME: NAP})
    long_path = f"{long}/{LONG_NAME}"
    replayed, _, replay_stopped = many_texts(1000, 3000)
    _, served, stopped = many_texts(1000, 1200)
    paths = [well, f"{mixed}/C.JSON", "-", empty]
    several = f"{well}/nap.json: ok, 2 tasks\n{mixed}/C.JSON: ok, 2 tasks\n-: ok, 2 tasks\n3 files, 3 ok\n"
    twice = f"{mixed}/a.json: ok, 2 tasks\n{well}/nap.json: ok, 2 tasks\n{mixed}/a.json: ok, 2 tasks\n3 files, 3 ok\n"
    none = f"wfhost: no .json file in {empty}\n"
    both_bad = f"{bad}/nap.json: unreadable, not JSON\n-: unreadable, not JSON\n2 files, 0 ok\n"
    both_stopped = f"wfhost: {bad}/nap.json: not JSON at line 1 column 1\nwfhost: -: not JSON at line 1 column 0\n"
    listed = "".join(f"{name}: ok, 2 tasks\n" for name in READ_NAMES) + "5 files, 5 ok\n"
    served_names = "".join(f"{name}: 2 tasks, 2 completed, 0 failed\n" for name in READ_NAMES)
    dash = room.folder({"-": lambda path: path.mkdir()})
    dash_file = room.folder({"-": NAP})
    return [
        (["replay", mixed], 0, listed, ""),
        (["serve", mixed], 0, f"{served_names}taken 10, completed 10, failed 0, in hand 0\n", UNCOMPARED),
        (["replay", "."], 0, listed, "", {"folder": mixed}),
        (["replay", strange], 1, REPLAYED_STRANGE, ""),
        (["replay", strange, "--json"], 1, f'{strange_json}{{"files":4,"ok":3}}\n', ""),
        (["replay", long], 0, f"{LONG_NAME}: ok, 2 tasks\n1 files, 1 ok\n", ""),
        (["replay", long_path, "-"], 0, f"{long_path[:255]}: ok, 2 tasks\n-: ok, 2 tasks\n2 files, 2 ok\n", "", {"given": NAP}),
        (["replay", many_files(room, 1000, 3000)], 1, replayed, replay_stopped),
        (["serve", many_files(room, 1000, 1200), "--workers", "3"], 1, served, stopped + UNCOMPARED),
        (["replay", *paths], 0, several, none, {"given": NAP}),
        (["replay", f"{mixed}/a.json", well, f"{mixed}/a.json"], 0, twice, ""),
        (["replay", empty], 0, "0 files, 0 ok\n", none),
        (["replay", empty, "--require-files"], 1, "0 files, 0 ok\n", none),
        (["replay", empty, well, "--require-files"], 0, f"{well}/nap.json: ok, 2 tasks\n1 files, 1 ok\n", none),
        (["serve", empty, "--require-files"], 1, "taken 0, completed 0, failed 0, in hand 0\n", none),
        (["replay", empty, empty], 0, "0 files, 0 ok\n", none + none),
        (["replay", empty, "--json"], 0, '{"files":0,"ok":0}\n', none),
        (["serve", empty], 0, "taken 0, completed 0, failed 0, in hand 0\n", none),
        (["replay", bad, "-"], 1, both_bad, both_stopped),
        (["replay", "-"], 0, REPLAYED.replace("nap.json", "-"), "", {"given": NAP}),
        (["replay", "-"], 0, REPLAYED.replace("nap.json", "-"), "", {"given": NAP, "folder": dash}),
        (["replay", "./-"], 0, REPLAYED.replace("nap.json", "-"), "", {"given": b"5", "folder": dash_file}),
        (["explain", "-"], 0, EXPLAINED.replace("nap.json", "-"), "", {"given": NAP}),
        (["explain", "-"], 1, "-: unreadable, not JSON\n", "wfhost: -: not JSON at line 1 column 0\n"),
    ]


def many_files(room, first, end):
    """A folder with files of these numbers, made in another order than theirs, of which each seventh is no JSON."""
    numbers = sorted(range(first, end), key=lambda number: number * 7919 % 10007)
    return room.folder({f"{number}.json": NOT_JSON if number % 7 == 0 else NAP for number in numbers})


def many_texts(first, end):
    """The reports of such a folder, and what is said of the files that are no JSON."""
    replayed, served, stopped, good = "", "", "", 0
    for number in range(first, end):
        if number % 7 == 0:
            replayed += f"{number}.json: unreadable, not JSON\n"
            served += f"{number}.json: unreadable, not JSON\n"
            stopped += f"wfhost: {number}.json: not JSON at line 2 column 3\n"
        else:
            good += 1
            replayed += f"{number}.json: ok, 2 tasks\n"
            served += f"{number}.json: 2 tasks, 2 completed, 0 failed\n"
    replayed += f"{end - first} files, {good} ok\n"
    served += f"taken {2 * good}, completed {2 * good}, failed 0, in hand 0\n"
    return replayed, served, stopped


def odd_names(room):
    """Files whose names are no UTF-8 can't be opened: each is told, with `?` for each byte that is no text, and all others are
    read. A name that is too long is told so."""
    well, empty = room.folder({"nap.json": NAP}), room.folder({})
    # In the order of their bytes, and then such that are not read.
    read = {b"B.json": "B.json", b"caf?.json": "caf?.json", b"d\xc3\xa9.json": "d?.json"}
    told = {b"caf\xe9.json": "caf?.json", b"\x1b\xc3.json": "??.json", b"\xe2\x82x.json": "??x.json", b"\xff\xfe.json": "??.json"}
    others = [b"z\xff", b"\xff.JSON", b"\xffjson", b"\xff.json.bak"]
    files = {os.fsdecode(name): NAP for name in reversed([*read, *told, *others])}
    odd, only = room.folder(files), room.folder({os.fsdecode(b"\xff.json"): NAP})
    unread = room.folder({os.fsdecode(name): NAP for name in others} | {"nap.json": NAP})
    names = list(read.values())
    why = "its name is no UTF-8 text\n"
    left = "".join(f"wfhost: cannot read {odd}/{told[name]}: {why}" for name in sorted(told))
    replayed = "".join(f"{name}: ok, 2 tasks\n" for name in names) + "3 files, 3 ok\n"
    replayed_json = "".join(f'{{"file":"{name}","verdict":"ok","tasks":2,"live":false}}\n' for name in names)
    served = "".join(f"{name}: 2 tasks, 2 completed, 0 failed\n" for name in names)
    paths = f"{well}/nap.json: ok, 2 tasks\n" + "".join(f"{odd}/{name}: ok, 2 tasks\n" for name in names) + "4 files, 4 ok\n"
    none, alone = f"wfhost: no .json file in {empty}\n", f"wfhost: cannot read {only}/?.json: {why}"
    long_name, long_path = f"{well}/{'n' * 300}", "n/" * 2100
    return [
        (["replay", odd], 1, replayed, left),
        (["replay", odd], 1, left + replayed, "", {"merged": True}),
        (["replay", odd, "--json"], 1, replayed_json + '{"files":3,"ok":3}\n', left),
        (["replay", ".", "--require-files"], 1, replayed, left.replace(odd, "."), {"folder": odd}),
        (["serve", odd], 1, f"{served}taken 6, completed 6, failed 0, in hand 0\n", left + UNCOMPARED),
        (["serve", odd, "--workers", "3"], 1, f"{served}taken 6, completed 6, failed 0, in hand 0\n", left + UNCOMPARED),
        (["replay", well, odd, empty], 1, paths, left + none),
        (["replay", empty, only], 1, "0 files, 0 ok\n", none + alone),
        (["replay", only, well], 1, f"{well}/nap.json: ok, 2 tasks\n1 files, 1 ok\n", alone),
        *((["replay", only, *words], 1, "0 files, 0 ok\n", alone) for words in ([], ["--require-files"])),
        (["serve", only], 1, "taken 0, completed 0, failed 0, in hand 0\n", alone),
        (["replay", unread], 0, REPLAYED, ""),
        (["serve", unread], 0, SERVED, UNCOMPARED),
        ([b"explain", os.fsencode(odd) + b"/caf\xe9.json"], 2, "", "wfhost: arguments must be UTF-8 text\n"),
        *(
            ([command, path], 2, "", cannot_read(path, "a name is too long"))
            for command in ("replay", "explain", "serve")
            for path in (long_name, long_path)
        ),
    ]


def links_and_pipes(room):
    """Links are followed. What is no file then can't be read."""
    well = room.folder({"nap.json": NAP})
    linked = room.folder({"nap.json": link_to(f"{well}/nap.json"), "other": link_to(well)})
    unread = [
        (lambda path: path.mkdir(), IS_FOLDER),
        (os.mkfifo, NO_FILE),
        (link_to("nowhere"), MISSING),
        (link_to("x.json"), "too many links"),
        (link_to(well), IS_FOLDER),
        (link_to("/dev/zero"), NO_FILE),
    ]
    long = "unreadable, file too long\n"
    missing = str(room.new())
    cases = [
        (["replay", linked], 0, REPLAYED, ""),
        (["serve", linked], 0, SERVED, UNCOMPARED),
        (["replay", f"{linked}/other"], 0, REPLAYED, ""),
        (["serve", f"{linked}/other"], 0, SERVED, UNCOMPARED),
        (["explain", f"{linked}/nap.json"], 0, EXPLAINED, ""),
        (["serve", "/dev/zero"], 2, "", cannot_read("/dev/zero", NO_FOLDER)),
        *(([command, missing], 2, "", cannot_read(missing, MISSING)) for command in ("replay", "explain", "serve")),
        *(([command, ""], 2, "", cannot_read("", MISSING)) for command in ("replay", "explain", "serve")),
        (["explain", well], 2, "", cannot_read(well, IS_FOLDER)),
        (["serve", f"{well}/nap.json"], 2, "", cannot_read(f"{well}/nap.json", NO_FOLDER)),
        (["replay", well, missing], 2, "", cannot_read(missing, MISSING)),
        # A pipe or a device that is named itself is read.
        (["replay", "/dev/zero"], 1, f"zero: {long}1 files, 0 ok\n", ""),
        (["explain", "/dev/zero"], 1, f"zero: {long}", ""),
        (["replay", "/dev/stdin"], 0, REPLAYED.replace("nap.json", "stdin"), "", {"given": NAP}),
        (["explain", "/dev/stdin"], 0, EXPLAINED.replace("nap.json", "stdin"), "", {"given": NAP}),
    ]
    for make, why in unread:
        folder = room.folder({"a.json": NAP, "x.json": make, "y.json": link_to("nowhere"), "z.json": NOT_JSON})
        cases += [
            (["replay", folder], 2, "", cannot_read(folder, why, "x.json")),
            (["serve", folder, "--workers", "2"], 2, "", cannot_read(folder, why, "x.json")),
            (["replay", missing, folder], 2, "", cannot_read(missing, MISSING)),
            (["replay", well, folder], 2, "", cannot_read(folder, why, "x.json")),
        ]
        if why != NO_FILE:
            cases.append((["explain", f"{folder}/x.json"], 2, "", cannot_read(f"{folder}/x.json", why)))
    strange = room.folder({"\x1b.json": link_to("nowhere")})
    return [*cases, (["replay", strange], 2, "", cannot_read(strange, MISSING, "?.json"))]


def rights(room):
    """What is closed to the one who reads can't be read."""
    well = room.folder({"nap.json": NAP})
    folder, file = room.folder({"nap.json": NAP}), room.folder({"a.json": NAP, "b.json": NAP, "c.json": NOT_JSON})
    Path(folder).chmod(0)
    Path(file, "b.json").chmod(0)
    entry = cannot_read(file, FORBIDDEN, "b.json")
    return [
        (["replay", well], 0, REPLAYED, "", {"as_nobody": True}),
        *((["replay", *words, folder], 2, "", cannot_read(folder, FORBIDDEN), {"as_nobody": True}) for words in ([], [well])),
        (["serve", folder], 2, "", cannot_read(folder, FORBIDDEN), {"as_nobody": True}),
        (["replay", file], 2, "", entry, {"as_nobody": True}),
        (["serve", file], 2, "", entry, {"as_nobody": True}),
        (["explain", f"{file}/b.json"], 2, "", cannot_read(f"{file}/b.json", FORBIDDEN), {"as_nobody": True}),
    ]
