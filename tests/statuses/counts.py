"""Where `--metrics` keeps counts: what is there already, and what is left there."""

import os
import stat
from pathlib import Path

from .rooms import link_to
from .runs import differs
from .texts import IS_FOLDER, IS_LINK, NO_FILE

END = "taken 0, completed 0, failed 0, in hand 0\npolls 0, empty polls 0, answers not found 0, answers refused 0\n"
OLD = b"old\n"
# Too few bytes for the counts.
FEW_BYTES = 64


def work(path):
    return ["work", "--task-queue", "q", "--workers", "1", "--metrics", str(path)]


def device(path):
    """Makes a device that takes everything, or a pipe where that is not allowed."""
    try:
        os.mknod(path, stat.S_IFCHR | 0o666, os.makedev(1, 3))
    except PermissionError:
        os.mkfifo(path)


def kinds(folder):
    """What a folder has, by name, each with its type."""
    return {path.name: stat.S_IFMT(path.lstat().st_mode) for path in Path(folder).iterdir()}


def kept_counts(room):
    """Only a regular file is replaced, and nothing is left beside it."""
    made = {"old": OLD, "pipe": os.mkfifo, "device": device, "folder": lambda path: path.mkdir()}
    made |= {"link": link_to("old"), "lost": link_to("nowhere"), "null": link_to("/dev/null")}
    made |= {"planted.tmp": link_to("old"), "blocked.tmp": os.mkfifo, "left.tmp": OLD}
    refused = {"pipe": NO_FILE, "device": NO_FILE, "folder": IS_FOLDER, "link": IS_LINK, "lost": IS_LINK, "null": IS_LINK}
    unwritten = "wfhost: cannot write {}: the system can't write it\n" + END
    for name, why in refused.items():
        yield from tried(room, made, name, 2, f"error: --metrics: {{}} {why}\n", {})
    yield from tried(room, made, "folder/", 2, f"error: --metrics: {{}} {IS_FOLDER}\n", {})
    yield from tried(room, made, "planted", 2, f"error: --metrics: {{}}.tmp {IS_LINK}\n", {})
    yield from tried(room, made, "blocked", 2, f"error: --metrics: {{}}.tmp {NO_FILE}\n", {})
    for name in ("old", "new", "left"):
        yield from tried(room, made, name, 0, END, {})
    yield from tried(room, made, "old", 0, unwritten, {"size": FEW_BYTES})
    yield from tried(room, made, "new", 0, unwritten, {"size": FEW_BYTES})
    yield from tried(room, made, "none/new", 0, "wfhost: cannot write {}: no such file or folder\n" + END, {})


def tried(room, made, name, status, said, how):
    """A run that keeps counts at a name in a folder of such things, and what is wrong with it or with what it leaves there."""
    folder = room.folder(made)
    path, before = f"{folder}/{name}", kinds(folder)
    why = differs(room, work(path), status, "" if status else None, said.format(path), how)
    wanted = dict(before)
    if not status and not how and "/" not in name:
        wanted[name] = stat.S_IFREG
        wanted.pop(f"{name}.tmp", None)
        if not why and not Path(path).read_text().startswith("# HELP wfhost_"):
            why = f"{name} has no counts"
    elif not why and Path(folder, "old").read_bytes() != OLD:
        why = "old was written"
    if not why and kinds(folder) != wanted:
        why = f"{sorted(kinds(folder))} are left, not {sorted(wanted)}"
    yield [*work(name), *how], why
