"""The crates of this repository, and the libraries over which their edits are checked."""

import contextlib
import os
import shutil
import signal
import subprocess
import sys
import tempfile
import threading
from pathlib import Path

TOP = Path(__file__).resolve().parent.parent
CRATES = TOP / "crates"
# What a check reads of a crate.
PARTS = ("src", "specs", "proofs")
# Has a command join a group of processes, and not ignore the signals that Python ignores.
JOIN = (
    "import os, sys, signal as s; os.setpgid(0, {}); s.signal(s.SIGPIPE, s.SIG_DFL); s.signal(s.SIGXFSZ, s.SIG_DFL); "
    "os.execvp(sys.argv[1], sys.argv[1:])"
)


class Wrong(Exception):
    """Why an edit is wrong, or a crate's edits can't be tried."""


class Ended(Exception):
    """A signal came that ends all."""


def say(text):
    # At once, since other lanes print too.
    print(f"edits: {text}\n", end="", flush=True)


class Commands:
    """The commands that run. After their end none begins."""

    def __init__(self):
        self.running, self.are_over, self.lock = set(), False, threading.Lock()
        self.guard, self.join = None, []

    def be_guarded(self):
        """Has all commands that begin from now on end when this process does, however it ends."""
        ends, _held = os.pipe()
        # The read returns when the other end of the pipe closes, and the shell then kills its group.
        words = ["sh", "-c", "read _; kill -9 0"]
        self.guard = subprocess.Popen(words, stdin=ends, preexec_fn=os.setpgrp)
        os.close(ends)
        self.join = [sys.executable, "-ISc", JOIN.format(self.guard.pid)]

    def run(self, words, folder):
        """Runs a command, and returns it with what it said, and the seconds of a processor that it took."""
        with tempfile.TemporaryFile("w+", encoding="utf-8", errors="replace") as said:
            started = self.start(words, folder, said)
            # Its number is not free for another process before it is no longer one of those that run.
            os.waitid(os.P_PID, started.pid, os.WEXITED | os.WNOWAIT)
            with self.lock:
                _, status, used = os.wait4(started.pid, 0)
                self.running.remove(started)
            started.returncode = -(status & 127) or status >> 8
            said.seek(0)
            ran = subprocess.CompletedProcess(words, started.returncode, said.read())
        return ran, used.ru_utime + used.ru_stime

    def start(self, words, folder, said):
        """Starts a command whose output goes to a file."""
        how = {"stdin": subprocess.DEVNULL, "stdout": said, "stderr": subprocess.STDOUT}
        with self.lock:
            if self.are_over:
                raise Ended
            started = subprocess.Popen([*self.join, *words], cwd=folder, **how)
            self.running.add(started)
        return started

    def end(self):
        """Ends all that run, and what they started."""
        with self.lock:
            self.are_over = True
            for one in self.running:
                os.kill(one.pid, signal.SIGKILL)
            with contextlib.suppress(ProcessLookupError):
                if self.guard:
                    os.killpg(self.guard.pid, signal.SIGKILL)


COMMANDS = Commands()


class Kit:
    """The toolchain."""

    def __init__(self):
        ran = subprocess.run(["rt", "doc"], cwd=CRATES, stdin=subprocess.DEVNULL, stdout=subprocess.PIPE, text=True)
        self.folder = Path(ran.stdout.strip()).parent
        # The first words of a check.
        self.check = [self.folder / "bin/rattle", "check"]


class Crate:
    """A crate of this repository, and what it stands on."""

    def __init__(self, name, uses, crates):
        self.name, self.folder = name, CRATES / name
        self.of_kit = ["std", *(use for use in uses if use not in crates)]
        self.own = [crates[use] for use in uses if use in crates]
        self.below = [*dict.fromkeys(one for use in self.own for one in (*use.below, use))]
        self.root = "src/main.rt" if (self.folder / "src/main.rt").exists() else "src/lib.rt"
        self.library = self.folder / f"out/rlib/{name}.rlib"
        # rt leaves it beside a library that it builds for a developer's checks, but not in the gate.
        self.stamp = self.library.with_name("stamp")
        # What a developer's checks proved.
        self.kept = self.folder / "out/incremental"

    def edits(self):
        return sorted(self.folder.glob("edits/*.edit"))

    def is_built(self):
        """Whether its library is there, and newer than all that it is made of."""
        made = [file.stat().st_mtime for file in (self.library, self.stamp) if file.exists()]
        folders = [one.folder / part for one in (self, *self.below) for part in PARTS]
        read = [file.stat().st_mtime for folder in folders for file in folder.rglob("*.*")]
        return self.library.exists() and max(read) < max(made)

    def build(self):
        """Builds its library, and those below it."""
        say(f"{self.name}: building its library")
        ran, _ = COMMANDS.run([sys.executable, "-B", TOP / "quick_rt.py", "lib", "--jobs", "1"], self.folder)
        if ran.returncode:
            raise Wrong(f"the library {self.name} is not built:\n{ran.stdout[-2000:]}")
        # Where rt found that it is as its sources are, it is not asked again.
        os.utime(self.library)

    def hold_library(self, folder):
        """Gives its library, as `rt ci` proved it just now, a second name in a folder. From now on that is its library: at its
        end `rt ci` puts a developer's libraries back in place of its own."""
        held = folder / self.library.name
        shutil.copytree(self.library, held, copy_function=link_or_copy)
        self.library = held

    def words(self, kit):
        """The words of a check of it, over the libraries that it stands on."""
        words = ["--crate-name", self.name, self.root, "-L", f"dependency={kit.folder}/rlibs"]
        words += [f"--extern={name}={kit.folder}/rlibs/{name}.rlib" for name in self.of_kit]
        words += [f"--extern={one.name}={one.library}" for one in self.own]
        folders = dict.fromkeys(one.library.parent for one in self.below)
        words += [word for folder in folders for word in ("-L", f"dependency={folder}")]
        words += ["--antt-project", f"{kit.folder}/rattle/logic/antt-project.json"]
        return [*words, "--logic-built", f"{kit.folder}/logic_built"]


def build(libraries):
    """Builds those of these libraries that are not built. All are of the gate or all of a developer's checks, since one
    fits no other."""
    while True:
        stamped = any(one.stamp.exists() for one in libraries)
        left = [one for one in libraries if not one.is_built() or stamped and not one.stamp.exists()]
        if not left:
            return
        left[0].build()


def crates_listed():
    """The crates of crates.txt, by their names."""
    rows, crates = {}, {}
    for line in (CRATES.parent / "crates.txt").read_text(encoding="utf-8").split("\n"):
        name, colon, uses = line.partition("#")[0].partition(":")
        if colon:
            rows[name.split()[0]] = uses.split()

    def add(name):
        if name not in crates:
            for use in rows[name]:
                if use in rows:
                    add(use)
            crates[name] = Crate(name, rows[name], crates)

    for name in rows:
        add(name)
    return crates


def link_or_copy(source, target):
    """Gives a file of a library or of kept proofs a second name: rt and rattle replace such a file, and change none."""
    try:
        return os.link(source, target)
    except OSError:
        return shutil.copy2(source, target)
