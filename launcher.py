"""Builds a program and starts it with these arguments, where `wfhost` beside this file asks it to. The first argument is the
value of GLIBC_TUNABLES for the program, where the environment has none, the second the program: `wfhost`, which has all
commands, or one that has the command which is asked for. With `--unproved` as the next, nothing is proved, and with `--build`
nothing is started.

The crates below the program of which a source was changed, or a library below, are proved, and then the program is
built. Crates that don't wait for each other are proved side by side, each in a workspace with links to all that it
reads: while rt works on a crate, no other rt may read that crate or one below it. What crates cost stands in costs.txt."""

import contextlib
import fcntl
import os
import re
import shutil
import signal
import subprocess
import sys
import time
from pathlib import Path

HERE = Path(__file__).resolve().parent
CRATES = HERE / "crates"
OUT = CRATES / "wfhost/out"
WORKSPACES, LOGS = OUT / "launcher.workspaces", OUT / "launcher.logs"
# What crates cost: on the machine that the repository measured, and when they were proved here.
TABLE, MEASURED = HERE / "costs.txt", OUT / "launcher.costs"
# Written in the folder of a program that was built.
STAMP = Path("out/launcher.stamp")
# Starts rt, which then reads each crate once for a sum.
RT = [sys.executable, "-B", str(HERE / "quick_rt.py")]
# What rt reads of a crate, and what it keeps in out/.
SOURCES, LIBRARY, KEPT = ("src", "specs", "proofs"), "out/rlib", "out/incremental"
# The control group of a container, where there is one.
GROUP = Path("/sys/fs/cgroup")
# The memory that one library takes at most while it is proved, in KiB.
MEMORY = 5_000_000
# The processor seconds that a line of a crate takes, where no crate has a row in the table.
LINE = 0.06
# The seconds of the table after which what was measured says how fast this machine is.
ENOUGH = 150
UNPROVED = "nothing of this program is proved: it is built for this run alone, which ends after a minute or 1 MiB of output"
# What rt says where it takes what it made in another copy of the repository, or waits for that.
SHARED = re.compile(r": begins with what a check kept in |: another copy of the repository is building ")
# What `rt try` says of a run that ended.
CLOSING = re.compile(rb"checked: ended .*\n(races: .*\n)?run=ended .*\n\Z")


def say(text):
    print(f"wfhost: {text}", file=sys.stderr, flush=True)


def fail(text):
    """Ends where it can't do what it is asked for."""
    say(text)
    sys.exit(2)


@contextlib.contextmanager
def locked(folder, why):
    """Holds the lock of a folder, and says why it waits where another has it."""
    file = os.open(folder, os.O_RDONLY)
    try:
        try:
            fcntl.flock(file, fcntl.LOCK_EX | fcntl.LOCK_NB)
        except BlockingIOError:
            say(why)
            fcntl.flock(file, fcntl.LOCK_EX)
        yield
    finally:
        os.close(file)


def processors():
    """How many processors there are: those that this may run on, or fewer by the quota of its control group."""
    count = len(os.sched_getaffinity(0))
    with contextlib.suppress(OSError, ValueError):
        quota, period = map(int, (GROUP / "cpu.max").read_text(encoding="ascii").split())
        count = min(count, quota // period)
    return max(1, count)


def free_memory():
    """The memory that is free, in KiB: that of the machine, or less by the limit of its control group."""
    found = re.search(r"MemAvailable:\s*(\d+)", Path("/proc/meminfo").read_text(encoding="ascii"))
    free = int(found[1])
    with contextlib.suppress(OSError, ValueError, KeyError):
        limit, used = (int((GROUP / f"memory.{name}").read_text(encoding="ascii")) for name in ("max", "current"))
        rows = dict(line.split() for line in (GROUP / "memory.stat").read_text(encoding="ascii").splitlines())
        # What is kept of files makes room.
        free = min(free, (limit - used + int(rows["active_file"]) + int(rows["inactive_file"])) // 1024)
    return free


def heights_of(costs, below):
    """The seconds of the longest way from each task up, itself included. `costs` has their seconds, each task after those that
    it waits for, and `below` these."""
    heights = {}
    for name in reversed(costs):
        above = [heights[one] for one in heights if name in below[one]]
        heights[name] = costs[name] + max(above, default=0)
    return heights


def clock_of(seconds, jobs):
    """The seconds by the clock of a task that takes so many of a processor with one job: with four jobs a fifth less."""
    return seconds * (1 - min(jobs - 1, 3) / 15)


def jobs_for(lanes, ready, running):
    """How many jobs a task gets: the lanes that no other one that is ready or runs takes, but one at least."""
    return max(1, lanes - ready - running + 1)


def simulated(costs, below, lanes, begun=None):
    """The seconds by the clock until all of these tasks are done, with so many lanes, in the order of `Build.prove`. Tasks that
    run already are in `begun`, with the seconds that they have taken."""
    heights = heights_of(costs, below)
    running = {name: max(0, costs[name] - seconds) for name, seconds in (begun or {}).items()}
    waiting, left, now = [name for name in costs if name not in running], set(costs), 0
    while left:
        ready = [name for name in waiting if not left.intersection(below[name])]
        if ready and len(running) < lanes:
            best = max(ready, key=heights.get)
            waiting.remove(best)
            running[best] = now + clock_of(costs[best], jobs_for(lanes, len(ready), len(running)))
        else:
            first = min(running, key=running.get)
            now = running.pop(first)
            left.remove(first)
    return now


def minutes(seconds):
    """So many seconds, in words."""
    return f"{max(1, round(seconds / 60))} min"


def rows_in(file):
    """The rows of a table of costs, each a name and numbers. There are none where there is no table."""
    lines = file.read_text(encoding="utf-8").split("\n") if file.exists() else []
    rows = [line.partition("#")[0].split() for line in lines]
    return [(row[0], *map(float, row[1:])) for row in rows if row]


def rows_measured():
    """What was measured here: of each crate processor seconds, those by the clock, and jobs. A row that is cut off is none."""
    return [row for row in rows_in(MEASURED) if len(row) == 4]


class Crate:
    """A crate of the program, and those that it stands on, each after those below it."""

    def __init__(self, name, line, uses):
        self.name, self.line, self.folder = name, line, CRATES / name
        self.below = list(dict.fromkeys(one for use in uses for one in (*use.below, use)))
        self.stamp = self.folder / LIBRARY / "stamp"
        self.sources = [file for part in SOURCES for file in (self.folder / part, *(self.folder / part).rglob("*"))]
        self.is_proved = False

    def lines(self):
        return sum(file.read_bytes().count(b"\n") for file in self.sources if file.is_file())

    def is_kept(self):
        """Whether its library is there, and newer than its sources and the libraries below it. Where that is not the whole
        truth, as after a change of crates.txt, rt sees it when it builds the program."""
        if not self.stamp.exists() or not all(one.is_proved for one in self.below):
            return False
        read = [file for file in self.sources if file.exists()] + [one.stamp for one in self.below]
        return max(file.stat().st_mtime_ns for file in read) <= self.stamp.stat().st_mtime_ns

    def is_begun(self):
        """Whether rt kept proofs of it, so that it has less to prove than all."""
        return (self.folder / KEPT).is_dir()

    def alone(self):
        """Keeps rt out of its folder."""
        return locked(self.folder, f"waiting for another rt to finish in crates/{self.name}")

    def workspace(self):
        return WORKSPACES / self.name / "crates" / self.name

    def lend(self, workspace):
        """Links its sources and its library into a workspace."""
        with self.alone():
            for part in (*SOURCES, LIBRARY):
                if (self.folder / part).is_dir():
                    shutil.copytree(self.folder / part, workspace / "crates" / self.name / part, copy_function=os.link)
        with open(workspace / "crates.txt", "a", encoding="utf-8") as listed:
            listed.write(self.line + "\n")

    def enter(self):
        """Makes a workspace for it, with what rt kept of it."""
        (WORKSPACES / self.name).mkdir(parents=True)
        shutil.copy(HERE / "HANDLES", WORKSPACES / self.name)
        try:
            for one in (*self.below, self):
                one.lend(WORKSPACES / self.name)
        except (OSError, shutil.Error) as error:
            fail(f"cannot link what {self.name} stands on into {WORKSPACES / self.name}: {error}")
        with self.alone():
            move(self.folder, self.workspace(), [KEPT])

    def leave(self, parts):
        """Takes what rt made of it back from its workspace, where there is one."""
        if (WORKSPACES / self.name).is_dir():
            with self.alone():
                move(self.workspace(), self.folder, parts)
            shutil.rmtree(WORKSPACES / self.name)


def move(source, target, parts):
    """Moves these parts of a crate's folder to another."""
    for part in parts:
        if (source / part).is_dir():
            shutil.rmtree(target / part, ignore_errors=True)
            (target / part).parent.mkdir(parents=True, exist_ok=True)
            (source / part).rename(target / part)


def crates_of(program):
    """The crates that crates.txt names below a program, each after those that it stands on, and the program last."""
    lines = [line.partition("#")[0] for line in (HERE / "crates.txt").read_text(encoding="utf-8").split("\n")]
    rows = {line.split(":")[0].split()[0]: line for line in lines if ":" in line}
    crates = {}

    def put(name):
        if name not in crates:
            below = [put(use) for use in rows[name].split(":")[1].split() if use in rows]
            crates[name] = Crate(name, rows[name], below)
        return crates[name]

    put(program)
    return list(crates.values())


def costs_of(crates):
    """The processor seconds that each of these crates is expected to take, from the table, or by its lines."""
    table, lines = dict(rows_in(TABLE)), {crate.name: crate.lines() for crate in crates}
    known = [name for name in lines if name in table]
    mean = sum(table[name] for name in known) / sum(lines[name] for name in known) if known else LINE
    return {name: table.get(name, mean * lines[name]) for name in lines}


class Pace:
    """How many seconds this machine needs for one of the table's."""

    def __init__(self, costs, measured):
        self.costs, self.taken, self.expected = costs, 0, 0
        for name, clock, jobs in measured:
            self.add(name, clock, jobs)

    def add(self, name, clock, jobs):
        """Takes note of what a crate took that was proved from nothing."""
        if name in self.costs:
            self.taken += clock
            self.expected += clock_of(self.costs[name], jobs)

    def is_known(self):
        return self.expected > ENOUGH

    def factor(self):
        return self.taken / self.expected if self.is_known() else 1


class Run:
    """A process of rt at work on a crate in a folder."""

    def __init__(self, crate, folder, jobs, had_kept, process):
        self.crate, self.folder, self.jobs, self.had_kept, self.process = crate, folder, jobs, had_kept, process
        self.since = time.monotonic()

    def is_whole(self):
        """Whether it proved all from nothing. rt may also begin with what it kept in another copy of the repository."""
        said = (LOGS / self.crate.name).read_text(encoding="utf-8", errors="replace")
        return not self.had_kept and (self.folder / KEPT).is_dir() and not SHARED.search(said)

    def clock(self):
        return time.monotonic() - self.since


class Build:
    """A build of a program: the crates that wait, and those that rt is at work on."""

    def __init__(self, crates):
        self.crates, self.running, self.since = crates, [], time.monotonic()
        *libraries, self.program = crates
        for crate in libraries:
            crate.is_proved = crate.is_kept()
        self.waiting = [crate for crate in libraries if not crate.is_proved]
        read = [HERE / "crates.txt", HERE / "HANDLES", *self.program.sources]
        stamp = self.program.folder / STAMP
        is_built = stamp.exists() and max(file.stat().st_mtime_ns for file in read if file.exists()) <= stamp.stat().st_mtime_ns
        self.is_silent = is_built and not self.waiting
        left = [*self.waiting, self.program]
        self.is_first = not any(crate.is_begun() for crate in left)
        # What was proved before takes less than its row of the table says.
        self.how = "about" if self.is_first else "at most"
        self.below = {crate.name: {one.name for one in crate.below} for crate in crates}
        costs = costs_of(crates)
        self.costs = {crate.name: costs[crate.name] for crate in left}
        self.heights = heights_of(self.costs, self.below)
        measured = {name: (name, clock, jobs) for name, _, clock, jobs in rows_measured()}
        self.pace = Pace(costs, measured.values())
        # As many at a time as there are processors, as far as memory goes.
        self.lanes = max(1, min(processors(), free_memory() // MEMORY))

    def run(self):
        """Proves the crates, and builds the program."""
        if not self.is_silent:
            self.announce()
        LOGS.mkdir(parents=True, exist_ok=True)
        stamp = self.program.folder / STAMP
        begun = stamp.with_name(f"{STAMP.name}.new")
        begun.touch()
        try:
            self.prove()
            # Where nothing was changed, rt only runs it.
            self.start(self.program, self.program.folder, self.lanes, "run", "--", "--help")
            self.note(*self.next_end())
        finally:
            self.stop()
        begun.replace(stamp)

    def announce(self):
        """Says what there is to do, and how long that takes."""
        what = "proving what was changed, and building the program" if not self.is_first else "proving and building the program"
        processors = f"{self.lanes} processors" if self.lanes > 1 else "one processor"
        whose = "on this machine" if self.pace.is_known() else f"on {processors} like those of costs.txt"
        count = f"{len(self.costs)} crates" if len(self.costs) > 1 else "one crate"
        say(f"{what}, {count}, which takes {self.how} {minutes(self.left())} {whose}")
        if self.is_first:
            say("`./wfhost --unproved COMMAND ..` answers in some three minutes, with nothing proved")

    def left(self):
        """The seconds by the clock that are left, as expected."""
        factor = self.pace.factor()
        costs = {name: seconds for name, seconds in self.costs.items() if not self.is_done(name)}
        return factor * simulated(costs, self.below, self.lanes, {run.crate.name: run.clock() / factor for run in self.running})

    def is_done(self, name):
        return any(crate.name == name and crate.is_proved for crate in self.crates)

    def prove(self):
        """Proves the libraries, those first that have the longest way up to the program."""
        while self.waiting or self.running:
            ready = [crate for crate in self.waiting if all(one.is_proved for one in crate.below)]
            if ready and len(self.running) < self.lanes:
                best = max(ready, key=lambda crate: self.heights[crate.name])
                self.waiting.remove(best)
                best.enter()
                self.start(best, best.workspace(), jobs_for(self.lanes, len(ready), len(self.running)), "lib")
            else:
                run, status = self.next_end()
                run.crate.leave([KEPT] if status else [KEPT, LIBRARY])
                self.note(run, status)

    def start(self, crate, folder, jobs, command, *words):
        """Starts rt in the folder of a crate."""
        had_kept = (folder / KEPT).is_dir()
        with open(LOGS / crate.name, "wb") as log:
            started = subprocess.Popen(
                [*RT, command, "--jobs", str(jobs), *words], cwd=folder, stdin=subprocess.DEVNULL, stdout=log, stderr=log
            )
        self.running.append(Run(crate, folder, jobs, had_kept, started))

    def next_end(self):
        """Waits for one that runs, and returns it and its status."""
        ended = None
        # Also what ran in the background of a shell that became this process may end here.
        while ended is None:
            pid, status, usage = os.wait4(-1, 0)
            ended = next((run for run in self.running if run.process.pid == pid), None)
        self.running.remove(ended)
        # It is waited for, so it is not to be waited for again.
        ended.process.returncode = status
        if not status and ended.is_whole():
            self.measure(ended, usage.ru_utime + usage.ru_stime)
        return ended, status

    def measure(self, run, seconds):
        """Writes down what a crate took that was proved from nothing: processor seconds, those by the clock, and the jobs."""
        self.pace.add(run.crate.name, run.clock(), run.jobs)
        with open(MEASURED, "a", encoding="utf-8") as measured:
            measured.write(f"{run.crate.name} {seconds:.1f} {run.clock():.1f} {run.jobs}\n")

    def note(self, run, status):
        """Says that a crate is done, or ends with what failed in it."""
        crate, elapsed = run.crate, int(time.monotonic() - self.since)
        after = f"after {elapsed} s" if elapsed < 60 else f"after {elapsed // 60} min"
        if status:
            said = (LOGS / crate.name).read_text(encoding="utf-8", errors="replace").split("\n")
            unproved = [line for line in said if re.match("fn .*: (not proved|no proof)", line)][:10]
            say("\n".join([f"{crate.name} is not proved, {after}", *unproved, *[line for line in said if "error" in line][:5]]))
            fail(f"all that rt said is in {LOGS / crate.name}")
        crate.is_proved = True
        if not self.is_silent:
            proved = sum(self.is_done(name) for name in self.costs)
            say(f"{proved} of {len(self.costs)} crates proved, {crate.name}, {after}{self.progress()}")

    def progress(self):
        """How much of the work is done, and how long the rest takes, where that is known."""
        if all(self.is_done(name) for name in self.costs):
            return ""
        done = sum(seconds for name, seconds in self.costs.items() if self.is_done(name))
        part = f": {100 * done / (sum(self.costs.values()) or 1):.0f} % of the work"
        return f"{part}, {self.how} {minutes(self.left())} left" if self.pace.is_known() else part

    def stop(self):
        """Ends what runs, and takes back what rt keeps of it."""
        for run in self.running:
            run.process.terminate()
        for run in self.running:
            run.process.wait()
        for crate in self.crates:
            crate.leave([KEPT])


def build(program):
    """Builds a program, or waits until another start of it has done so, and returns its path, whose last part is `wfhost`."""
    named = CRATES / program / "out/launcher.named/wfhost"
    try:
        OUT.mkdir(exist_ok=True)
        named.parent.mkdir(parents=True, exist_ok=True)
    except OSError:
        fail(f"cannot write in {CRATES / program / 'out'}")
    with locked(OUT, "another ./wfhost builds a program: waiting for it"):
        crates = crates_of(program)
        for crate in crates:
            # A build that was killed left it.
            crate.leave([KEPT])
        Build(crates).run()
        name_program(CRATES / program / "out" / program, named)
    return named


def name_program(built, named):
    """Gives a program that was built a second name. It is no symbolic link: `rt ci` takes none in a crate's folder."""
    if not built.exists():
        fail(f"the build left no program; see {LOGS / built.name}")
    if named.is_symlink() or not named.exists() or not named.samefile(built):
        named.unlink(missing_ok=True)
        try:
            os.link(built, named)
        except OSError:
            shutil.copy2(built, named)


def try_unproved(program, words):
    """Runs a program once, before anything of it is proved, and returns its status. It is built anew each time, since
    `rt try` removes what it built. Paths that are there get their folder in front, since rt runs it elsewhere."""
    say(UNPROVED)
    is_path = lambda word: word[:1] not in ("-", "/", "") and os.path.exists(word)
    words = words[:1] + [os.path.join(os.getcwd(), word) if is_path(word) else word for word in words[1:]]
    ran = subprocess.Popen(["rt", "try", "--", *words], cwd=CRATES / program, stderr=subprocess.PIPE)
    try:
        said = ran.stderr.read()
    finally:
        ran.terminate()
        ran.wait()
    sys.stderr.buffer.write(CLOSING.sub(b"", said))
    return ran.returncode


def end_by(number, _):
    sys.exit(128 + number)


def main():
    tunables, program, *words = sys.argv[1:]
    for number in (signal.SIGINT, signal.SIGTERM, signal.SIGHUP):
        # `nohup` ignores the last one.
        if signal.getsignal(number) is not signal.SIG_IGN:
            signal.signal(number, end_by)
    if not shutil.which("rt"):
        fail("the program has to be built, and the command rt of the Rattle kit is not on the PATH")
    if words[:1] == ["--unproved"]:
        sys.exit(try_unproved(program, words[1:]))
    path = build(program)
    if words[:1] != ["--build"]:
        os.environ.setdefault("GLIBC_TUNABLES", tunables)
        os.execv(path, [str(path), *words])


if __name__ == "__main__":
    main()
