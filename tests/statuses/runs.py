"""Runs of the program, and how what they write is compared with what is wanted."""

import os
import re
import resource
import signal
import subprocess

LIMIT_SECONDS = 120
# What a thread's stack takes.
THREAD_STACK = 64 << 20
NOBODY = 65534


class Like(str):
    """A text with any others in the places of its stars."""


def end_of(kind):
    """The end of a stream that takes nothing: a device that is full, or a pipe that nobody reads."""
    if kind == "full":
        return os.open("/dev/full", os.O_WRONLY)
    read, write = os.pipe()
    os.close(read)
    return write


def run(
    room,
    words,
    given=b"",
    source=None,
    called=None,
    program=None,
    folder=None,
    out=None,
    error=None,
    merged=False,
    closed=None,
    memory=0,
    data=0,
    size=0,
    as_nobody=False,
):
    """Runs the program, or another one, called by a path, with this standard input, or that of a device, in a folder, with streams that take
    nothing, with one stream for all, with a stream that is closed, with a limit on its addresses, or on what it may write to,
    so that there is no memory for the stack of a thread, with a limit on the size of a file, or as nobody where wanted."""

    def before():
        if memory:
            resource.setrlimit(resource.RLIMIT_AS, (memory, memory))
        if data:
            resource.setrlimit(resource.RLIMIT_STACK, (THREAD_STACK, resource.getrlimit(resource.RLIMIT_STACK)[1]))
            resource.setrlimit(resource.RLIMIT_DATA, (data, data))
        if size:
            signal.signal(signal.SIGXFSZ, signal.SIG_IGN)
            resource.setrlimit(resource.RLIMIT_FSIZE, (size, size))
        if closed is not None:
            os.close(closed)

    who = {"user": NOBODY, "group": NOBODY, "extra_groups": []} if as_nobody and os.geteuid() == 0 else {}
    ends = [end_of(kind) for kind in (out, error) if kind]
    if source:
        ends.insert(0, os.open(source, os.O_RDONLY))
    try:
        return subprocess.run(
            [room.program if called is None else called, *words],
            executable=program or room.program,
            **({"stdin": ends[0]} if source else {"input": given}),
            cwd=folder,
            stdout=ends[bool(source)] if out else subprocess.PIPE,
            stderr=ends[-1] if error else subprocess.STDOUT if merged else subprocess.PIPE,
            timeout=LIMIT_SECONDS,
            preexec_fn=before if memory or data or size or closed is not None else None,
            **who,
        )
    finally:
        for end in ends:
            os.close(end)


def is_text(written, wanted):
    """Whether a stream has the text that is wanted of it."""
    if isinstance(wanted, Like):
        return re.fullmatch(re.escape(wanted).replace(r"\*", ".*"), written, re.DOTALL) is not None
    return written == wanted


def differs(room, words, status, out, error, how):
    """What is not as it should be."""
    try:
        ran = run(room, words, **how)
    except subprocess.TimeoutExpired:
        return f"no end in {LIMIT_SECONDS} seconds"
    except FileNotFoundError as error:
        return f"{error.filename} is not there"
    stdout, stderr = ((written or b"").decode(errors="replace") for written in (ran.stdout, ran.stderr))
    if ran.returncode != status:
        return f"status {ran.returncode}, not {status}; standard error {shown(stderr)}"
    if out is not None and not is_text(stdout, out):
        return f"standard output {shown(stdout)}, not {shown(out)}"
    if error is not None and not is_text(stderr, error):
        return f"standard error {shown(stderr)}, not {shown(error)}"
    return ""


def shown(text):
    """A text, or its beginning where it is long."""
    return repr(text if len(text) < 2000 else text[:2000] + " ..")


def compared(room, group):
    """What a group of the table tries, each with what is not as it should be."""
    for words, status, out, error, *how in group(room):
        how = how[0] if how else {}
        yield [*words, *how.keys()], differs(room, words, status, out, error, how)
