"""The stand-in over pipes: it starts workers, reads their requests and writes them the responses."""

import json
import os
import selectors
import subprocess
import tempfile
import time

from peers import CANCELLED, UNAVAILABLE, Peer

# Lines that are no response to a call that waits. `%d` is the id of one that has its answer.
HOSTILE = [
    b"",
    b"no JSON",
    b"[]",
    b"17",
    b"{}",
    b'{"jsonrpc":"2.0","id":1000000000,"result":{}}',
    b'{"jsonrpc":"2.0","id":%d,"result":{}}',
    b'{"jsonrpc":"2.0","id":"%d","result":{}}',
    b'{"jsonrpc":"2.0","id":%d}',
    b'{"jsonrpc":"2.0","id":-1,"result":{}}',
    b'{"jsonrpc":"2.0","id":1.5,"result":{}}',
    b'{"jsonrpc":"2.0","id":%d,"result":{},"error":{"code":5,"message":"both"}}',
    b'{"jsonrpc":"2.0","id":%d,"error":{"code":"5","message":"letters"}}',
    b'{"jsonrpc":"2.0","id":%d,"error":5}',
    b'{"jsonrpc":"2.0","method":"restart"}',
    b'[{"jsonrpc":"2.0","id":%d,"result":{"taskToken":"\xff\xfe"}}]',
    b"[" * 1000,
]
# How many seconds one wait for requests lasts: while a task is in hand, and while only polls are awaited.
LONG_WAIT, SHORT_WAIT = 0.01, 0.001
# Within how many seconds a worker has read a shutdown notice.
KNOWS_SECONDS = 3


class Process:
    """A worker, its pipes, and what it is to the server."""

    def __init__(self, command, name, pollers, environment=None):
        self.peer = Peer(name, pollers)
        self.said = tempfile.TemporaryFile()
        self.child = subprocess.Popen(
            command, stdin=subprocess.PIPE, stdout=subprocess.PIPE, stderr=self.said, env=environment
        )
        os.set_blocking(self.child.stdin.fileno(), False)
        os.set_blocking(self.child.stdout.fileno(), False)
        self.read, self.ready, self.unsent = b"", [], b""
        self.ids, self.is_over, self.is_cut, self.is_killed = set(), False, False, False
        # Whether it was sent the shutdown notice, what then ends its open polls, and until when.
        self.is_stopped, self.ending, self.ends_until = False, None, 0

    def report(self):
        """Returns what it has written to standard error."""
        self.said.seek(0)
        return self.said.read().decode(errors="replace")


class Pipes:
    """All workers, and the server between them."""

    def __init__(self, server, troubles):
        self.server, self.troubles = server, troubles
        self.selector = selectors.DefaultSelector()
        self.processes, self.ending, self.is_ending = [], [], False
        self.last = time.monotonic()

    def start(self, command, name, pollers):
        """Starts a worker."""
        process = Process(command, name, pollers)
        self.processes.append(process)
        self.server.peers.append(process.peer)
        self.selector.register(process.child.stdout, selectors.EVENT_READ, process)
        return process

    def turn(self):
        """Starts runs, reads what has come, answers it, and lets time go on when all wait."""
        if not self.is_ending:
            self.server.world.begin()
        for process in self.processes:
            self.write(process)
        wait = 0 if self.server.all_wait() else LONG_WAIT if self.server.in_hand else SHORT_WAIT
        for key, _ in self.selector.select(wait):
            self.take(key.data)
        self.server.go_on(time.monotonic() - self.last)

    def take(self, process):
        """Reads what a worker has written."""
        some = os.read(process.child.stdout.fileno(), 1 << 20)
        self.last = time.monotonic()
        if not some:
            return self.close(process)
        if process.is_cut:
            return  # What it still writes is not read.
        lines = (process.read + some).split(b"\n")
        process.read = lines.pop()
        for line in lines:
            self.request(process, line)

    def request(self, process, line):
        """Handles a request, which must have the exact bytes that the host has to write."""
        try:
            request = json.loads(line)
            exact = json.dumps(request, sort_keys=True, separators=(",", ":"), ensure_ascii=False).encode() == line
        except ValueError:
            request, exact = None, False
        if not exact or not isinstance(request, dict) or set(request) != {"id", "jsonrpc", "method", "params"}:
            return self.server.findings.blame(process.peer, f"no request: {line[:300]!r}")
        number = request["id"]
        if type(number) is not int or number < 1 or number in process.ids:
            self.server.findings.blame(process.peer, f"the id {number!r} is used again, or is none")
        process.ids.add(number)
        self.server.call(
            process.peer, request["method"], request["params"], lambda result, error: self.reply(process, number, result, error)
        )

    def reply(self, process, number, result, error):
        """Writes a response, and perhaps a line that is none. Code 1 says that the worker has to end, so before its
        shutdown it becomes unavailable, as with a bridge."""
        if error is not None and error[0] == CANCELLED and not process.is_stopped:
            error = (UNAVAILABLE, error[1])
        outcome = {"result": result} if error is None else {"error": {"code": error[0], "message": error[1]}}
        process.ready.append(json.dumps({"jsonrpc": "2.0", "id": number, **outcome}).encode())
        if self.troubles.happens("hostile"):
            line = self.troubles.dice.choice(HOSTILE)
            # After its response, so that it is for a call that no longer waits.
            process.ready[-1] += b"\n" + (line.replace(b"%d", b"%d" % number))

    def write(self, process):
        """Writes what is ready, as far as the pipe takes it."""
        if process.ready:
            if self.troubles.happens("order"):
                self.troubles.dice.shuffle(process.ready)
            process.unsent += b"".join(line + b"\n" for line in process.ready)
            process.ready = []
        try:
            while process.unsent and not (process.is_over or process.is_cut):
                process.unsent = process.unsent[os.write(process.child.stdin.fileno(), process.unsent) :]
        except BlockingIOError:
            pass
        except BrokenPipeError:
            process.unsent = b""

    def close(self, process):
        """Closes a worker that has closed its output."""
        if not (process.is_stopped or process.is_cut or process.is_killed):
            self.server.findings.blame(process.peer, f"it has ended: {process.report()[-500:]}")
        if process.read:
            self.server.findings.blame(process.peer, f"its last line has no end: {process.read[:100]!r}")
        if process.ids and len(process.ids) != max(process.ids):
            self.server.findings.blame(process.peer, f"{len(process.ids)} requests have ids up to {max(process.ids)}")
        self.selector.unregister(process.child.stdout)
        self.processes.remove(process)
        process.is_over = True
        self.server.leave(process.peer)

    def kill(self, process):
        """Kills a worker."""
        process.is_killed = True
        process.child.kill()
        process.child.wait()
        process.read, process.ids = b"", set()
        if process in self.processes:
            self.close(process)

    def cut(self, process):
        """Closes the input of a worker, as when its bridge has died: it has to end on its own."""
        process.child.stdin.close()
        process.is_cut = process.peer.is_cut = True
        process.read, process.ids = b"", set()
        self.server.leave(process.peer)
        self.ending.append(process)

    def shut_down(self, process):
        """Sends a worker the shutdown notice. Its polls then end with code 1, as with a bridge. Or they are empty, as
        long as it may have made them before it read the notice, and later ones are never answered. Or none is
        answered."""
        process.is_stopped, process.ends_until = True, time.monotonic() + KNOWS_SECONDS
        if self.troubles.happens("open"):
            process.ending = None
        else:
            process.ending = "empty" if self.troubles.happens("unanswered") else "closed"
        process.ready.append(b'{"jsonrpc":"2.0","method":"shutdown"}')
        self.write(process)

    def end_polls(self, process):
        """Ends the polls of a worker that was sent the shutdown notice."""
        if process.ending == "closed":
            self.server.polls.close(process.peer, "shutdown")
        elif process.ending == "empty" and time.monotonic() < process.ends_until:
            for poll in self.server.polls.take_all(process.peer):
                process.peer.counts["empty"] += 1
                poll.answer({})

    def stop_all(self, seconds):
        """Sends all workers the shutdown notice, and waits for them. Those that don't end are killed, and blamed."""
        until, self.is_ending = time.monotonic() + seconds, True
        left = list(self.processes)
        for process in left:
            if not process.is_cut:
                self.shut_down(process)
        while self.processes and time.monotonic() < until:
            for process in self.processes:
                self.end_polls(process)
            self.turn()
        for process in list(self.processes):
            self.server.findings.blame(process.peer, "it does not end when it is told to")
            self.kill(process)
        ended = left + [process for process in self.ending if process not in left]
        for process in ended:
            process.child.wait()
        return ended
