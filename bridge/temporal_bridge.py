#!/usr/bin/env python3
"""Connects a worker of this host with a Temporal server.

    temporal_bridge.py --address localhost:7233 -- \\
        ./wfhost work --task-queue orders --namespace {namespace} --identity {identity}

It starts the command after `--`, reads its requests (JSON-RPC 2.0, an object a line, on the command's standard output),
makes each call of `temporal.api.workflowservice.v1.WorkflowService`, and writes the response to the command's standard
input. Each request gets a response. The bridge decides nothing about a workflow. In the command it replaces `{identity}`
with a name that no other process has, and `{namespace}` with --namespace. On SIGTERM or SIGINT it tells the command to
shut down, and waits until that has ended; a second signal kills the command. Its exit status is that of the command, 128
plus the number of the signal that ended the command, or 2 if the command can't be started, the server can't be reached, or
an option, a file or a package can't be used.
An option that is not given is taken from the environment variable in parentheses. The files of certificates and keys are read
again when they change.

It needs Python 3.8 or later and two packages: `pip install temporalio grpcio`.
"""

from __future__ import annotations

import argparse
import json
import math
import os
import signal
import socket
import subprocess
import sys
import threading
import uuid
from argparse import Namespace
from collections import deque
from typing import IO, TYPE_CHECKING, Any, Deque, Dict, List, Optional, Type, cast

from counts import Page, content_of, listen
from report import Unusable, say

if TYPE_CHECKING:
    from calls import Calls, Error

signal.signal(signal.SIGINT, signal.SIG_DFL)  # Until the command runs there is nothing to shut down.
if os.getpid() == 1:  # In a container, where these signals do nothing by default.
    for number in (signal.SIGINT, signal.SIGTERM):
        signal.signal(number, lambda number, _: os._exit(128 + number))
os.environ.setdefault("GRPC_VERBOSITY", "NONE")  # This program reports each error itself, once.
# How often gRPC looks, while no call is open, whether a connection is there again: every five seconds by default.
os.environ.setdefault("GRPC_CLIENT_CHANNEL_BACKUP_POLL_INTERVAL_MS", "250")

# A process has at most 64 workers, two threads that answer queries, and a timer that sends heartbeats, each with one request open.
MOST_CALLS = 80
# The longest line that the host reads, in bytes, and how deep its values may nest.
MOST_BYTES, MOST_LEVELS = 128 << 20, 127
EXHAUSTED, INTERNAL = 8, 13
SHUTDOWN = b'{"jsonrpc":"2.0","method":"shutdown"}\n'


def import_calls() -> Type[Calls]:
    """Imports what needs the two packages; without them --help works too."""
    try:
        from calls import Calls, tells_of_discarded_tasks
    except ImportError as missing:
        raise Unusable(f"{missing}; install it by: pip install temporalio grpcio") from missing
    if not tells_of_discarded_tasks():
        what = "it does not know resetHistoryEventId, by which a server says that it has discarded a task"
        raise Unusable(f"this package temporalio is too old: {what}: pip install --upgrade temporalio")
    return Calls


def seconds(text: str) -> float:
    """Returns a number of seconds, from 0."""
    number = float(text)
    if not 0 <= number < math.inf:
        raise ValueError
    return number


def options() -> Namespace:
    """Parses the command line; options that it omits are taken from the environment, as by Temporal's own command."""
    shape = argparse.RawDescriptionHelpFormatter
    parser = argparse.ArgumentParser(description=__doc__, formatter_class=shape, usage="%(prog)s [OPTIONS] -- COMMAND ..")

    def add(name: str, what: str, *names: str, otherwise: Any = None, **how: Any) -> None:
        held = next((os.environ[one] for one in names if os.environ.get(one)), otherwise)
        parser.add_argument(name, default=held, help=f"{what} ({names[0]})" if names else what, **how)

    add("--address", "host and port of the server, otherwise localhost:7233", "TEMPORAL_ADDRESS", otherwise="localhost:7233")
    add("--namespace", "namespace that replaces {namespace}, otherwise default", "TEMPORAL_NAMESPACE", otherwise="default")
    wait = "seconds to go on trying where the server is not up yet (0: once)"
    add("--wait", wait, type=seconds, otherwise=0, metavar="SECONDS")
    grace = "seconds for which a poll is made again that is refused by code 3, 5, 7 or 16, otherwise 60"
    add("--poll-grace", grace, type=seconds, otherwise=60, metavar="SECONDS")
    add("--tls-cert", "client's certificate, a file", "TEMPORAL_TLS_CLIENT_CERT_PATH", "TEMPORAL_TLS_CERT", metavar="FILE")
    add("--tls-key", "its private key, a file", "TEMPORAL_TLS_CLIENT_KEY_PATH", "TEMPORAL_TLS_KEY", metavar="FILE")
    add("--tls-ca", "server's authority, a file", "TEMPORAL_TLS_SERVER_CA_CERT_PATH", "TEMPORAL_TLS_CA", metavar="FILE")
    add("--tls-server-name", "name in the server's certificate", "TEMPORAL_TLS_SERVER_NAME", metavar="NAME")
    add("--api-key", "key of an account", "TEMPORAL_API_KEY", metavar="KEY")
    add("--api-key-file", "a file with that key, which counts before --api-key", metavar="FILE")
    tls = os.environ.get("TEMPORAL_TLS", "").lower() in ("1", "true", "yes")
    use_tls = "use TLS, which --api-key.. and each --tls-.. option turn on too (TEMPORAL_TLS)"
    parser.add_argument("--tls", action="store_true", default=tls, help=use_tls)
    add("--listen", "serve /metrics, /live and /ready there over HTTP", metavar="HOST:PORT")
    add("--worker-metrics", "the file of the command's --metrics, which /metrics shows too", metavar="FILE")
    parser.add_argument("command", nargs="+", help=argparse.SUPPRESS)
    return parser.parse_args()


def request_in(line: bytes) -> Optional[Dict[str, Any]]:
    """Returns the request of a line, or None if it is not one."""
    try:
        request = json.loads(line)
    except (ValueError, RecursionError):
        return None
    is_request = isinstance(request, dict) and isinstance(request.get("method"), str) and "id" in request
    return request if is_request else None


def line_of(number: Any, result: Any, error: Optional[Error]) -> bytes:
    """Returns the line of the response to a request: with the result, unless there is an error, a code and a
    message."""
    outcome = {"result": result} if error is None else {"error": {"code": error[0], "message": error[1]}}
    return json.dumps({"jsonrpc": "2.0", "id": number, **outcome}, separators=(",", ":")).encode() + b"\n"


def levels(value: Any) -> int:
    """Returns how deep the objects and lists of a JSON value nest."""
    if not isinstance(value, (dict, list)):
        return 0
    return 1 + max(map(levels, value.values() if isinstance(value, dict) else value), default=0)


def is_too_deep(line: bytes, result: Any) -> bool:
    """Returns whether the line of a result nests deeper than the host reads. Each level has a bracket, and most lines
    have too few of them."""
    return line.count(b"{") + line.count(b"[") > MOST_LEVELS and 1 + levels(result) > MOST_LEVELS


class Bridge:
    """The command, and the lines between it and the calls of the server."""

    # The command, its output and its input, once it is started.
    child: subprocess.Popen[bytes]
    requests: IO[bytes]
    responses: IO[bytes]

    def __init__(self, calls: Calls):
        self.calls = calls
        self.reading, self.writing = threading.Lock(), threading.Lock()
        self.lines: Deque[bytes] = deque()
        self.is_stopped, self.stops = threading.Event(), 0

    def answer(self, request: Dict[str, Any]) -> None:
        """Makes the call of a request and writes its response. Whatever goes wrong, there is a response that the host
        can read."""
        number = request["id"]
        try:
            result, error = self.calls.outcome(request["method"], request.get("params", {}))
            line = line_of(number, result, error)
            if len(line) > MOST_BYTES:
                line = line_of(number, None, (EXHAUSTED, f"a response of {len(line)} bytes"))
            elif is_too_deep(line, result):
                line = line_of(number, None, (INTERNAL, f"a response of more than {MOST_LEVELS} levels"))
        except Exception as why:
            line = line_of(number, None, (INTERNAL, f"{type(why).__name__}: {why}"))
        self.lines.append(line)
        self.write()

    def write(self) -> None:
        """Writes the lines that are there, unless another thread is writing: that one writes these too. So if the
        command does not read, only one thread waits for it."""
        while self.lines and self.writing.acquire(blocking=False):
            try:
                while self.lines:
                    self.responses.write(self.lines.popleft())
                    self.responses.flush()
            except OSError:
                pass  # The command has closed its input.
            finally:
                self.writing.release()

    def serve(self) -> None:
        """Reads requests and answers them, one after another; many threads do so at once."""
        while True:
            with self.reading:
                line = self.requests.readline()
            if not line:
                return
            request = request_in(line)
            if request is None:
                say(f"no request: {line[:200]!r}")
            else:
                self.answer(request)

    def stop(self, *_: Any) -> None:
        """Lets the command be sent the shutdown notice; the second time kills the command."""
        self.stops += 1
        if self.stops > 1:
            return self.child.kill()
        self.is_stopped.set()

    def shut_down(self) -> None:
        """Waits for a signal, then sends the command the shutdown notice and cancels the polls."""
        self.is_stopped.wait()
        self.lines.append(SHUTDOWN)
        self.calls.stop()
        self.write()

    def run(self, command: List[str]) -> int:
        """Starts the command, serves it until it ends, and returns its exit status."""
        try:
            # In a session of its own, so that the keys that interrupt this program do not reach it.
            pipe = subprocess.PIPE
            self.child = subprocess.Popen(command, stdin=pipe, stdout=pipe, start_new_session=True)
        except OSError as why:
            say(f"cannot start {command[0]}: {why.strerror}")
            return 2
        self.requests, self.responses = cast(IO[bytes], self.child.stdout), cast(IO[bytes], self.child.stdin)
        signal.signal(signal.SIGTERM, self.stop)
        signal.signal(signal.SIGINT, self.stop)
        for work in [self.shut_down, self.calls.watch] + [self.serve] * MOST_CALLS:
            threading.Thread(target=work, daemon=True).start()
        # In a loop, since a signal that comes just before it waits is only handled after the wait.
        while self.child.returncode is None:
            try:
                self.child.wait(timeout=1)
            except subprocess.TimeoutExpired:
                pass
        status = self.child.returncode
        return 128 - status if status < 0 else status


def pages_of(calls: Calls, worker_metrics: Optional[str]) -> Dict[str, Page]:
    """Returns the pages of --listen."""
    return {
        "/metrics": lambda: (200, calls.counts.text() + calls.tasks.text() + content_of(worker_metrics)),
        "/live": lambda: (200, "the bridge lives\n"),
        "/ready": lambda: (200, "a poll succeeded, or is open for a while\n") if calls.is_ready() else (503, "no poll succeeds\n"),
    }


def main() -> int:
    found = options()
    identity = f"{socket.gethostname()}-{os.getpid()}-{uuid.uuid4().hex[:8]}"
    try:
        calls = import_calls()(found)
        if found.listen:
            listen(found.listen, pages_of(calls, found.worker_metrics))
    except Unusable as why:
        say(str(why))
        return 2
    if not calls.greet(found.wait):
        return 2
    words = (word.replace("{identity}", identity) for word in found.command)
    return Bridge(calls).run([word.replace("{namespace}", found.namespace) for word in words])


if __name__ == "__main__":
    status = main()
    sys.stderr.flush()
    os._exit(status)  # Calls that are still open are not waited for.
