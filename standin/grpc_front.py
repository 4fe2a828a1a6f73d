"""The stand-in after gRPC: the same server, over HTTP/2, for workers that come through the bridge.

It needs Python's grpcio and protobuf (Debian's packages python3-grpcio and python3-protobuf).
"""

import os
import signal
import subprocess
import sys
import tempfile
import threading
import time
from concurrent.futures import ThreadPoolExecutor
from pathlib import Path

import grpc
from google.protobuf import json_format

from clients import Clients
from definitions import CLASSES
from forwarder import Forwarder
from peers import CANCELLED, DEADLINE, EXHAUSTED, NOT_FOUND, UNAVAILABLE, Peer, Refused
from plans import Call, Plan
from processes import children_of, kill

TOP = Path(__file__).resolve().parent
CODES = {code.value[0]: code for code in grpc.StatusCode}
# The codes with which a worker's calls are refused for good: the bridge retries after the codes of an outage.
FINAL_CODES = (9,)
# The codes with which a proxy refuses polls in passing, which the bridge makes again.
REFUSALS = (3, 5, 7, 16)
MOST_THREADS = 400
UNAUTHENTICATED = 16
# After how many seconds a client's query is given up.
QUERY_SECONDS = 8
# After how many seconds a bridge notices that its connection is dead.
DEAD_SECONDS = 60
# The status of a bridge whose worker was killed, and within how many seconds it has ended then.
KILLED, END_SECONDS = 128 + signal.SIGKILL, 10


class Waiting:
    """A call that waits for its response."""

    def __init__(self):
        self.done, self.result, self.error = threading.Event(), None, None

    def __call__(self, result, error):
        self.result, self.error = result, error
        self.done.set()


class Calls(grpc.GenericRpcHandler):
    """The server after a port. A worker is known by the identity in its requests, and where a request has none by its
    connection. Where `is_open`, whoever says a new identity is a worker, and all others are clients. The faults of `plan` come
    before the server's own trouble."""

    def __init__(self, server, is_open=False):
        self.server, self.troubles, self.is_open, self.plan = server, server.troubles, is_open, Plan()
        self.api_key = None
        self.lock, self.last = threading.RLock(), time.monotonic()
        self.clients, self.by_identity, self.by_connection = Clients(server), {}, {}

    def listen(self, port=0, options=(), credentials=None):
        """Begins to accept calls, on a port of its own choice if none is given, with further options of gRPC, and over TLS with
        credentials."""
        self.listener = grpc.server(ThreadPoolExecutor(MOST_THREADS), options=options)
        self.listener.add_generic_rpc_handlers([self])
        add = self.listener.add_secure_port if credentials else self.listener.add_insecure_port
        self.port = add(f"127.0.0.1:{port}", *filter(None, [credentials]))
        self.listener.start()

    def add(self, peer):
        """Adds a worker, whose calls will come."""
        self.by_identity[peer.name] = peer
        self.server.peers.append(peer)

    def service(self, details):
        """Returns the handler of a call."""
        method = details.method.rpartition("/")[2]
        request, response = CLASSES.get(method + "Request"), CLASSES.get(method + "Response")
        if request is None:
            return None
        return grpc.unary_unary_rpc_method_handler(
            lambda message, context: self.take(method, message, context),
            request_deserializer=request.FromString,
            response_serializer=response.SerializeToString,
        )

    def take(self, method, message, context):
        """Handles a call, unless a fault of it is planned, and returns its response. Where there is an API key, the call shows it."""
        if self.api_key and ("authorization", f"Bearer {self.api_key}") not in context.invocation_metadata():
            context.abort(CODES[UNAUTHENTICATED], "no such key")
        params = json_format.MessageToDict(message)
        call = Call(method, params, context, lambda: self.handle(method, params, context), lambda: self.lose(params, context))
        result, error = self.plan.answer(call)
        if error is not None:
            context.abort(CODES[error[0]], error[1])
        return json_format.ParseDict(result, CLASSES[method + "Response"]())

    def handle(self, method, params, context):
        """Handles a call and returns its result and its error."""
        if method == "GetSystemInfo":
            return {"serverVersion": "stand-in"}, None
        own = self.server.settings.namespace
        if self.is_open and params.get("namespace", own) != own:
            return None, (NOT_FOUND, f"Namespace {params['namespace']} is not found.")
        with self.lock:
            peer = None if self.is_of_clients_alone(method) else self.peer_of(params, context)
        if peer is None and self.is_open and method in self.clients.later:
            return self.of_client_later(method, params)
        if peer is None and self.is_open and method in self.clients.calls:
            return self.of_client(method, params)
        return self.of_worker(peer, method, params, context)

    def lose(self, params, context):
        """Notes that the response to a worker's call may not come through."""
        with self.lock:
            peer = self.peer_of(params, context)
            if peer is not None:
                peer.lose_connection()

    def is_of_clients_alone(self, method):
        return method in (self.clients.calls | self.clients.later) and method not in self.server.calls

    def peer_of(self, params, context):
        """Returns the worker that a call comes from."""
        identity = params.get("identity")
        if identity and identity not in self.by_identity and self.is_open:
            self.add(Peer(identity, 0))
        if identity:
            self.by_connection[context.peer()] = self.by_identity.get(identity)
        return self.by_connection.get(context.peer())

    def of_client(self, method, params):
        try:
            with self.lock:
                return self.clients.call(method, params), None
        except Refused as why:
            return None, (why.code, why.message)

    def of_client_later(self, method, params):
        waiting = Waiting()
        try:
            with self.lock:
                self.clients.call_later(method, params, waiting)
        except Refused as why:
            return None, (why.code, why.message)
        waiting.done.wait(QUERY_SECONDS)
        return waiting.result, waiting.error or (None if waiting.done.is_set() else (DEADLINE, "nobody has answered"))

    def of_worker(self, peer, method, params, context):
        waiting = Waiting()
        with self.lock:
            self.last = time.monotonic()
            if peer is None or peer.is_gone:
                return None, (UNAVAILABLE, "who are you?")
            if method.startswith("Poll") and self.troubles.happens("refused"):
                return None, (self.troubles.dice.choice(REFUSALS), "not yet")
            if not method.startswith("Poll") and self.troubles.happens("codes"):
                return None, (UNAVAILABLE, "try again")
            if not method.startswith("Poll") and self.troubles.happens("busy"):
                return None, (EXHAUSTED, "the namespace is over its rate limit")
            self.server.call(peer, method, params, waiting)
        # If the caller goes away, its poll ends too.
        if not context.add_callback(lambda: self.forsake(peer, waiting)):
            self.forsake(peer, waiting)
        waiting.done.wait()
        return waiting.result, waiting.error

    def forsake(self, peer, waiting):
        """Drops the call of a caller that is gone."""
        with self.lock:
            if not waiting.done.is_set():
                self.server.polls.drop(peer, waiting)
                waiting(None, (CANCELLED, "gone"))


class Bridged:
    """A bridge with its worker, and what they are to the server."""

    def __init__(self, command, name, pollers):
        self.peer = Peer(name, pollers)
        self.said = tempfile.TemporaryFile()
        path = os.pathsep.join(filter(None, [str(TOP / "trimmed"), os.environ.get("PYTHONPATH")]))
        self.child = subprocess.Popen(
            command, stdin=subprocess.DEVNULL, stderr=self.said, env={**os.environ, "PYTHONPATH": path}
        )

    def report(self):
        """Returns what it has written to standard error."""
        self.said.seek(0)
        return self.said.read().decode(errors="replace")


class Weather:
    """What happens to the connections between the bridges and the server: they go dead, or are away for this many
    seconds."""

    def __init__(self, calls, away):
        self.calls, self.forwarder, self.away = calls, Forwarder(calls.port), away
        self.last, self.until = time.monotonic(), 0

    def pass_by(self):
        """Decides once a second whether something happens, unless the last trouble is not over yet."""
        now = time.monotonic()
        if now - self.last < 1 or now < self.until:
            return
        self.last, troubles = now, self.calls.troubles
        if troubles.happens("dead"):
            self.lose_connections()
            self.forwarder.die()
            self.until = now + DEAD_SECONDS
        elif troubles.happens("away"):
            self.lose_connections()
            self.forwarder.leave(self.away)
            self.until = now + self.away + 1

    def lose_connections(self):
        for peer in self.calls.server.peers:
            peer.lose_connection()


class Front:
    """All bridges, and the server after its port, which is away for this many seconds if that is among the troubles."""

    def __init__(self, server, bridge, away):
        self.server, self.bridge = server, bridge
        server.final_codes = FINAL_CODES
        self.calls = Calls(server)
        self.calls.listen()
        self.weather = Weather(self.calls, away)
        self.processes, self.is_ending = [], False

    def start(self, command, name, pollers):
        """Starts a bridge with a worker."""
        address = f"127.0.0.1:{self.weather.forwarder.port}"
        bridge = [sys.executable, str(self.bridge), "--address", address, "--", *command]
        with self.calls.lock:
            process = Bridged(bridge, name, pollers)
            self.processes.append(process)
            self.calls.add(process.peer)
        return process

    def turn(self):
        """Starts runs, and lets time go on when all wait."""
        with self.calls.lock:
            if not self.is_ending:
                self.server.world.begin()
                self.weather.pass_by()
            all_wait = self.server.go_on(time.monotonic() - self.calls.last)
            for process in [process for process in self.processes if process.child.poll() is not None]:
                if not self.is_ending:
                    self.server.findings.blame(process.peer, f"it has ended: {process.report()[-500:]}")
                self.leave(process)
        time.sleep(0.0005 if all_wait else 0.005)

    def leave(self, process):
        self.processes.remove(process)
        self.server.leave(process.peer)

    def kill(self, process):
        """Kills a bridge; its worker ends by itself."""
        process.child.kill()
        self.wait_for(process, -signal.SIGKILL)

    def cut(self, process):
        """Kills the worker behind a bridge, which ends by itself; or the bridge, if it has not started one yet."""
        workers = children_of(process.child.pid)
        if not workers:
            return self.kill(process)
        for worker in workers:
            kill(worker)
        self.wait_for(process, KILLED)

    def wait_for(self, process, status):
        """Waits for the end of a bridge, which has to have this status."""
        try:
            ended = process.child.wait(END_SECONDS)
        except subprocess.TimeoutExpired:
            process.child.kill()
            ended = process.child.wait()
        with self.calls.lock:
            if ended != status:
                self.server.findings.blame(process.peer, f"it ends with {ended}, not {status}: {process.report()[-500:]}")
            if process in self.processes:
                self.leave(process)

    def stop_all(self, seconds):
        """Sends all bridges a signal to end, and waits for them."""
        left, until, self.is_ending = list(self.processes), time.monotonic() + seconds, True
        while any(process.peer.identity is None for process in self.processes) and time.monotonic() < until:
            self.turn()
        for process in left:
            process.child.send_signal(signal.SIGTERM)
        while self.processes and time.monotonic() < until:
            self.turn()
        for process in list(self.processes):
            self.server.findings.blame(process.peer, "it does not end when it is told to")
            process.child.kill()
            self.wait_for(process, -signal.SIGKILL)
        self.calls.listener.stop(None)
        return left
