"""What scripts share that try live work: a Python that has gRPC, ports and pages, a bridge whose worker is talked to, and a client
of a server."""

import base64
import importlib
import json
import os
import socket
import subprocess
import sys
import tempfile
import time
import urllib.error
import urllib.request
import uuid

from rows import TOP, Wrong, same

SYSTEM = "/usr/bin/python3"  # Debian's packages python3-grpcio and python3-protobuf are for this one.
STAND_IN = TOP / "standin"
if str(STAND_IN) not in sys.path:
    sys.path.insert(1, str(STAND_IN))
TRIMMED = STAND_IN / "trimmed"
BRIDGE = TOP / "bridge/temporal_bridge.py"
SERVICE = "/temporal.api.workflowservice.v1.WorkflowService/"
LIMIT_SECONDS = 30
# For how long a client makes a call again, and after which codes.
CALL_SECONDS, PASSING = 10, (2, 4, 8, 10, 14)
NOT_FOUND, RUNNING = 5, 1
# The stage of an update that is taken, and has no result yet.
ACCEPTED = 2
# How many events of a history a client fetches at once.
PAGE_EVENTS = 100
TASK, ACTIVITY = "PollWorkflowTaskQueue", "PollActivityTaskQueue"
ANSWER, PAGE, RESULT = "RespondWorkflowTaskCompleted", "GetWorkflowExecutionHistory", "RespondActivityTaskCompleted"
HEARTBEAT = "RecordActivityTaskHeartbeat"
# The worker: it hands on what it reads to a socket, and what comes from there to its output. A line `@read` lets one that
# is `deaf` begin to read, `@end N` ends it.
WORKER = """
import os, socket, sys, threading
line = socket.socket(socket.AF_UNIX)
line.connect(sys.argv[1])
def read():
    for response in sys.stdin.buffer:
        line.sendall(response)
reader = threading.Thread(target=read, daemon=True)
if sys.argv[2] != "deaf":
    reader.start()
for request in line.makefile("rb"):
    if request.startswith(b"@read"):
        reader.start()
    elif request.startswith(b"@end"):
        os._exit(int(request[5:]))
    else:
        sys.stdout.buffer.write(request)
        sys.stdout.buffer.flush()
os._exit(99)
"""


def take_packages(who):
    """Goes on under a Python that has grpcio and protobuf; without one, ends with the line `skipped: WHY`."""
    for name in ("grpc", "google.protobuf"):
        try:
            importlib.import_module(name)
        except ImportError as missing:
            if sys.executable != SYSTEM and os.access(SYSTEM, os.X_OK):
                os.execv(SYSTEM, [SYSTEM, *sys.argv])
            print(f"skipped: {missing}, and {who} grpcio and protobuf")
            sys.exit(0)


def use_trimmed():
    """Takes the stand-in's messages in the place of those of Temporal's package, here and in what is started from here."""
    sys.path.insert(0, str(TRIMMED))
    os.environ["PYTHONPATH"] = os.pathsep.join(filter(None, [str(TRIMMED), os.environ.get("PYTHONPATH")]))


# Ports and pages.


def free_port():
    with socket.socket() as one:
        one.bind(("127.0.0.1", 0))
        return one.getsockname()[1]


def page_of(port, path):
    """The status and the text of a page, or 0 and why there is none."""
    try:
        with urllib.request.urlopen(f"http://127.0.0.1:{port}{path}", timeout=CALL_SECONDS) as found:
            return found.status, found.read().decode()
    except urllib.error.HTTPError as why:
        return why.code, why.read().decode()
    except OSError as why:
        return 0, str(why)


# Bridges.


def environment_of(packages=TRIMMED, **more):
    """The environment of a bridge: nothing in it asks the bridge for anything, and its packages are there."""
    kept = {name: value for name, value in os.environ.items() if not name.startswith("TEMPORAL_")}
    return {**kept, "PYTHONPATH": str(packages), "PYTHONDONTWRITEBYTECODE": "1", **more}


def outcome(response):
    """What a response says: the result, or the code and the text."""
    error = response.get("error")
    return response["result"] if error is None else (error["code"], error["message"])


class Bridge:
    """A bridge, whose worker is talked to."""

    def __init__(self, port, *options, worker="", words=(), command=None, env=None, path=TRIMMED, script=None):
        self.room = tempfile.TemporaryDirectory()
        self.line, at = socket.socket(socket.AF_UNIX), f"{self.room.name}/line"
        self.line.bind(at)
        self.line.listen()
        self.talk = self.held = None
        command = command or [sys.executable, "-c", WORKER, at, worker, *words]
        bridge = [sys.executable, str(script or BRIDGE), "--address", f"127.0.0.1:{port}", *options, "--", *command]
        self.begun, self.said = time.monotonic(), tempfile.TemporaryFile()
        self.child = subprocess.Popen(bridge, stdin=subprocess.DEVNULL, stderr=self.said, env=environment_of(path, **(env or {})))

    def __enter__(self):
        return self

    def __exit__(self, *_):
        self.child.kill()
        self.child.wait()
        # The worker ends with its socket.
        for one in (self.said, self.line, *filter(None, [self.held, self.talk])):
            one.close()
        self.room.cleanup()

    def send(self, line):
        """Lets the worker write a line."""
        if self.talk is None:
            self.line.settimeout(LIMIT_SECONDS)
            self.talk, _ = self.line.accept()
            self.talk.settimeout(LIMIT_SECONDS)
            self.held = self.talk.makefile("rb")
        self.talk.sendall((line if isinstance(line, bytes) else line.encode()) + b"\n")

    def ask(self, number, method, params):
        self.send(json.dumps({"id": number, "jsonrpc": "2.0", "method": method, "params": params}))

    def next(self):
        """The next line that the worker has read."""
        try:
            line = self.held.readline()
        except socket.timeout:
            raise Wrong("no response comes")
        if not line:
            raise Wrong("the worker has ended")
        return json.loads(line)

    def all(self, count):
        """The next responses, by their numbers."""
        return {response.get("id"): response for response in (self.next() for _ in range(count))}

    def answered(self, method, params):
        """What comes of one request: the result, or the code and the text."""
        self.ask(1, method, params)
        return outcome(self.next())

    def end(self, status=0, within=20.0):
        """Waits for the end, and answers what was said."""
        return ended(self.child, self.said, status, within)

    def done(self):
        """Lets the worker end, of which nothing is said."""
        self.send("@end 0")
        same("said", self.end(), "")


def ended(child, said, status, within):
    """What a bridge has said at its end, which has to come with this status within so many seconds."""
    try:
        child.wait(within)
    except subprocess.TimeoutExpired:
        raise Wrong(f"it does not end within {within} s")
    said.seek(0)
    text = said.read().decode(errors="replace")
    if child.returncode != status:
        raise Wrong(f"status {child.returncode}, not {status}: {text!r}")
    if "Traceback" in text:
        raise Wrong(text)
    return text


# Clients.


def base64_of(text):
    return base64.b64encode(text.encode()).decode()


def payloads(*values):
    """JSON values as payloads of a request; a value in bytes is the JSON text."""
    texts = [value if isinstance(value, bytes) else json.dumps(value).encode() for value in values]
    return {"payloads": [{"metadata": {"encoding": b"json/plain"}, "data": text} for text in texts]}


class Client:
    """A client of a server. It needs grpcio, and Temporal's messages for Python or those of standin/trimmed."""

    def __init__(self, address, namespace="default", channel=None, beside=()):
        import grpc
        from google.protobuf import json_format
        from temporalio.api.workflowservice import v1 as messages

        self.grpc, self.json, self.messages = grpc, json_format, messages
        self.namespace, self.identity, self.beside = namespace, f"client-{os.getpid()}", list(beside)
        self.channel = channel or grpc.insecure_channel(address)

    def call(self, method, seconds=CALL_SECONDS, **params):
        """Makes a call, and again while it may do better: its response, or none where there is no such run or namespace."""
        request = getattr(self.messages, method + "Request")(namespace=self.namespace, **params)
        response = getattr(self.messages, method + "Response")
        ask = self.channel.unary_unary(SERVICE + method, type(request).SerializeToString, response.FromString)
        until = time.monotonic() + seconds
        while True:
            try:
                return ask(request, timeout=seconds, metadata=self.beside)
            except self.grpc.RpcError as why:
                code = why.code().value[0]
                if code == NOT_FOUND:
                    return None
                if code not in PASSING or time.monotonic() > until:
                    raise Wrong(f"{method}: {why.code().name}: {why.details()}") from why
            time.sleep(0.2)

    def start(self, kind, workflow_id, queue, input, **more):
        """Starts a run, and gives its execution."""
        same = {"workflow_type": {"name": kind}, "task_queue": {"name": queue}, "identity": self.identity, **more}
        made = self.call("StartWorkflowExecution", workflow_id=workflow_id, input=input, request_id=str(uuid.uuid4()), **same)
        if made is None:
            raise Wrong(f"there is no such namespace: {self.namespace}")
        return {"workflow_id": workflow_id, "run_id": made.run_id}

    def signal(self, execution, name, **more):
        same = {"workflow_execution": execution, "identity": self.identity, "request_id": str(uuid.uuid4()), **more}
        self.call("SignalWorkflowExecution", signal_name=name, **same)

    def request_cancel(self, execution):
        same = {"workflow_execution": execution, "identity": self.identity, "request_id": str(uuid.uuid4())}
        self.call("RequestCancelWorkflowExecution", **same)

    def query(self, execution, kind, seconds=CALL_SECONDS):
        """What a query gives: its JSON, or why it failed."""
        try:
            found = self.call("QueryWorkflow", seconds, execution=execution, query={"query_type": kind})
        except Wrong as why:
            return str(why)
        return " ".join(one.data.decode() for one in found.query_result.payloads) if found else "no such run"

    def update(self, execution, name):
        """Sends an update, and waits until it is taken or turned down."""
        request = {"meta": {"update_id": str(uuid.uuid4()), "identity": self.identity}, "input": {"name": name}}
        self.call("UpdateWorkflowExecution", workflow_execution=execution, wait_policy={"lifecycle_stage": ACCEPTED}, request=request)

    def terminate(self, execution):
        self.call("TerminateWorkflowExecution", workflow_execution=execution, reason="the trial is over", identity=self.identity)

    def is_open(self, execution):
        found = self.call("DescribeWorkflowExecution", execution=execution)
        return found is not None and found.workflow_execution_info.status == RUNNING

    def history(self, execution):
        """The events of a run, in the form of the Temporal CLI's JSON, page by page."""
        events, token = [], b""
        while True:
            page = self.call(PAGE, execution=execution, maximum_page_size=PAGE_EVENTS, next_page_token=token)
            if page is None:
                return events
            events += self.json.MessageToDict(page.history).get("events", [])
            token = page.next_page_token
            if not token:
                return events
