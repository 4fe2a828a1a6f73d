"""What the bridge counts, whether polls succeed, and the pages that show both over HTTP."""

from __future__ import annotations

import threading
import time
from bisect import bisect_left
from collections import Counter, defaultdict
from http.server import BaseHTTPRequestHandler, ThreadingHTTPServer
from socket import AF_INET, AF_INET6
from typing import Any, Callable, Dict, List, Optional, Set, Tuple

from report import Unusable

# The upper bounds of the histograms' buckets, in seconds.
BOUNDS = (0.01, 0.05, 0.1, 0.5, 1, 2.5, 10, 60)
# A poll that is open for so many seconds counts as accepted, unless the last one of its Task Queue got no response.
OPEN_SECONDS = 5
# The families of metrics, each with what it counts: of calls, and of polls.
FAMILIES = {"temporal_request": "Calls that are no polls", "temporal_long_request": "Polls"}
TEXT = "text/plain; version=0.0.4; charset=utf-8"


def label(text: str) -> str:
    """Returns a text as the value of a label."""
    return text.replace("\\", "\\\\").replace('"', '\\"').replace("\n", "\\n")


class Tally:
    """The calls of a method in a namespace: how many took how long, and how many failed with which code."""

    def __init__(self) -> None:
        self.within, self.seconds = [0] * (len(BOUNDS) + 1), 0.0
        self.failures: Counter[str] = Counter()

    def add(self, seconds: float, failure: Optional[str]) -> None:
        self.within[bisect_left(BOUNDS, seconds)] += 1
        self.seconds += seconds
        if failure:
            self.failures[failure] += 1


class Counts:
    """The counts of all calls."""

    def __init__(self) -> None:
        self.lock = threading.Lock()
        self.calls: Dict[Tuple[str, str], Tally] = defaultdict(Tally)

    def add(self, namespace: str, method: str, seconds: float, failure: Optional[str]) -> None:
        """Counts a call, with the name of the code with which it failed."""
        with self.lock:
            self.calls[namespace, method].add(seconds, failure)

    def text(self) -> str:
        """Returns the counts in the text format of Prometheus."""
        with self.lock:
            return "".join(line + "\n" for family in FAMILIES for line in self.family(family))

    def family(self, name: str) -> List[str]:
        """Returns the lines of the calls that are polls, or of those that are not."""
        what, are_polls = FAMILIES[name], name == "temporal_long_request"
        total: List[str] = []
        failed: List[str] = []
        latency: List[str] = []
        for (namespace, method), calls in sorted(self.calls.items()):
            if method.startswith("Poll") == are_polls:
                labels = f'namespace="{label(namespace)}",operation="{method}"'
                total.append(f"{name}_total{{{labels}}} {sum(calls.within)}")
                failed += [
                    f'{name}_failure_total{{{labels},status_code="{code}"}} {count}'
                    for code, count in sorted(calls.failures.items())
                ]
                latency += latencies(f"{name}_latency_seconds", labels, calls)
        return [
            *headed(f"{name}_total", "counter", f"{what}, each try by itself.", total),
            *headed(f"{name}_failure_total", "counter", f"{what} that failed, by code.", failed),
            *headed(f"{name}_latency_seconds", "histogram", f"{what}: how long they took.", latency),
        ]


def headed(name: str, kind: str, what: str, lines: List[str]) -> List[str]:
    return [f"# HELP {name} {what}", f"# TYPE {name} {kind}", *lines]


def latencies(name: str, labels: str, calls: Tally) -> List[str]:
    """Returns the lines of a histogram."""
    lines, count = [], 0
    for bound, within in zip([*map(str, BOUNDS), "+Inf"], calls.within):
        count += within
        lines.append(f'{name}_bucket{{{labels},le="{bound}"}} {count}')
    return [*lines, f"{name}_sum{{{labels}}} {calls.seconds:.6f}", f"{name}_count{{{labels}}} {count}"]


class Readiness:
    """Whether polls succeed, by their Task Queues."""

    def __init__(self) -> None:
        self.lock, self.last = threading.Lock(), 0
        self.succeeded: Dict[str, bool] = {}
        # The Task Queues whose last poll got no response.
        self.silent: Set[str] = set()
        # The open polls by their numbers: the Task Queue of each, and when it began.
        self.open: Dict[int, Tuple[str, float]] = {}

    def begin(self, queue: str) -> int:
        """Notes that a poll begins. Returns its number."""
        with self.lock:
            self.last += 1
            self.open[self.last] = queue, time.monotonic()
            return self.last

    def end(self, number: int, is_good: bool, is_silent: bool) -> None:
        """Notes that a poll ends: whether it succeeded, and whether it got no response."""
        with self.lock:
            queue, _ = self.open.pop(number)
            self.succeeded[queue] = is_good
            if is_silent and not is_good:
                self.silent.add(queue)
            else:
                self.silent.discard(queue)

    def is_ready(self) -> bool:
        """Returns whether the last poll of some Task Queue succeeded, or one is open for a while."""
        with self.lock:
            now = time.monotonic()
            open_ones = [begun for queue, begun in self.open.values() if queue not in self.silent]
            return any(self.succeeded.values()) or now - min(open_ones, default=now) > OPEN_SECONDS


def content_of(path: Optional[str]) -> str:
    """Returns the worker's own metrics, or nothing while they are not there."""
    if path is None:
        return ""
    try:
        with open(path, encoding="utf-8") as file:
            return file.read()
    except (OSError, UnicodeDecodeError):
        return ""


Page = Callable[[], Tuple[int, str]]


def listen(address: str, pages: Dict[str, Page]) -> int:
    """Serves pages over HTTP, in threads of their own. Returns the port."""

    class Handler(BaseHTTPRequestHandler):
        timeout = 10

        def do_GET(self) -> None:
            status, text = pages.get(self.path.partition("?")[0], lambda: (404, "no such page\n"))()
            self.send_response(status)
            self.send_header("Content-Type", TEXT)
            self.send_header("Content-Length", str(len(text.encode())))
            self.end_headers()
            self.wfile.write(text.encode())

        def log_message(self, *_: Any) -> None:
            """Writes no line for a request."""

    host, _, port = address.rpartition(":")
    host = host.strip("[]")

    class Listener(ThreadingHTTPServer):
        address_family = AF_INET6 if ":" in host else AF_INET

        def handle_error(self, *_: Any) -> None:
            """A caller that goes away is no fault."""

    try:
        listener = Listener((host, int(port)), Handler)
    except (OSError, OverflowError, ValueError) as why:
        raise Unusable(f"cannot listen on {address}: {getattr(why, 'strerror', None) or 'it has to be HOST:PORT'}") from why
    threading.Thread(target=listener.serve_forever, daemon=True).start()
    return listener.server_port
