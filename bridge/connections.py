"""The connections to the server: their channels, and the certificates and the key that are shown there, which are read
again when their files change."""

from __future__ import annotations

import os
import ssl
import threading
import time
from argparse import Namespace
from typing import Any, Callable, Dict, List, Optional, Sequence, Tuple

import grpc

from report import Unusable, say

SERVICE = "/temporal.api.workflowservice.v1.WorkflowService/"
# The longest message, in bytes.
MOST_BYTES = 128 << 20
CHANNEL = {
    "grpc.max_receive_message_length": MOST_BYTES,
    "grpc.max_send_message_length": MOST_BYTES,
    # A dead connection is noticed within 45 seconds, and opened again at least every five seconds.
    "grpc.keepalive_time_ms": 30_000,
    "grpc.keepalive_timeout_ms": 15_000,
    "grpc.keepalive_permit_without_calls": 1,
    "grpc.http2.max_pings_without_data": 0,
    "grpc.max_reconnect_backoff_ms": 5_000,
}
# How often the files are looked at, and after how long every call on an earlier channel has ended.
LOOK_SECONDS, OLD_SECONDS = 2, 80


def content(path: Optional[str]) -> Optional[bytes]:
    """Returns the content of a file, or None without a path."""
    if path is None:
        return None
    try:
        with open(path, "rb") as file:
            return file.read()
    except OSError as why:
        raise Unusable(f"cannot read {path}: {why.strerror}") from why


def check_files(cert: Optional[str], key: Optional[str], authority: Optional[str]) -> None:
    """Checks the files for TLS, since gRPC's messages about bad ones are of no help."""
    if (cert is None) != (key is None):
        lacking = "--tls-cert" if cert is None else "--tls-key"
        raise Unusable(f"{lacking} is missing: a certificate and its private key go together")
    context, looked_at = ssl.SSLContext(ssl.PROTOCOL_TLS_CLIENT), ""
    try:
        for looked_at in filter(None, (authority, cert)):
            context.load_verify_locations(looked_at)
    except ssl.SSLError as why:
        raise Unusable(f"{looked_at} holds no certificates in PEM that can be read") from why
    try:
        if cert is not None:
            context.load_cert_chain(cert, key, password=lambda: "")
    except ssl.SSLError as why:
        is_other = why.reason == "KEY_VALUES_MISMATCH"
        fault = f"is not the one of {cert}" if is_other else "can't be read: it has to be PEM without a pass phrase"
        raise Unusable(f"the private key in {key} {fault}") from why


def tls_files(found: Namespace) -> Tuple[Optional[str], Optional[str], Optional[str]]:
    return found.tls_cert, found.tls_key, found.tls_ca


def connect(found: Namespace) -> grpc.Channel:
    """Returns a channel to the server."""
    given, files = list(CHANNEL.items()), tls_files(found)
    if found.tls_server_name:
        given.append(("grpc.ssl_target_name_override", found.tls_server_name))
    has_key = found.api_key or found.api_key_file
    if not (found.tls or any(files) or found.tls_server_name or has_key):
        return grpc.insecure_channel(found.address, given)
    cert, key, authority = map(content, files)
    check_files(*files)
    return grpc.secure_channel(found.address, grpc.ssl_channel_credentials(authority, key, cert), given)


def is_plain(text: str) -> bool:
    """Returns whether gRPC accepts a text as metadata."""
    return text.isascii() and text.isprintable()


def api_key(found: Namespace) -> Optional[str]:
    """Returns the API key, without the line break that ends its file."""
    held, place = content(found.api_key_file), f" in {found.api_key_file}" if found.api_key_file else ""
    text = found.api_key if held is None else held.decode(errors="replace")
    key = text and text.rstrip("\r\n")
    if key is not None and not (key and is_plain(key)):
        raise Unusable(f"the API key{place} is empty, or has a character that is not printable ASCII")
    return key


class Channels:
    """Two channels to the server: one for polls, whose end cancels them, and one for all other calls."""

    def __init__(self, found: Namespace):
        self.for_polls, self.for_others = connect(found), connect(found)
        self.stubs: Dict[str, Callable[..., Any]] = {}

    def stub(self, method: str, made: Any, response: Any) -> Callable[..., Any]:
        """Returns the callable that makes the calls of a method."""
        if method not in self.stubs:
            channel = self.for_polls if method.startswith("Poll") else self.for_others
            self.stubs[method] = channel.unary_unary(SERVICE + method, made.SerializeToString, response.FromString)
        return self.stubs[method]


class Watched:
    """Files, and the function that reads them again when they change."""

    def __init__(self, paths: Sequence[Optional[str]], take: Callable[[], None]):
        self.paths, self.take = [path for path in paths if path], take
        self.taken = self.seen = self.marks()

    def marks(self) -> List[Optional[Tuple[int, int, int]]]:
        """Returns what tells a file from the one that was there before."""
        return [self.mark(path) for path in self.paths]

    def mark(self, path: str) -> Optional[Tuple[int, int, int]]:
        try:
            found = os.stat(path)
        except OSError:
            return None
        return found.st_mtime_ns, found.st_size, found.st_ino

    def look(self) -> None:
        """Takes files that have changed, once two looks see the same, so that half a change is not taken. Bad files are
        reported, and not taken."""
        before, self.seen = self.seen, self.marks()
        if self.seen != before or self.seen == self.taken:
            return
        self.taken = self.seen
        try:
            self.take()
        except Unusable as why:
            say(f"{why}; what was read before it changed is used still")


class Connections:
    """The channels that are used now, those that were used before, and the key."""

    def __init__(self, found: Namespace):
        self.found, self.lock = found, threading.Lock()
        self.earlier: List[Tuple[float, Channels]] = []
        # Made before the files are read, so that no change after that is missed.
        self.watched = [Watched(tls_files(found), self.reconnect), Watched([found.api_key_file], self.read_key)]
        self.read_key()
        self.now, self.is_closed = Channels(found), False

    def read_key(self) -> None:
        self.key = api_key(self.found)

    def reconnect(self) -> None:
        """Opens new channels. Calls that are open stay with the earlier ones."""
        channels = Channels(self.found)
        with self.lock:
            if not self.is_closed:
                self.earlier.append((time.monotonic(), self.now))
                self.now = channels

    def beside(self, namespace: str) -> List[Tuple[str, str]]:
        """Returns the metadata of a call: its namespace, and the API key."""
        namespace, key = namespace or self.found.namespace, self.key
        beside = [("temporal-namespace", namespace)] if is_plain(namespace) else []
        return beside + ([("authorization", f"Bearer {key}")] if key else [])

    def watch(self, is_stopped: threading.Event) -> None:
        """Looks at the files until the bridge stops, and closes channels on which no call is open any more."""
        while any(one.paths for one in self.watched) and not is_stopped.wait(LOOK_SECONDS):
            for one in self.watched:
                one.look()
            while self.earlier and time.monotonic() - self.earlier[0][0] > OLD_SECONDS:
                _, channels = self.earlier.pop(0)
                channels.for_polls.close()
                channels.for_others.close()

    def close_polls(self) -> None:
        """Cancels all polls, and lets none be made any more."""
        with self.lock:
            self.is_closed = True
            for channels in [self.now, *(channels for _, channels in self.earlier)]:
                channels.for_polls.close()
