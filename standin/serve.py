#!/usr/bin/env python3
"""Serves the stand-in as a server of its own, for workers and clients that are started elsewhere. It prints its port, and
ends with SIGTERM; then it says what was wrong, and its status is 1 where something was."""

import argparse
import random
import signal
import sys
import time
from pathlib import Path

import grpc

from grpc_front import Calls
from peers import Settings
from server import Server
from troubles import Troubles, names_of
from workflows import Orders, Own, Samples
from world import World


# A message of more than a MiB is too large, where a server takes four.
OPTIONS = [("grpc.max_receive_message_length", 1 << 20)]


class Served(Own):
    """The workflows whose runs clients start: those of some types, and tables."""

    def is_outside(self, kind):
        return super().is_outside(kind) and kind.partition(":")[0] != "Table"


def options():
    parser = argparse.ArgumentParser(description=__doc__)
    parser.add_argument("--port", type=int, default=0, help="0: a free one")
    parser.add_argument("--task-queues", type=lambda text: text.split(","), default=["q"], help="names, with commas")
    parser.add_argument("--speed", type=float, default=6, help="how much faster its clock is than others")
    parser.add_argument("--trouble", type=names_of, default="none", help="as for tests/loops.py")
    parser.add_argument("--seed", type=int, default=1)
    parser.add_argument("--policies", action="store_true", help="the workers have policies, which are not looked at")
    parser.add_argument("--tls", nargs=2, type=Path, metavar="FILE", help="a private key and its certificate")
    parser.add_argument("--api-key", help="the key that each call has to show")
    return parser.parse_args()


def stop(*_):
    raise KeyboardInterrupt


def main():
    asked = options()
    troubles = Troubles(asked.seed, asked.trouble)
    workflows = Served(random.Random(asked.seed), Samples.kinds + Orders.kinds, {"all": None}, ())
    settings = Settings(queues=asked.task_queues, has_policies=asked.policies)
    server = Server(settings, troubles, World(troubles, workflows, 0, 0, True))
    server.queries.follow_tasks = True
    calls = Calls(server, is_open=True)
    calls.api_key = asked.api_key
    calls.listen(asked.port, OPTIONS, asked.tls and grpc.ssl_server_credentials([[file.read_bytes() for file in asked.tls]]))
    signal.signal(signal.SIGTERM, stop)
    print(calls.port, flush=True)
    begun = time.monotonic()
    try:
        while True:
            with calls.lock:
                server.clock.run_to(round((time.monotonic() - begun) * 1000 * asked.speed))
            time.sleep(0.002)
    except KeyboardInterrupt:
        calls.listener.stop(None)
    wrong = server.findings.wrong + server.world.failures
    for what in wrong:
        print(what, file=sys.stderr)
    return 1 if wrong else 0


if __name__ == "__main__":
    sys.exit(main())
