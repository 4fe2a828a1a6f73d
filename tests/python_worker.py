#!/usr/bin/env python3
"""A worker for activities alone, over gRPC, without an SDK: what docs/write/WORKFLOWS-WITHOUT-CODE.md does with one, as far as the
server sees it. It takes the tasks of one Task Queue and completes each with a text, or fails those of the types that --fails
names. It ends with its input.

    tests/python_worker.py --address localhost:7233 --task-queue bookings [--fails BookCar,..]

It needs grpcio, and Temporal's messages for Python (temporalio) or those of standin/trimmed on PYTHONPATH."""

import argparse
import json
import os
import sys
import threading

import grpc
from temporalio.api.workflowservice import v1 as messages

SERVICE = "/temporal.api.workflowservice.v1.WorkflowService/"
POLL_SECONDS, CALL_SECONDS = 70, 10
JSON = {"encoding": b"json/plain"}


class Worker:
    """Polls for one task after another."""

    def __init__(self, asked):
        self.asked, self.channel = asked, grpc.insecure_channel(asked.address)
        self.same = {"namespace": asked.namespace, "identity": f"{os.getpid()}@python"}

    def call(self, method, seconds=CALL_SECONDS, **params):
        request = getattr(messages, method + "Request")(**self.same, **params)
        response = getattr(messages, method + "Response")
        ask = self.channel.unary_unary(SERVICE + method, type(request).SerializeToString, response.FromString)
        return ask(request, timeout=seconds)

    def run(self):
        queue = {"name": self.asked.task_queue, "kind": 1}
        while True:
            try:
                task = self.call("PollActivityTaskQueue", POLL_SECONDS, task_queue=queue)
                if task.task_token:
                    self.answer(task)
            except grpc.RpcError as why:
                print(f"{why.code().name}: {why.details()}", file=sys.stderr, flush=True)

    def answer(self, task):
        kind = task.activity_type.name
        print(f"{kind} {b' '.join(one.data for one in task.input.payloads).decode()}", flush=True)
        if kind in self.asked.fails:
            failure = {"message": f"no {kind} today", "source": "python", "application_failure_info": {}}
            return self.call("RespondActivityTaskFailed", task_token=task.task_token, failure=failure)
        result = {"payloads": [{"metadata": JSON, "data": json.dumps(f"{kind} is done").encode()}]}
        return self.call("RespondActivityTaskCompleted", task_token=task.task_token, result=result)


def main():
    parser = argparse.ArgumentParser(description=__doc__, formatter_class=argparse.RawDescriptionHelpFormatter)
    parser.add_argument("--address", default="localhost:7233")
    parser.add_argument("--namespace", default="default")
    parser.add_argument("--task-queue", required=True)
    parser.add_argument("--fails", type=lambda text: text.split(","), default=[])
    threading.Thread(target=Worker(parser.parse_args()).run, daemon=True).start()
    sys.stdin.read()


if __name__ == "__main__":
    main()
