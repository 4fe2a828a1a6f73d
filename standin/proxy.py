"""A proxy before a server of gRPC, which makes the trouble that is planned for it, and hands on all other calls as they are."""

import time
from concurrent.futures import ThreadPoolExecutor

import grpc

from plans import Call, Plan

CODES = {code.value[0]: code for code in grpc.StatusCode}
MOST_THREADS = 100
MOST_BYTES = 128 << 20
# For how many seconds a call is handed on whose caller names none.
CALL_SECONDS = 70
# The metadata of a call that gRPC makes itself.
OWN_METADATA = ("user-agent", "grpc-")


class Proxy(grpc.GenericRpcHandler):
    """The proxy, on a port of its own. Requests and results are bytes."""

    def __init__(self, channel, beside=(), options=(), poll_seconds=CALL_SECONDS):
        """`channel` leads to the server, and `beside` is metadata of each call there. A poll lasts so many seconds at most."""
        self.channel, self.beside, self.poll_seconds, self.plan = channel, list(beside), poll_seconds, Plan()
        limits = [(f"grpc.max_{way}_message_length", MOST_BYTES) for way in ("send", "receive")]
        self.listener = grpc.server(ThreadPoolExecutor(MOST_THREADS), options=[*limits, *options])
        self.listener.add_generic_rpc_handlers([self])
        self.port = self.listener.add_insecure_port("127.0.0.1:0")
        self.listener.start()

    def __enter__(self):
        return self

    def __exit__(self, *_):
        self.listener.stop(0)

    def service(self, details):
        return grpc.unary_unary_rpc_method_handler(lambda request, context: self.take(details.method, request, context))

    def take(self, path, request, context):
        method = path.rpartition("/")[2]
        result, error = self.plan.answer(Call(method, request, context, lambda: self.hand_on(path, request, context)))
        if error is not None:
            context.abort(CODES[error[0]], error[1])
        return result or b""

    def hand_on(self, path, request, context):
        """Makes the call at the server, and cancels it when its caller gives up."""
        most = self.poll_seconds if "/Poll" in path else CALL_SECONDS
        seconds = min(context.time_remaining() or most, most)
        made = self.channel.unary_unary(path).future(request, timeout=seconds, metadata=self.metadata(context))
        context.add_callback(made.cancel)
        try:
            return made.result(), None
        except grpc.RpcError as why:
            return None, (why.code().value[0], why.details() or "")
        except grpc.FutureCancelledError:
            return None, (grpc.StatusCode.CANCELLED.value[0], "nobody waits")

    def metadata(self, context):
        sent = [(name, value) for name, value in context.invocation_metadata() if not name.startswith(OWN_METADATA)]
        return [one for one in sent if one[0] not in dict(self.beside)] + self.beside

    def calls_of(self, method, seconds):
        """Returns how many calls of a method come in so many seconds."""
        before = self.plan.calls[method]
        time.sleep(seconds)
        return self.plan.calls[method] - before
