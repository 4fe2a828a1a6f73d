"""What handlers of activities do, written independently: the heartbeats and the answer that each task has to get."""

import json

from courses import handed_on, noted_in, payloads_in
from findings import readable
from peers import NOT_FOUND

BEAT, ANSWER = "RecordActivityTaskHeartbeat", "RespondActivityTask"
CALLED_OFF = "called off"


class Heard:
    """The heartbeats of one task: how many labels are printed by the last one, at first those of an earlier attempt, whether
    it got no response, and whether a response said that the handler should give up, as `cancel` or `gone`."""

    def __init__(self, printed):
        self.printed, self.is_unheard, self.end = printed, False, None


class Till:
    """The activities of orders, as `order_worker` has them: `ChargeCard` returns its input; `PrintLabels` prints a label for
    each payload of its input, but for those that an earlier attempt has printed, sends a heartbeat after each, with the number
    of printed labels, and returns their number; one of a type that it does not know fails. Heartbeats may be held, so that some
    numbers are left out, but not the first one, and one without a response may be sent again. If a heartbeat's response says
    that the cancellation of the activity is requested, or that its answer is no longer expected, it gives up."""

    kinds = ("ChargeCard", "PrintLabels", "PrintLabels", "Mail")

    def __init__(self, server):
        self.server, self.tasks = server, {}

    def replied(self, peer, method, params, result, error):
        """Notes the response to a worker's call."""
        token = params.get("taskToken")
        if peer.is_disturbed or token not in self.server.activities.by_token:
            return
        activity = self.server.activities.by_token[token][1]
        heard = self.tasks.setdefault(token, Heard(self.printed_before(activity)))
        if method == BEAT:
            fault = self.beaten(activity, heard, params, result, error)
        elif method.startswith(ANSWER):
            fault = self.answered(activity, heard, method.removeprefix(ANSWER), params)
        else:
            return
        if fault:
            self.server.findings.blame(peer, f"{activity.kind} {readable(token)}: {fault}")

    def beaten(self, activity, heard, params, result, error):
        """Returns what is wrong with a heartbeat, or an empty text."""
        given = self.values(params, "details")
        told = int(given[0]) if len(given) == 1 and given[0].isdigit() else 0
        labels = len(self.values({"input": activity.input}, "input"))
        is_next = heard.printed < told <= labels or heard.is_unheard and told == heard.printed
        fault = f"it beats after {heard.end}" if heard.end else "" if is_next else f"it beats with {given}"
        heard.printed, heard.is_unheard = told, error is not None
        if result and result.get("cancelRequested"):
            heard.end = "cancel"
        elif error is not None and error[0] == NOT_FOUND:
            heard.end = "gone"
        return fault

    def answered(self, activity, heard, kind, params):
        """Returns what is wrong with an answer, or an empty text."""
        what = params["failure"].get("message", "") if kind == "Failed" else self.values(params, "result" if kind == "Completed" else "details")
        given, input = (kind, what), self.values({"input": activity.input}, "input")
        if activity.kind == "ChargeCard":
            noted = noted_in(activity.input)
            given = kind, payloads_in(params, "result")
            wanted = ("Completed", [handed_on(one, noted) for one in payloads_in({"input": activity.input}, "input")])
        elif activity.kind != "PrintLabels":
            wanted = ("Failed", "no such activity")
        elif heard.end == "cancel":
            wanted = ("Canceled", [json.dumps(CALLED_OFF).encode()])
        elif heard.end == "gone":
            wanted = ("Failed", CALLED_OFF)
        else:
            wanted = ("Completed", [f"{len(input)}".encode()])
        if given == wanted and (heard.end or activity.kind != "PrintLabels" or heard.printed or not input):
            return ""
        return f"after {heard.printed} labels it answers {given}, and not {wanted}"

    def printed_before(self, activity):
        """Returns how many labels an earlier attempt of an activity has printed."""
        told = self.values({"details": activity.given_details}, "details") if activity.given_details else []
        return int(told[0]) if told else 0

    @staticmethod
    def values(members, name):
        return [bytes(one) for one in payloads_in(members, name)]
