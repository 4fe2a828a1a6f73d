"""Files of policies: those that are refused, with what is said of each, before anything is written to the bridge."""

from pathlib import Path

from .rooms import TOP
from .runs import Like
from .texts import IS_FOLDER, MISSING, cannot_read

# What a file has, and what is said of it after its name.
REFUSED = {
    "no_text": (b"[activities]\n\xff = 1\n", "not UTF-8 text"),
    "long": (b"#" * 65537, "file too long"),
    "no_toml": (b"[activities]\nstart_to_close = \n", "not TOML at line 2: *"),
    "twice": (b"[child.A]\n\n[child.A]\n", "not TOML at line 3: *"),
    "no_table": (b"# none\n[activites]\n", "unknown key activites at line 2"),
    "no_key": (b"[activity.Charge]\nheartbeat = 5\nheartbeats = 5\n", "unknown key activity.Charge.heartbeats at line 3"),
    "no_key_of_child": (b"[child.A]\nheartbeat = 5\n", "unknown key child.A.heartbeat at line 2"),
    "no_key_of_failure": (b"[failures]\nretry = 5\n", "unknown key failures.retry at line 2"),
    "no_key_of_run": (b"[continuation.A]\nparent_close = 'abandon'\n", "unknown key continuation.A.parent_close at line 2"),
    "no_key_of_retry": (b"[children.retry]\nattempts = 1\n", "unknown key children.retry.attempts at line 2"),
    "inner": (b"[activity]\nA = { retry = { tries = 1 } }\n", "unknown key activity.A.retry.tries at line 2"),
    "dotted": (b"activity.A.retry.tries = 1\n", "unknown key activity.A.retry.tries at line 1"),
    "no_table_of_type": (b"[activity]\nCharge = 5\n", "bad value of activity.Charge at line 2"),
    "no_table_of_kind": (b"child = 5", "bad value of child at line 1"),
    "zero": (b"[activities]\nstart_to_close = 0\n", "bad value of activities.start_to_close at line 2"),
    "less": (b"[activities]\nheartbeat = -1\n", "bad value of activities.heartbeat at line 2"),
    "more": (b"[children]\nrun_timeout = 4294967296\n", "bad value of children.run_timeout at line 2"),
    "float": (b"[activities]\nschedule_to_close = 1.5\n", "bad value of activities.schedule_to_close at line 2"),
    "number": (b"[activities]\ntask_queue = 1\n", "bad value of activities.task_queue at line 2"),
    "text": (b"[failures]\nretryable = 'no'\n", "bad value of failures.retryable at line 2"),
    "close": (b"[children]\nparent_close = 'end'\n", "bad value of children.parent_close at line 2"),
    "reuse": (b"[children]\nid_reuse = 'always'\n", "bad value of children.id_reuse at line 2"),
    "no_retry": (b"[children]\nretry = 1\n", "bad value of children.retry at line 2"),
    "attempts": (b"[activities.retry]\nmaximum_attempts = 2147483648\n", "bad value of activities.retry.maximum_attempts at line 2"),
    "small": (b"[activities.retry]\nbackoff_coefficient = 0.5\n", "bad value of activities.retry.backoff_coefficient at line 2"),
    "whole": (b"[activities.retry]\nbackoff_coefficient = 2\n", "bad value of activities.retry.backoff_coefficient at line 2"),
    "infinite": (b"[activities.retry]\nbackoff_coefficient = inf\n", "bad value of activities.retry.backoff_coefficient at line 2"),
    "types": (b"[activities.retry]\nnon_retryable = [\n  'A',\n  1,\n]\n", "bad value of activities.retry.non_retryable at line 5"),
    "no_queue": (b"[activity.A]\ntask_queue = ''\n", "bad value of activity.A.task_queue at line 2"),
    "no_queue_of_child": (b"[children]\ntask_queue = ''\n", "bad value of children.task_queue at line 2"),
    "no_queue_of_run": (b"[continuation.A]\ntask_queue = ''\n", "bad value of continuation.A.task_queue at line 2"),
    # Times above others: in one table, of the general one, of a default, and where the line before that is no fault yet.
    "interval": (b"[activities.retry]\ninitial_interval = 60\nmaximum_interval = 10\n", "activities.retry.initial_interval above maximum_interval at line 3"),
    "interval_of_child": (b"[child.A]\nretry = { initial_interval = 2, maximum_interval = 1 }\n\n", "child.A.retry.initial_interval above maximum_interval at line 2"),
    "interval_of_run": (b"[continuations]\nretry = { maximum_interval = 1, initial_interval = 2 }", "continuations.retry.initial_interval above maximum_interval at line 2"),
    "interval_of_all": (b"[children.retry]\nmaximum_interval = 9\n[child.A.retry]\ninitial_interval = 10\n", "child.A.retry.initial_interval above maximum_interval at line 4"),
    "heartbeat": (b"[activities]\nheartbeat = 30\nstart_to_close = 29\n", "activities.heartbeat above start_to_close at line 3"),
    "heartbeat_of_all": (b"[activities]\nheartbeat = 30\nschedule_to_close = 29\n", "activities.heartbeat above schedule_to_close at line 3"),
    "heartbeat_of_type": (b"[activity.A]\nheartbeat = 6\n[activities]\nstart_to_close = 5\n", "activity.A.heartbeat above start_to_close at line 4"),
    "heartbeat_of_default": (b"[activity.A]\nheartbeat = 4000000000\n", "activity.A.heartbeat above start_to_close at line 2"),
    # A time that later lines correct is not told in place of another fault.
    "corrected": (b"[activity.A]\nheartbeat = 4000000000\n[activity.B]\nbeat = 1\n[activities]\nstart_to_close = 4000000000\n", "unknown key activity.B.beat at line 4"),
    "corrected_and_above": (b"[activity.A]\nheartbeat = 9\nstart_to_close = 9\n[activity.B]\nheartbeat = 9\nstart_to_close = 8\n", "activity.B.heartbeat above start_to_close at line 6"),
    # The first of two is told.
    "two": (b"[failures]\ntipe = 1\n[activities]\nheartbeat = 0\n", "unknown key failures.tipe at line 2"),
    "strange": (b'[activity."\\u001b"]\nx = 1\n', "unknown key activity.?.x at line 2"),
    "marked": (b"\xef\xbb\xbf[activities]\r\nheart = 1\r\n", "unknown key activities.heart at line 2"),
}
# Files that are taken.
TAKEN = {
    "empty": b"",
    "blank": b"\n# nothing\n",
    "no_end": b"[activities]\nheartbeat = 5",
    "all": b"[activity]\n[child]\n",
    "equal": b"[activities]\nheartbeat = 5\nstart_to_close = 5\nschedule_to_close = 5\nretry = { initial_interval = 5, maximum_interval = 5 }\n",
    "one_interval": b"[children.retry]\nmaximum_interval = 1\n[child.A.retry]\ninitial_interval = 1\n",
    "corrected": b"[activity.A]\nheartbeat = 4000000000\n[activities]\nstart_to_close = 4000000000\n",
    "factor": b"[activities.retry]\nbackoff_coefficient = 1.0\n",
}


def work(path):
    return ["work", "--task-queue", "q", "--workers", "1", "--policies", path]


def policies(room):
    """Files of policies."""
    bad = room.folder({name: file for name, (file, _) in REFUSED.items()})
    good = room.folder(TAKEN)
    missing, folder = str(room.new()), room.folder({})
    end = "taken 0, completed 0, failed 0, in hand 0\npolls 0, empty polls 0, answers not found 0, answers refused 0\n"
    return [
        *((work(f"{bad}/{name}"), 2, "", Like(f"wfhost: {bad}/{name}: {said}\n")) for name, (_, said) in REFUSED.items()),
        *((work(f"{good}/{name}"), 0, None, end) for name in TAKEN),
        (work(str(TOP / "examples/policies.toml")), 0, None, end),
        (work("empty"), 0, None, end, {"folder": Path(good)}),
        (work(missing), 2, "", cannot_read(missing, MISSING)),
        (work(folder), 2, "", cannot_read(folder, IS_FOLDER)),
        (work(""), 2, "", cannot_read("", MISSING)),
        (["work", "--task-queue", "q", "--policies"], 2, "", Like("error: *")),
        (work(missing) + ["--policies", missing], 2, "", Like("error: *")),
    ]
