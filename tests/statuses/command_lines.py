"""Helps, lines that ask for nothing that can be done, and the name by which the program is called."""

from .rooms import NAP
from .runs import Like
from .texts import FEW_SLOTS, KNOWN_TYPES, MISSING, NO_COMMAND, VERSION, cannot_read
from .verdicts import SERVED_VERDICTS, TOLD_VERDICTS, VERDICTS

HELP = f"""Usage: wfhost [COMMAND]

Commands:
  replay   Replays each history of folders and files, and prints a line for each
  explain  Replays a history, and prints what the workflow was told and gave, task by task
  query    Replays a history, and prints what the workflow answers to a query after its last task
  check    Checks workflows that are tables in files, and prints each fault
  try      Gives workflows that are tables in files the jobs of scenarios, and prints their commands
  serve    Serves each history of a folder as workflow tasks, and prints how they ended
  work     Serves live tasks, which it asks for and answers in JSON on the standard output and input
  help     Print this message or the help of the given subcommand(s)

Options:
  -h, --help     Print help
  -V, --version  Print version

Status:
  0  each file was read, and no task of it has a fault
  1  the report names a file or a task that has one
  2  there is no report; standard error says why
  3  replay --strict-values: values of files differ, and none has a fault

Workflow types: {KNOWN_TYPES}
"""
REPLAY_HELP = """Replays each history of folders and files, and prints a line for each

Usage: wfhost replay [OPTIONS] <PATH>...

Arguments:
  <PATH>...  A folder whose .json files are read, a file, or - for the standard input

Options:
      --json           Prints the report as JSON
      --require-files  Fails where there is no history
      --strict-values  Warns of inputs, results and durations that differ
      --progress       Prints on the standard error how many files are done, also where that is no terminal
  -h, --help           Print help
"""
EXPLAIN_HELP = """Replays a history, and prints what the workflow was told and gave, task by task

Usage: wfhost explain [OPTIONS] <FILE>...

Arguments:
  <FILE>...  The history file that is read, or - for the standard input; with --recorded also more files, and folders

Options:
      --json            Prints the explanation as JSON
      --recorded        Prints what is recorded, of any workflow type, and replays nothing
      --html            Prints a page of the run as one HTML file
      --all             All tasks, also those that are alike or have nothing to do with a fault
      --around <EVENT>  Only the task of this event, two before and two after it
      --last <N>        Only the last N tasks
  -h, --help            Print help
"""
QUERY_HELP = """Replays a history, and prints what the workflow answers to a query after its last task

Usage: wfhost query [OPTIONS] <FILE> <TYPE> [JSON]...

Arguments:
  <FILE>     The history file that is read, or - for the standard input
  <TYPE>     The query type
  [JSON]...  The arguments of the query, each a JSON text; -- before one that begins with -

Options:
      --json  Prints the verdict and the result as JSON
  -h, --help  Print help
"""
CHECK_HELP = """Checks workflows that are tables in files, and prints each fault

Usage: wfhost check [OPTIONS] <FILE>...

Arguments:
  <FILE>...  A table (JSON), or - for the standard input

Options:
      --json  Prints the faults as JSON
      --html  Prints a page with a picture of the states
  -h, --help  Print help
"""
TRY_HELP = """Gives workflows that are tables in files the jobs of scenarios, and prints their commands

Usage: wfhost try [OPTIONS] <FILE>...

Arguments:
  <FILE>...  A table (JSON) or a folder of tables; behind one table also a scenario: 'start ..', jobs, and after => \
their commands. Without it the file beside each table, whose name ends in .txt

Options:
      --json  Prints the runs as JSON
  -h, --help  Print help
"""
SERVE_HELP = """Serves each history of a folder as workflow tasks, and prints how they ended

Usage: wfhost serve [OPTIONS] <DIR>

Arguments:
  <DIR>  The folder whose .json files are read

Options:
      --workers <N>       How many workers poll at once, 1 to 64 [default: 1]
      --cache <N>         How many runs the cache keeps, 0 to 10000 [default: 100]
      --cache-events <N>  How much the cached runs weigh: 1 an event, 1 a KiB of input, where 0 is no bound, 0 to 512000000 [default: 0]
      --slots <N>         How many tasks of each kind are processed at once, 1 to 1000 [default: 100]
      --require-files     Fails where there is no history
      --progress          Prints on the standard error how many files are done, also where that is no terminal
  -h, --help              Print help
"""
WORK_HELP = """Serves live tasks, which it asks for and answers in JSON on the standard output and input

Usage: wfhost work [OPTIONS] --task-queue <NAME>

Options:
      --task-queue <NAME>           The Task Queue whose tasks are served
      --namespace <NAME>            The namespace of the Task Queue [default: default]
      --identity <NAME>             The identity that the server records for this process [default: wfhost]
      --workers <N>                 How many workers poll for workflow tasks, 1 to 64 [default: 2]
      --cache <N>                   How many runs the cache keeps, 0 to 10000 [default: 100]
      --cache-events <N>            How much the cached runs weigh: 1 an event, 1 a KiB of input, where 0 is no bound, 0 to 512000000 [default: 0]
      --slots <N>                   How many tasks of each kind are processed at once, 1 to 1000 [default: 100]
      --activity-workers <N>        How many workers more poll for activity tasks, of 64 workers at most, 0 to 63 [default: 0]
      --activity-timeout <SECONDS>  How long an activity may take from its start, 1 to 4294967295 [default: 60]
      --activity-attempts <N>       How often an activity is tried, where 0 leaves it to the server, 0 to 65535 [default: 1]
      --policies <FILE>             A TOML file that says what the server is asked for with activities, children and failures
      --sticky-timeout <SECONDS>    How long a task waits for the workers that keep its run, 1 to 4294967295 [default: 10]
      --verbose                     Prints a line for each task on the standard error
      --stats <SECONDS>             Prints the counts on the standard error at this interval, 1 to 4294967295
      --json                        Prints the counts as JSON
      --metrics <FILE>              A file in which the counts are kept, in the form that Prometheus reads
  -h, --help                        Print help

Status:
  0  it was told to shut down, or its input ended, and no call failed for good
  1  a call failed for good
  2  it did not begin; standard error says why
"""


def command_lines(room):
    """Helps, and lines that ask for nothing that can be done."""
    well = room.folder({"nap.json": NAP})
    bad = [
        ["explain"],
        ["explain", well, well],
        ["explain", "--html", "--recorded", well, well],
        *(["explain", "--recorded", *words, well, well] for words in (["--all"], ["--last", "1"], ["--around", "1"])),
        ["replay"],
        ["replay", "--json"],
        ["replay", well, "--json", "--json"],
        ["serve"],
        ["serve", well, well],
        ["serve", well, "--json"],
        ["serve", well, "--progress", "--progress"],
        ["no-such-command"],
        ["check"],
        ["try"],
        ["try", well, "start", "start"],
        ["try", well, "start", well],
        ["try", "--json", "--json", well],
        *(["serve", well, "--workers", number] for number in ("0", "65", "x", "")),
        *(["serve", well, "--cache", number] for number in ("-1", "10001")),
        ["serve", well, "--cache-events", "512000001"],
        *(["serve", well, "--slots", number] for number in ("0", "1001", "18446744073709551616")),
        ["work"],
        ["work", "--task-queue", ""],
        ["work", "--task-queue", "q", well],
        *(["work", "--task-queue", "q", "--workers", number] for number in ("0", "65", "x")),
        ["work", "--task-queue", "q", "--activity-workers", "63"],
        ["work", "--task-queue", "q", "--activity-timeout", "0"],
    ]
    return [
        *((words, 0, HELP, "") for words in (["--help"], ["-h"], ["help"])),
        *((words, 0, VERSION, "") for words in (["--version"], ["-V"])),
        *((words, 0, REPLAY_HELP, "") for words in (["replay", "--help"], ["help", "replay"])),
        *((words, 0, EXPLAIN_HELP, "") for words in (["explain", "--help"], ["help", "explain"])),
        *((words, 0, QUERY_HELP, "") for words in (["query", "--help"], ["help", "query"])),
        *((words, 0, CHECK_HELP, "") for words in (["check", "--help"], ["help", "check"])),
        *((words, 0, TRY_HELP, "") for words in (["try", "--help"], ["help", "try"])),
        *((words, 0, SERVE_HELP, "") for words in (["serve", "--help"], ["help", "serve"])),
        *((words, 0, WORK_HELP, "") for words in (["work", "--help"], ["help", "work"])),
        ([], 2, "", NO_COMMAND),
        *((words, 2, "", Like("error: *")) for words in bad),
        (["serve", well, "--workers", "4", "--slots", "3"], 2, "", FEW_SLOTS),
        (["serve", str(room.new()), "--workers", "4", "--slots", "3"], 2, "", FEW_SLOTS),
        (["work", "--task-queue", "q", "--slots", "1"], 2, "", FEW_SLOTS),
        (["work", "--task-queue", "q", "--activity-workers", "3", "--slots", "2"], 2, "", FEW_SLOTS),
        ([b"replay", b"\xff"], 2, "", "wfhost: arguments must be UTF-8 text\n"),
    ]


def names(room):
    """Lines begin with the last part of the path by which the program was called."""
    verdicts, empty, missing = room.folder(VERDICTS), room.folder({}), str(room.new())
    unread = cannot_read(missing, MISSING)
    called = [
        (["serve", verdicts], 1, SERVED_VERDICTS, TOLD_VERDICTS),
        (["replay", empty], 0, "0 files, 0 ok\n", f"wfhost: no .json file in {empty}\n"),
        (["replay", missing], 2, "", unread),
        (["serve", empty, "--workers", "4", "--slots", "3"], 2, "", FEW_SLOTS),
        ([], 2, "", NO_COMMAND),
        (["--version"], 0, VERSION, ""),
    ]
    renamed = [(words, status, *(text.replace("wfhost", "orders") for text in texts)) for words, status, *texts in called]
    return [
        *((*row, {"called": path}) for row in renamed for path in ("orders", "./bin/orders", "/nowhere/orders")),
        *((["replay", missing], 2, "", unread, {"called": path}) for path in ("", "/", "..")),
        (["replay", missing], 2, "", unread.replace("wfhost", "my orders?"), {"called": "/tmp/my orders\x1b"}),
        # The name is among the words, and these can't be read here.
        ([b"replay", b"\xff"], 2, "", "wfhost: arguments must be UTF-8 text\n", {"called": "orders"}),
    ]
