#!/usr/bin/env python3
"""Starts the built program in the ways that no contract speaks of, and compares its status and both streams with what
docs/use/USAGE.md and docs/judge/DEFINITIONS.md say. The commands that pages show are run as they stand there. The tables of
rows stand in the folder statuses/, by their subjects. It is a part of `./test`: its last line is `N tried, M wrong`, and its
status is 1 where something is wrong."""

import os
import sys
import tempfile
from functools import partial
from itertools import chain
from pathlib import Path

from rows import PROGRAM, need, pick, try_rows, words_of
from statuses import (
    command_lines, counts, deploys, files, policies, progress, queries, reports, sdk_runs, services, shown, streams, tables, values,
    views,
)
from statuses.rooms import Room
from statuses.runs import compared

# Each row of a table is words, a status, both streams, and how the program is started.
TABLES = [
    command_lines.command_lines,
    command_lines.names,
    reports.reports,
    progress.progress,
    values.strict_values,
    views.views,
    views.overviews,
    sdk_runs.sdk_runs,
    tables.tables,
    tables.trials,
    queries.queries,
    files.files,
    files.odd_names,
    files.links_and_pipes,
    files.rights,
    policies.policies,
    streams.sizes,
    streams.streams,
    shown.shown,
    deploys.open_runs,
]
# These start the program themselves.
MEASURES = [counts.kept_counts, progress.terminals, services.cache_options, services.worker_options, services.short_memory]


def main():
    groups = {table.__name__: partial(compared, group=table) for table in TABLES}
    groups |= {measure.__name__: measure for measure in MEASURES}
    parser = words_of(__doc__)
    parser.add_argument("program", metavar="PROGRAM", nargs="?", type=Path, default=PROGRAM, help="the program to try")
    parser.add_argument("groups", metavar="GROUP", nargs="*", help="tables: " + ", ".join(groups))
    asked = parser.parse_args()
    chosen = pick(parser, groups, asked.groups)
    need(parser, asked.program)
    os.umask(0o022)
    with tempfile.TemporaryDirectory() as path:
        room = Room(path, asked.program)
        rows = chain.from_iterable(group(room) for group in chosen.values())
        return try_rows(((f"wfhost {words}", why) for words, why in rows), asked)


if __name__ == "__main__":
    sys.exit(main())
