#!/usr/bin/env python3
"""Checks the types of the bridge by `mypy --strict`, as bridge/mypy.ini says: each file of the bridge is a row.

    tests/bridge_types.py

The last line is `N tried, M wrong`, or `skipped: WHY` where mypy is not there (`apt-get install mypy` or `pip install mypy`)."""

import os
import shutil
import subprocess
import sys

from rows import TOP, try_rows, words_of

LIMIT_SECONDS = 300
OPTIONS = ["--config-file", "bridge/mypy.ini", "--cache-dir", os.devnull, "--no-error-summary"]


def types():
    """Yields each file of the bridge, with what mypy says of it, or with all that it says where it could check none."""
    files = sorted(str(file.relative_to(TOP)) for file in (TOP / "bridge").glob("*.py"))
    ran = subprocess.run(["mypy", *OPTIONS, *files], cwd=TOP, capture_output=True, text=True, timeout=LIMIT_SECONDS)
    for file in files:
        own = [line.removeprefix(f"{file}:") for line in ran.stdout.splitlines() if line.startswith(f"{file}:")]
        yield file, own if ran.returncode in (0, 1) else (ran.stdout + ran.stderr).strip()


if __name__ == "__main__":
    asked = words_of(__doc__).parse_args()
    if not shutil.which("mypy"):
        print("skipped: mypy is not there, and the types of the bridge need it")
        sys.exit(0)
    sys.exit(try_rows(types(), asked))
