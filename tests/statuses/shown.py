"""What pages show of the program: commands, and what they print."""

import re
import shlex
import textwrap

from .rooms import TOP
from .runs import Like

# A command at the top of the repository, and the lines that it prints.
SHOWN = re.compile(r"^    \$ \./wfhost (.*)\n((?:    (?!\$ ).*\n)+)", re.MULTILINE)
# The statuses that are not 0.
STATUSES = {"replay examples/renamed": 1, "check examples/broken/order.json": 1}


def shown(room):
    """Each command that README or a page of docs shows prints what stands below it there. A line `..` stands for any others, and
    a job without commands has a space after its arrow."""
    for page in (TOP / "README.md", *sorted((TOP / "docs").glob("*/*.md"))):
        for words, printed in SHOWN.findall(page.read_text(encoding="utf-8")):
            lines = re.sub(r" =>$", " => ", textwrap.dedent(printed), flags=re.MULTILINE)
            lines = Like(re.sub(r"^\.\.$", "*", lines, flags=re.MULTILINE))
            yield shlex.split(words), STATUSES.get(words, 0), lines, "", {"folder": TOP, "merged": True}
