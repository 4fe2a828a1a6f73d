"""The trimmed messages, in the place of those of Temporal's own package, so that the bridge can be tried without it."""

import sys
from pathlib import Path

sys.path.insert(0, str(Path(__file__).resolve().parents[4]))

from definitions import CLASSES  # noqa: E402

globals().update(CLASSES)
