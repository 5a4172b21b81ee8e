"""How far a long command is, on standard error where that is a terminal."""

from __future__ import annotations

import sys
import time

# Seconds between two lines.
PAUSE = 0.2


class Progress:
    """A line `N of M` that is written over as the work goes on."""

    def __init__(self, total: int):
        self.done, self.total = 0, total
        self.shown = sys.stderr.isatty() and total > 1
        self.next = time.monotonic() + PAUSE

    def step(self) -> None:
        self.done += 1
        if self.shown and time.monotonic() >= self.next:
            self.next = time.monotonic() + PAUSE
            print(f"\r{self.done:,} of {self.total:,}", end="", file=sys.stderr, flush=True)

    def end(self) -> None:
        """Wipes the line."""
        if self.shown:
            print("\r\033[K", end="", file=sys.stderr, flush=True)
