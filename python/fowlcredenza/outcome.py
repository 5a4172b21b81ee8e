"""What a verb gives: its exit status, the lines to print, and the same for JSON."""

from __future__ import annotations

from dataclasses import dataclass
from typing import Any

# Exit statuses: accepted or done; refused; misuse, or a file that can't be read.
DONE, REFUSED, MISUSED = range(3)


@dataclass(frozen=True)
class Outcome:
    status: int
    lines: list[str]
    data: Any
