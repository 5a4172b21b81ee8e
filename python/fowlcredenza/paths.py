"""Where things are in the repository."""

from __future__ import annotations

import os
from pathlib import Path

ROOT = Path(__file__).resolve().parents[2]
NUMBERS = ROOT / "docs/NUMBERS.md"
CRATES = ROOT / "crates.txt"
MAKER = ROOT / "tools/library"
LIBRARY = ROOT / "target/lib/libfowlcredenza.so"


def library_path() -> Path:
    """The library that FOWLCREDENZA_LIBRARY names, else the one that tools/library makes."""
    return Path(os.environ.get("FOWLCREDENZA_LIBRARY") or LIBRARY)


def short(path: Path) -> str:
    """A path as a user of the repository would write it: from its root where it is inside."""
    return str(path.relative_to(ROOT) if path.is_relative_to(ROOT) else path)
