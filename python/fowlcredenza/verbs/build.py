"""Makes the library, where a crate has changed since it was made.

It runs tools/library, which proves every crate that the library is made of, and shows how many of how many are proved. It needs
the Rattle toolchain and gcc.
"""

from __future__ import annotations

import re
import subprocess
import sys
import time
from typing import Iterable

from ..errors import cannot
from ..files import read_text
from ..outcome import DONE, REFUSED, Outcome
from ..paths import CRATES, LIBRARY, MAKER, ROOT, short

# The lines of tools/library that say that a crate is proved.
PROVED = re.compile(r"library: (\w+) proved$")


def arguments(_options) -> None:
    pass


def _listed() -> dict[str, list[str]]:
    """The repository's crates, each with those that it is built on; behind a static library's name its line says so."""
    lines = read_text(str(CRATES)).splitlines()
    named = (line.split(":") for line in lines if ":" in line and not line.startswith("#"))
    crates = {name.split()[0]: rest.split() for name, rest in named}
    return {name: [other for other in others if other in crates] for name, others in crates.items()}


def crates_of_library() -> set[str]:
    """The crates that the library is made of."""
    listed = _listed()
    found, waiting = set(), [name for name in listed if name.startswith("exports")]
    while waiting:
        name = waiting.pop()
        if name not in found:
            found.add(name)
            waiting += listed[name]
    return found


def _follow(lines: Iterable[str], crates: set[str]) -> list[str]:
    """Shows each crate as it is proved; returns all that was said, for the case that it ends badly."""
    said, proved = [], set()
    for line in lines:
        said.append(line.rstrip("\n"))
        if found := PROVED.match(line):
            name = found[1]
            if name in crates and name not in proved:
                proved.add(name)
                print(f"{len(proved)} of {len(crates)} crates proved: {name}", file=sys.stderr, flush=True)
    return said


def run(_options) -> Outcome:
    began, crates = time.monotonic(), crates_of_library()
    try:
        maker = subprocess.Popen(
            ["bash", str(MAKER)], cwd=ROOT, stdout=subprocess.PIPE, stderr=subprocess.STDOUT, text=True, errors="replace"
        )
    except OSError as error:
        raise cannot("bash", error) from None
    said = _follow(maker.stdout, crates)
    made, seconds = maker.wait() == 0, round(time.monotonic() - began)
    data = {"library": short(LIBRARY), "made": made, "crates": len(crates), "seconds": seconds}
    if not made:
        return Outcome(REFUSED, [*said, f"{short(LIBRARY)} is not made"], {**data, "said": said})
    return Outcome(DONE, [f"{short(LIBRARY)} is up to date, of {len(crates)} crates, after {seconds} s"], data)
