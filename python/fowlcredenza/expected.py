"""Lists of expected answers, lines `NAME answer,..` as samples/answers.txt has them, and what differs from them."""

from __future__ import annotations

import re

from .errors import Misuse
from .files import read_text, title

LINE = re.compile(r"(.+) (answer,\d+,\d+,\d+,(?:[0-9a-f]{64})?,\d*)")


def read_expected(name: str) -> dict[str, str]:
    """The expected lines by the names of their scenes."""
    expected = {}
    for place, line in enumerate(read_text(name).splitlines(), 1):
        found = LINE.fullmatch(line)
        if not found:
            raise Misuse(f"{title(name)}: line {place}: not of the form `NAME answer,NUMBER,COUNT,LENGTH,DIGEST,FEE`")
        if found[1] in expected:
            raise Misuse(f"{title(name)}: line {place}: a second line for {found[1]}")
        expected[found[1]] = found[2]
    return expected


def compare(given: list[tuple[str, str]], expected: dict[str, str], whole: bool) -> list[str]:
    """What differs, name by name; with `whole`, expected names that are not given differ too."""
    differences = [
        f"{name}: {line}, expected {expected.get(name, 'no such scene')}"
        for name, line in given
        if expected.get(name) != line
    ]
    missing = expected.keys() - {name for name, _ in given} if whole else ()
    return differences + [f"{name}: no scene, expected {expected[name]}" for name in expected if name in missing]
