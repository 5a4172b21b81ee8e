"""Prints the answer line of scenes.

Several files, or a folder's *.scene in order, give a line `NAME answer,..` each, as samples/answers.txt has them, and counts by
number on standard error. Scenes have up to 1,048,576 bytes. A file that can't be read is told, and the others are decided; then
the exit status is 2, else 1 if any scene is refused. With --expect it is 1 on a difference, and the differences are printed.
"""

from __future__ import annotations

import sys
from collections import Counter
from dataclasses import dataclass, field
from pathlib import Path

from ..answer import Answer
from ..errors import Misuse
from ..expected import compare, read_expected
from ..files import read_scene
from ..library import Library
from ..numbers import name_of
from ..outcome import DONE, MISUSED, REFUSED, Outcome
from ..progress import Progress


def arguments(options) -> None:
    options.add_argument("files", metavar="FILE", nargs="+", help="a scene, a folder of *.scene, or - for standard input")
    options.add_argument("--expect", metavar="LIST", help="compare with the lines `NAME answer,..` of this file")


@dataclass
class Decided:
    """The answers by the names of their files, and the files that can't be read with why."""

    answers: list[tuple[str, Answer]] = field(default_factory=list)
    unread: dict[str, str] = field(default_factory=dict)

    def counts(self) -> Counter:
        return Counter(answer.number for _, answer in self.answers)


def _scenes(words: list[str]) -> list[str]:
    """The files that are named, a folder standing for its scenes."""
    files = []
    for word in words:
        found = sorted(str(path) for path in Path(word).glob("*.scene")) if Path(word).is_dir() else [word]
        if not found:
            raise Misuse(f"{word}: a folder without a *.scene file")
        files += found
    return files


def _decide(library: Library, files: list[str]) -> Decided:
    decided, progress = Decided(), Progress(len(files))
    for file in files:
        try:
            decided.answers.append((file, library.decide_scene(read_scene(file))))
        except Misuse as error:
            decided.unread[file] = str(error)
        progress.step()
    progress.end()
    return decided


def _tell(decided: Decided, several: bool) -> None:
    """Files that can't be read, and counts by number, on standard error."""
    for why in decided.unread.values():
        print(f"fowlcredenza decide: {why}", file=sys.stderr)
    if several:
        for number, count in sorted(decided.counts().items()):
            print(f"{count:8} {number:2} {name_of(number)}", file=sys.stderr)


def _data(decided: Decided) -> dict:
    answers = [{"file": file, **answer.data(), "line": answer.line()} for file, answer in decided.answers]
    counts = {str(number): count for number, count in sorted(decided.counts().items())}
    return {"answers": answers, "counts": counts, "unread": decided.unread}


def _name(file: str) -> str:
    return Path(file).name


def _answered(decided: Decided, several: bool) -> tuple[int, list[str]]:
    """The exit status and the answers as they are printed."""
    lines = [f"{_name(file)} {answer.line()}" if several else answer.line() for file, answer in decided.answers]
    return DONE if all(answer.accepted for _, answer in decided.answers) else REFUSED, lines


def _compared(decided: Decided, expected: dict[str, str], whole: bool) -> tuple[int, list[str]]:
    """The exit status and what differs from the expected lines; with `whole`, names in the list without a scene too."""
    given = [(_name(file), answer.line()) for file, answer in decided.answers]
    names = {_name(file) for file in decided.unread}
    differences = compare(given, {name: line for name, line in expected.items() if name not in names}, whole)
    print(f"{len(given):,} scenes compared, {len(differences):,} differences", file=sys.stderr)
    return REFUSED if differences else DONE, differences


def run(options) -> Outcome:
    expected = read_expected(options.expect) if options.expect else None
    files = _scenes(options.files)
    whole = any(Path(word).is_dir() for word in options.files)
    several = len(files) > 1 or whole
    decided = _decide(Library(), files)
    _tell(decided, several)
    status, lines = _answered(decided, several) if expected is None else _compared(decided, expected, whole)
    data = _data(decided) if options.json else {}
    if expected is not None:
        data["differences"] = lines
    return Outcome(MISUSED if decided.unread else status, lines, data)
