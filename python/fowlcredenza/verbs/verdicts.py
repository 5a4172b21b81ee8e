"""Prints a scene with its verdicts line filled in from a list of requests.

The list is the requests.json of `fowlcredenza requests`, with each verdict as approved, refused or failed; null counts as
failed. A list whose requests are not this scene's is refused.
"""

from __future__ import annotations

from ..explanation import explain
from ..files import read_scene, read_text, title
from ..library import Library
from ..outcome import DONE, REFUSED, Outcome
from ..requests import Made, difference, digits_of, make, rows_of


def arguments(options) -> None:
    options.add_argument("file", metavar="FILE", help="a scene, or - for standard input")
    options.add_argument("--from", metavar="LIST", dest="list", required=True, help="the list with the verdicts")


def _no_scene(library: Library, made: Made) -> Outcome:
    explanation = explain(library, made.text)
    return Outcome(REFUSED, explanation.lines(made.text), explanation.data())


def run(options) -> Outcome:
    library = Library()
    rows = rows_of(title(options.list), read_text(options.list))
    made = make(library, read_scene(options.file))
    if made.scene is None:
        return _no_scene(library, made)
    if why := difference(made, rows):
        words = f"{title(options.list)}: {why}"
        return Outcome(REFUSED, [f"refused: {words}"], {"file": options.file, "refused": words})
    digits = digits_of(rows)
    text = made.scene.with_verdicts(digits).text().decode()
    return Outcome(DONE, text.splitlines(), {"file": options.file, "verdicts": digits, "scene": text})
