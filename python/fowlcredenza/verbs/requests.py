"""Writes the request of every proof of a scene to files, with a list to be filed.

Each request's bytes are a file; requests.json lists them with proof place (from 1), slot, algorithm, digest, CKB's hash of the
request's bytes, length, file and verdict, which is null until a tester writes approved, refused or failed. The scene's own
verdicts do not count. Where not all requests can be made, those that were are written, and the exit status is 1.
"""

from __future__ import annotations

import json
from pathlib import Path

from ..errors import Misuse, cannot
from ..explanation import explain
from ..files import create, read_scene
from ..library import Library
from ..outcome import DONE, REFUSED, Outcome
from ..protocol import algorithm_in_words
from ..requests import Made, Request, make

LIST = "requests.json"


def arguments(options) -> None:
    options.add_argument("file", metavar="FILE", help="a scene, or - for standard input")
    options.add_argument("--out", metavar="DIR", type=Path, required=True, help="the folder to write to; it is made if need be")


def _write(requests: list[Request], folder: Path) -> None:
    """The requests' files, then the list. A list that is there stays, since a tester may have filled it in."""
    if (folder / LIST).exists():
        raise Misuse(f"{folder / LIST}: there is a list already; name another folder")
    try:
        folder.mkdir(parents=True, exist_ok=True)
    except OSError as error:
        raise cannot(folder, error) from None
    for request in requests:
        create(folder / request.file, request.data)
    create(folder / LIST, (json.dumps([request.row() for request in requests], indent=2) + "\n").encode())


def _in_words(request: Request) -> str:
    words = f"proof {request.proof}: slot {request.slot}, {algorithm_in_words(request.algorithm)}"
    return f"{words}, {len(request.data):,} bytes, {request.file}"


def _why(library: Library, made: Made) -> list[str]:
    """Why not all requests were made."""
    return [] if made.all_made else explain(library, made.text).lines(made.text)


def run(options) -> Outcome:
    library = Library()
    made = make(library, read_scene(options.file))
    lines = [_in_words(request) for request in made.requests]
    if made.requests or made.all_made:
        _write(made.requests, options.out)
        lines.append(f"{options.out / LIST}: a list of {len(lines)}, for their verdicts")
    lines += _why(library, made)
    data = {"file": options.file, "all_made": made.all_made, **made.answer.data()}
    return Outcome(
        DONE if made.all_made else REFUSED,
        lines,
        {**data, "requests": [request.row() for request in made.requests]},
    )
