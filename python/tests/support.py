"""What the tests share: the command, as a program or called in this process; samples, recorded scenes, and edits of them."""

import contextlib
import functools
import io
import json
import os
import pathlib
import subprocess
import sys
import tempfile
import unittest
import unittest.mock
from dataclasses import replace

from fowlcredenza import scene
from fowlcredenza.command import main
from fowlcredenza.library import Library
from fowlcredenza.protocol import ckb_hash, number_at

ROOT = pathlib.Path(__file__).resolve().parents[2]
COMMAND = ROOT / "tools/fowlcredenza"
SAMPLES = ROOT / "samples"
SPEND = SAMPLES / "spend.scene"
RECORDED = ROOT / "crates/test_lock/stdin"
# Accepted samples whose hashes, states and capacities are changed.
EDITED = ("spend.scene", "spend_two_proofs.scene", "rotation.scene", "recovery.scene", "recovery_epochs.scene")


class Result:
    """What a command gave: exit status, standard output and standard error."""

    def __init__(self, status, out, err):
        self.status, self.out, self.err = status, out, err

    @property
    def lines(self):
        return self.out.splitlines()

    @property
    def json(self):
        return json.loads(self.out)

    def __repr__(self):
        return f"status {self.status}\n{self.out}\n{self.err}"


def run(*words, stdin=b"", command=COMMAND, **environment):
    """The command as a program, by the python3 that runs the tests."""
    words = [sys.executable, str(command), *map(str, words)]
    done = subprocess.run(words, input=stdin, capture_output=True, env={**os.environ, **environment}, check=False)
    return Result(done.returncode, done.stdout.decode(), done.stderr.decode())


def call(*words, stdin=b""):
    """The command in this process."""
    out, err = io.StringIO(), io.StringIO()
    given = unittest.mock.patch("sys.stdin", io.TextIOWrapper(io.BytesIO(stdin)))
    with contextlib.redirect_stdout(out), contextlib.redirect_stderr(err), given:
        try:
            status = main([str(word) for word in words])
        except SystemExit as end:
            status = end.code
    return Result(status, out.getvalue(), err.getvalue())


@functools.cache
def library():
    return Library()


def sample(name):
    return scene.read((SAMPLES / name).read_bytes())


@functools.cache
def answers():
    """The program's line for each sample."""
    return dict(line.split(" ") for line in (SAMPLES / "answers.txt").read_text().splitlines())


def samples_of(number):
    """The samples that have a number."""
    return [name for name, line in answers().items() if line.split(",")[1] == str(number)]


@functools.cache
def recorded():
    """The recorded scenes with their answers: a length, the scene, and its line."""
    rest, found = RECORDED.read_bytes(), []
    while rest:
        length, _, rest = rest.partition(b"\n")
        text, (line, _, rest) = rest[: int(length)], rest[int(length) :].partition(b"\n")
        found.append((text, line.decode()))
    return found


def with_line(read, place, line):
    """The scene with another line at that place."""
    return scene.Scene([*read.lines[:place], line, *read.lines[place + 1 :]])


def with_state(cell, state):
    """The cell with this state and its hash."""
    return replace(cell, data=state, data_hash=ckb_hash(state))


def own_cell(read, kind):
    """Place and line of the only cell of a kind that holds a state of the account."""
    ((place, cell),) = [(place, cell) for place, cell in read.own_cells() if isinstance(cell, kind)]
    return place, cell


def entries_of(state):
    """Where the entries of a state stand."""
    places = [32]
    for _ in range(1, state[22]):
        places.append(places[-1] + number_at(state, places[-1]))
    return places


class Case(unittest.TestCase):
    """Tests with a folder of their own."""

    maxDiff = None

    def setUp(self):
        folder = tempfile.TemporaryDirectory()
        self.addCleanup(folder.cleanup)
        self.folder = pathlib.Path(folder.name)

    def write(self, name, data):
        path = self.folder / name
        path.write_bytes(data)
        return path
