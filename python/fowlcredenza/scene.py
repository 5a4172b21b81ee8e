"""A scene's lines as objects, read from its text and written back.

The library decides; this reader says which line of a refused scene is at fault and why, and lets a script change a line:

    scene = read(text)
    scene.lines[2] = dataclasses.replace(scene.inputs[0], since=1000)
    text = scene.text()
"""

from __future__ import annotations

import re
from dataclasses import dataclass
from typing import Callable, ClassVar, Iterator

from .numbers import INVALID_FIELD, INVALID_LINE, TOO_MANY_LINES
from .protocol import MAX_PROOFS

MOST_LINES = 64
# Where the text of a line is cut when it is shown.
SHOWN = 72


@dataclass(frozen=True)
class Form:
    """A form that a field can have: what matches it, in words, and how it is read and written."""

    pattern: re.Pattern
    words: str
    read: Callable
    write: Callable[..., str]
    limit: int | None = None

    def fits(self, field: str) -> bool:
        return bool(self.pattern.fullmatch(field)) and (self.limit is None or int(field) < self.limit)


def _digits_of(pattern: str, words: str) -> Form:
    return Form(re.compile(pattern), words, bytes.fromhex, bytes.hex)


HEX = _digits_of(r"(?:[0-9a-f]{2})*", "two lower-case hexadecimal digits a byte")
HASH = _digits_of(r"[0-9a-f]{64}", "64 lower-case hexadecimal digits")
OPTIONAL_HASH = _digits_of(r"(?:[0-9a-f]{64})?", "64 lower-case hexadecimal digits, or empty")
GROUP = Form(re.compile(r"[01]"), "0 or 1", lambda field: field == "1", lambda group: str(int(group)))
DECIMAL = Form(re.compile(r"0|[1-9][0-9]{0,19}"), "a decimal number below 2^64 without leading zeros", int, str, 2**64)
DIGITS = Form(re.compile(rf"[0-2]{{0,{MAX_PROOFS}}}"), "up to 16 of the digits 0, 1 and 2", str, str)

CELL = {"type_hash": OPTIONAL_HASH, "data_hash": HASH, "type_script": HEX, "data": HEX}


class Line:
    """A line: the word that it begins with, and its fields in their order, each with its form."""

    KIND: ClassVar[str]
    FIELDS: ClassVar[dict[str, Form]]

    def text(self) -> str:
        """The line without its ending."""
        return ",".join([self.KIND, *(form.write(getattr(self, name)) for name, form in self.FIELDS.items())])


@dataclass(frozen=True)
class Cell(Line):
    """What an input, an output and a dep have in common; type hash and type script are empty where there is no type script."""

    type_hash: bytes
    data_hash: bytes
    type_script: bytes
    data: bytes


@dataclass(frozen=True)
class Script(Line):
    KIND, FIELDS = "script", {"script": HEX}
    script: bytes


@dataclass(frozen=True)
class Transaction(Line):
    KIND, FIELDS = "tx", {"hash": HASH}
    hash: bytes


@dataclass(frozen=True)
class Input(Cell):
    KIND, FIELDS = "input", {"group": GROUP, "since": DECIMAL, **CELL, "capacity": DECIMAL}
    group: bool
    since: int
    capacity: int


@dataclass(frozen=True)
class Output(Cell):
    KIND, FIELDS = "output", {**CELL, "capacity": DECIMAL}
    capacity: int


@dataclass(frozen=True)
class Dep(Cell):
    KIND, FIELDS = "dep", CELL


@dataclass(frozen=True)
class Witness(Line):
    KIND, FIELDS = "witness", {"witness": HEX}
    witness: bytes


@dataclass(frozen=True)
class Verdicts(Line):
    KIND, FIELDS = "verdicts", {"digits": DIGITS}
    digits: str


# The kinds of line in the order in which they stand, and those that may stand several times.
KINDS = {kind.KIND: kind for kind in (Script, Transaction, Input, Output, Dep, Witness, Verdicts)}
ORDER = list(KINDS)
REPEATED = ORDER[2:6]


class LineFault(Exception):
    """The first line at fault, counted from 0, the number that the scene reader gives, and why."""

    def __init__(self, place: int, number: int, why: str):
        super().__init__(f"line {place + 1}: {why}")
        self.place, self.number, self.why = place, number, why


@dataclass
class Scene:
    """An accepted scene, line by line."""

    lines: list[Line]

    def of(self, kind: type) -> list:
        """The lines of a kind."""
        return [line for line in self.lines if isinstance(line, kind)]

    @property
    def script(self) -> bytes:
        return self.lines[0].script

    @property
    def transaction(self) -> bytes:
        return self.lines[1].hash

    @property
    def inputs(self) -> list[Input]:
        return self.of(Input)

    @property
    def outputs(self) -> list[Output]:
        return self.of(Output)

    @property
    def deps(self) -> list[Dep]:
        return self.of(Dep)

    @property
    def witnesses(self) -> list[bytes]:
        return [line.witness for line in self.of(Witness)]

    @property
    def verdicts(self) -> str:
        return self.lines[-1].digits

    @property
    def account(self) -> bytes:
        """The account's id: args end the script, and the id ends them."""
        return self.script[-32:]

    def cells(self) -> Iterator[tuple[int, Cell]]:
        """The places and the cells of inputs, outputs and deps."""
        return ((place, line) for place, line in enumerate(self.lines) if isinstance(line, Cell))

    def own_cells(self) -> list[tuple[int, Cell]]:
        """The places and the cells that hold a state of the account."""
        return [(place, cell) for place, cell in self.cells() if cell.type_hash and cell.type_hash == self.account]

    def with_verdicts(self, digits: str) -> Scene:
        return Scene([*self.lines[:-1], Verdicts(digits)])

    def text(self) -> bytes:
        return "".join(f"{line.text()}\n" for line in self.lines).encode()


def _follows(last: str | None, kind: str) -> bool:
    """Whether a line of a kind may stand after one of the kind `last`, None being the start."""
    if last in (None, "script"):
        return kind == ORDER[0 if last is None else 1]
    return ORDER.index(kind) > ORDER.index(last) or (kind == last and kind in REPEATED)


def _misplaced(last: str | None, kind: str, fields: list[str]) -> str | None:
    """What is wrong with a line's kind, its place or its count of fields."""
    if kind not in KINDS:
        return f"it begins with none of {', '.join(ORDER)}"
    if not _follows(last, kind):
        return f"{kind} may not stand {'first' if last is None else f'after {last}'}"
    wanted = len(KINDS[kind].FIELDS)
    return None if len(fields) == wanted else f"{kind} has {wanted} field{'s' * (wanted > 1)}, and not {len(fields)}"


def _malformed(kind: str, fields: list[str]) -> str | None:
    """What is wrong with the form of a line's fields."""
    given = dict(zip(KINDS[kind].FIELDS, fields))
    for name, form in KINDS[kind].FIELDS.items():
        if not form.fits(given[name]):
            return f"its {name.replace('_', '').upper()} is not {form.words}"
    if issubclass(KINDS[kind], Cell) and (given["type_hash"] == "") != (given["type_script"] == ""):
        return "just one of TYPEHASH and TYPESCRIPT is empty"
    return None


def _line(kind: str, fields: list[str]) -> Line:
    forms = KINDS[kind].FIELDS
    return KINDS[kind](**{name: form.read(field) for (name, form), field in zip(forms.items(), fields)})


def read(text: bytes) -> Scene:
    """The scene that a text says. A line that document 01's rows refuse is a LineFault; the text's length is not tested."""
    *lines, rest = text.decode("latin-1").split("\n")
    found, last, count = [], None, 0
    for place, line in enumerate(lines):
        kind, *fields = line.split(",")
        if why := _misplaced(last, kind, fields):
            raise LineFault(place, INVALID_LINE, why)
        count = count + 1 if kind == last else 1
        if count > MOST_LINES:
            raise LineFault(place, TOO_MANY_LINES, f"it is the 65th {kind}")
        if why := _malformed(kind, fields):
            raise LineFault(place, INVALID_FIELD, why)
        found.append(_line(kind, fields))
        last = kind
    if rest or last != "verdicts":
        raise LineFault(len(lines), INVALID_LINE, "it does not end with byte 10" if rest else "a line is missing")
    return Scene(found)


def shown(text: bytes, place: int) -> str:
    """A line's number and its text, cut where it is long."""
    line = text.split(b"\n")[place].decode("ascii", "backslashreplace")
    if place == text.count(b"\n"):
        words = f"{line[:SHOWN]} (the scene ends here)".lstrip()
    else:
        words = line if len(line) <= SHOWN else f"{line[:SHOWN]}.. ({len(line)} characters)"
    return f"line {place + 1}: {words}"
