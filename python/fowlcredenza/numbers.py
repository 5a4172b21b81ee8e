"""What a number is called and when it is given, in docs/NUMBERS.md's words."""

from __future__ import annotations

import functools
import re
from dataclasses import dataclass

from .errors import Misuse, cannot
from .paths import NUMBERS, short

ACCEPTED = 0
INVALID_LINE = 2
INVALID_FIELD = 3
TOO_MANY_LINES = 4
INVALID_STATE = 21
THRESHOLD_UNSATISFIED = 28
INVALID_VERIFIER_REF = 30
UNSUPPORTED_VERSION = 32
UNSUPPORTED_ALGORITHM = 33
RECOVERY_LOCKED = 34
UNSATISFIABLE_THRESHOLD = 38
LENGTH_OVERFLOW = 39
HASH_MISMATCH = 40
INVALID_SINCE = 42
AUX_TOO_LONG = 44
OUTPUTS_EXCEED_INPUTS = 48
SESSION_WITHDRAWN = 49

# How a sentence begins that is about the proofs or what comes after them: there the digest is reached.
LATE = re.compile(r"walk:|lock, (walk|(behind|after) (the proofs|28)|last):", re.I)


@dataclass(frozen=True)
class Number:
    """A row of the table: what readers and writers give it for, and when the scene reader and the lock give it."""

    number: int
    name: str
    formats: str
    lock: str

    @property
    def words(self) -> str:
        """What the table says of it, the formats first."""
        return "; ".join(part for part in (self.formats, self.lock) if part)

    def rows(self, reached: bool) -> list[str]:
        """The sentences on the lock that fit: of the proofs and what follows where the digest is reached, else the others."""
        sentences = [sentence.rstrip(".") for sentence in self.lock.split(". ")]
        fitting = [sentence for sentence in sentences if bool(LATE.match(sentence)) == reached]
        return [re.sub(r"^(.*?): ", r"row (\1): ", sentence) for sentence in fitting or sentences]


@functools.cache
def _table() -> dict[int, Number]:
    try:
        text = NUMBERS.read_text(encoding="utf-8")
    except OSError as error:
        raise cannot(short(NUMBERS), error) from None
    rows = re.findall(r"^\| (\d+) \| (\w+) \|([^|]*)\|([^|]*)\|$", text, re.M)
    cells = ((int(number), name, *(cell.strip().replace("`", "") for cell in both)) for number, name, *both in rows)
    return {row[0]: Number(*row) for row in cells}


def row_of(number: int) -> Number:
    """The row of a refusal's number."""
    if number not in _table():
        raise Misuse(f"{short(NUMBERS)}: no row for {number}")
    return _table()[number]


def name_of(number: int) -> str:
    """The name of a number; 0 is `Accepted`."""
    return "Accepted" if number == ACCEPTED else row_of(number).name
