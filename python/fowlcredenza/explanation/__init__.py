"""Why the lock answers a scene as it does, in words: the row that refuses it, and the line at fault with what is there.

A number's own words are docs/NUMBERS.md's. What points at a line is a function of the scene for its number, in a file of this
folder and in POINTERS; it only says where to look.
"""

from __future__ import annotations

from dataclasses import dataclass

from .. import numbers, scene
from ..answer import Answer
from ..declarations import SIZES
from ..library import Library
from ..scene import LineFault, Scene
from . import accepted, capacities, hashes, states, waiting
from .finding import Finding

# What points at the fault of a number.
POINTERS = {
    numbers.INVALID_STATE: states.refused,
    numbers.INVALID_VERIFIER_REF: states.refused,
    numbers.UNSUPPORTED_VERSION: states.refused,
    numbers.UNSUPPORTED_ALGORITHM: states.refused,
    numbers.RECOVERY_LOCKED: waiting.too_early,
    numbers.UNSATISFIABLE_THRESHOLD: states.refused,
    numbers.LENGTH_OVERFLOW: capacities.overflow,
    numbers.HASH_MISMATCH: hashes.differing,
    numbers.INVALID_SINCE: waiting.waits,
    numbers.AUX_TOO_LONG: states.refused,
    numbers.OUTPUTS_EXCEED_INPUTS: capacities.excess,
    numbers.SESSION_WITHDRAWN: states.session,
}


@dataclass(frozen=True)
class Explanation:
    """An answer, the rows of the table that fit it, what was found in the scene, and notes."""

    answer: Answer
    rows: list[str]
    findings: list[Finding]
    notes: list[str]

    def lines(self, text: bytes) -> list[str]:
        """The explanation of a scene of that text, as it is printed."""
        found = [line for finding in self.findings for line in finding.lines(text)]
        made = f"requests made: {self.answer.count}, {self.answer.length} bytes"
        if self.answer.digest is not None:
            made += f"; digest {self.answer.digest.hex()}"
        if self.answer.accepted:
            return ["accepted", made, *found, *self.notes]
        first = f"refused: {self.answer.number}, {numbers.name_of(self.answer.number)}"
        return [first, *self.rows, *found, *([made] if self.answer.digest is not None else []), *self.notes]

    def data(self) -> dict:
        """The explanation for JSON."""
        findings = [finding.data() for finding in self.findings]
        return {**self.answer.data(), "rows": self.rows, "findings": findings, "notes": self.notes}


def _of_lines(fault: LineFault, number: int) -> list[Finding]:
    """What a line at fault says, where the library refuses the scene for it."""
    return [Finding(fault.place, [fault.why])] if fault.number == number else []


def _of_refused(read: Scene, answer: Answer) -> list[Finding]:
    """What is at fault in a scene that the lock refuses."""
    point = POINTERS.get(answer.number)
    return list(point(read, answer)) if point else []


def _found(text: bytes, answer: Answer) -> list[Finding]:
    try:
        read = scene.read(text)
    except LineFault as fault:
        return _of_lines(fault, answer.number)
    return list(accepted.told(read, answer)) if answer.accepted else _of_refused(read, answer)


def explain(library: Library, text: bytes) -> Explanation:
    """Decides a scene, and says why it is answered so."""
    answer = library.decide_scene(text)
    rows = [] if answer.accepted else numbers.row_of(answer.number).rows(answer.digest is not None)
    longest = SIZES["PROGRAM_SCENE_MAX_LEN"]
    note = f"the program gives 1: it reads scenes of at most {longest:,} bytes"
    return Explanation(answer, rows, _found(text, answer), [note] if len(text) > longest else [])
