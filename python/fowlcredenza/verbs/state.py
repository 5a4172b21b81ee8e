"""Says in words what an account's state holds, or where a refused one is at fault.

The state is a file's raw bytes, or hexadecimal digits; where there is a file of that name, it is the file.
"""

from __future__ import annotations

import os

from .. import state
from ..errors import Misuse
from ..files import STANDARD_INPUT, read_bytes
from ..library import Library, Refusal
from ..outcome import DONE, REFUSED, Outcome
from ..state_fault import Fault, find_fault


def arguments(options) -> None:
    options.add_argument("state", metavar="FILE|HEX", help="a file with a state's bytes, - for standard input, or its digits")


def _bytes(words: str) -> bytes:
    if words == STANDARD_INPUT or os.path.exists(words):
        return read_bytes(words)
    try:
        return bytes.fromhex(words)
    except ValueError:
        raise Misuse(f"{words[:60]}: there is no such file, and these are no hexadecimal digits of bytes") from None


def _accepted(library: Library, data: bytes) -> Outcome:
    validated, entries = library.validate_state(data), library.entries(data)
    digits = library.ckb_hash(data).hex()
    lines = [f"a state of {len(data):,} bytes, hash {digits}", *state.in_words(validated, entries)]
    return Outcome(DONE, lines, {"number": 0, "length": len(data), "hash": digits, **state.data(validated, entries)})


def _refused(refusal: Refusal, fault: Fault | None) -> Outcome:
    """The number, and the entry and the byte at fault where the checks here find the same number."""
    lines = [f"refused: {refusal.number}, {refusal.name}"]
    data = {"number": refusal.number, "name": refusal.name}
    if fault and fault.number == refusal.number:
        lines.append(f"byte {fault.byte}: {fault.in_words()}")
        data |= {"entry": fault.entry, "slot": fault.slot, "byte": fault.byte, "words": fault.in_words()}
    return Outcome(REFUSED, lines, data)


def run(options) -> Outcome:
    library, data = Library(), _bytes(options.state)
    try:
        return _accepted(library, data)
    except Refusal as refusal:
        return _refused(refusal, find_fault(data))
