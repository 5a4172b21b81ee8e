"""Prints CKB's hash of a file's bytes."""

from ..files import read_bytes
from ..library import Library
from ..outcome import DONE, Outcome


def arguments(options) -> None:
    options.add_argument("file", metavar="FILE", help="any file, or - for standard input")


def run(options) -> Outcome:
    library, data = Library(), read_bytes(options.file)
    digits = library.ckb_hash(data).hex()
    return Outcome(DONE, [digits], {"file": options.file, "length": len(data), "hash": digits})
