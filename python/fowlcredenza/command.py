"""The command: finds the verb, and prints what it gives, as text or as JSON.

Exit status: 0 accepted or done, 1 refused, 2 misuse or a file that can't be read.
"""

from __future__ import annotations

import argparse
import importlib
import json
import os
import signal
import sys

from .errors import Misuse, cannot
from .outcome import MISUSED, Outcome
from .verbs import VERBS

DESCRIPTION = "Decides scenes of the account lock, explains answers, and works on states and requests."
EPILOG = "Exit status: 0 accepted or done, 1 refused, 2 misuse or a file that can't be read. FILE is - for standard input."


def _verb(name: str):
    """The module of a verb: its docstring says what it does, `arguments` what it takes, and `run` does it."""
    return importlib.import_module(f".verbs.{name}", __package__)


def _parser(names: list[str]) -> argparse.ArgumentParser:
    """The parser of these verbs."""
    parser = argparse.ArgumentParser(prog="fowlcredenza", description=DESCRIPTION, epilog=EPILOG)
    verbs = parser.add_subparsers(dest="verb", metavar="VERB", required=True)
    for name in names:
        module = _verb(name)
        head, _, rest = module.__doc__.strip().partition("\n")
        options = verbs.add_parser(name, help=head, description=f"{head} {rest}", epilog=EPILOG)
        options.add_argument("--json", action="store_true", help="print JSON")
        module.arguments(options)
        options.set_defaults(run=module.run)
    return parser


def _print(outcome: Outcome, as_json: bool) -> None:
    """Prints it; where standard output can't be written, what is left of it goes nowhere."""
    try:
        if as_json:
            print(json.dumps(outcome.data, indent=2))
        else:
            sys.stdout.writelines(f"{line}\n" for line in outcome.lines)
        sys.stdout.flush()
    except OSError as error:
        os.dup2(os.open(os.devnull, os.O_WRONLY), sys.stdout.fileno())
        raise cannot("standard output", error) from None


def _run(options: argparse.Namespace) -> int:
    """Runs the verb, and says on standard error what keeps it from an answer."""
    try:
        outcome = options.run(options)
        _print(outcome, options.json)
    except Misuse as error:
        print(f"fowlcredenza {options.verb}: {error}", file=sys.stderr)
        return MISUSED
    return outcome.status


def main(words: list[str]) -> int:
    """The command with these words; returns its exit status."""
    names = words[:1] if words and words[0] in VERBS else list(VERBS)
    return _run(_parser(names).parse_args(words))


def start() -> None:
    """The command as a program: a reader that goes away ends it quietly."""
    signal.signal(signal.SIGPIPE, signal.SIG_DFL)
    signal.signal(signal.SIGINT, signal.SIG_DFL)
    sys.stdout.reconfigure(errors="backslashreplace")
    sys.exit(main(sys.argv[1:]))
