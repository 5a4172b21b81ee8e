"""Says in words how a scene is decided, and which row refuses it.

Where a line is at fault, it names the line and what is wrong there; of an accepted scene it says the totals and the fee, and of
a recovery both waits. Above 65,536 bytes it adds that the program gives 1.
"""

from ..explanation import explain
from ..files import STANDARD_INPUT, read_scene
from ..library import Library
from ..outcome import DONE, REFUSED, Outcome


def arguments(options) -> None:
    options.add_argument("file", metavar="FILE", nargs="?", default=STANDARD_INPUT, help="a scene; standard input without it")


def run(options) -> Outcome:
    library, text = Library(), read_scene(options.file)
    explanation = explain(library, text)
    status = DONE if explanation.answer.accepted else REFUSED
    return Outcome(status, explanation.lines(text), {"file": options.file, **explanation.data()})
