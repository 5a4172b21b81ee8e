"""explain: the totals of capacities, the fee, and what is wrong with totals that are refused."""

from dataclasses import replace

from fowlcredenza.scene import Input, Output, Scene
from support import EDITED, Case, call, sample, samples_of

LAST = 2**64 - 1
# Totals of inputs and of outputs.
TOTALS = [
    *((0, 0), (0, 1), (1000, 0), (1000, 999), (1000, 1000), (1000, 1001), (2**32, 2**32 - 1), (2**32 - 1, 2**32)),
    *((LAST, 0), (LAST, LAST - 1), (LAST, LAST), (LAST - 1, LAST), (LAST + 1, 0), (LAST + 1, 1), (LAST + 6, 5)),
    *((5, LAST + 1), (LAST, LAST + 1), (LAST + 1, LAST + 1), (LAST + 2, LAST + 9), (2 * LAST, 0), (0, 2 * LAST)),
]
# Cells that play no part.
PLAIN = {"type_hash": b"", "data_hash": bytes(32), "type_script": b"", "data": b""}
PLAIN_INPUT = Input(**PLAIN, group=False, since=0, capacity=0)
PLAIN_OUTPUT = Output(**PLAIN, capacity=0)


def shares(total, count):
    """A total among so many lines, more of them where they cannot have it."""
    while count or total:
        share = min(total, LAST)
        yield share
        total, count = total - share, max(count - 1, 0)


def shared(lines, plain, total):
    """The lines with this total, as much as there can be in the first ones; further ones are plain."""
    given = list(shares(total, len(lines)))
    lines = lines + [plain] * (len(given) - len(lines))
    return [replace(line, capacity=share) for line, share in zip(lines, given)]


def with_totals(read, inputs, outputs):
    cells = shared(read.inputs, PLAIN_INPUT, inputs) + shared(read.outputs, PLAIN_OUTPUT, outputs)
    rest = [line for line in read.lines[2:] if not isinstance(line, (Input, Output))]
    return Scene([*read.lines[:2], *cells, *rest])


def said_of(inputs, outputs):
    """The number of totals, and what is to be told of them."""
    both = f"the inputs have a capacity of {inputs:,} in all, the outputs {outputs:,}"
    for name, total in (("inputs", inputs), ("outputs", outputs)):
        if total > LAST:
            return 39, f"the {name} have a capacity of {total:,} in all, {total - LAST:,} more than {LAST:,}"
    if outputs > inputs:
        return 48, f"{both}: the outputs exceed the inputs by {outputs - inputs:,}"
    return 0, f"{both}: the fee is {inputs - outputs:,}"


class Totals(Case):
    def test_reached(self):
        for name in (*EDITED, *samples_of(39), *samples_of(48)):
            for inputs, outputs in TOTALS:
                with self.subTest(f"{name}, inputs {inputs}, outputs {outputs}"):
                    number, words = said_of(inputs, outputs)
                    result = call("explain", stdin=with_totals(sample(name), inputs, outputs).text())
                    first = "accepted" if number == 0 else f"refused: {number}, "
                    self.assertTrue(result.out.startswith(first), result)
                    self.assertEqual((result.status, result.lines[2]), (number != 0, words))

    def test_refused_before(self):
        """An earlier refusal says nothing of them."""
        for number in (20, 28, 31):
            for inputs, outputs in TOTALS:
                with self.subTest(f"{number}, inputs {inputs}, outputs {outputs}"):
                    read = with_totals(sample(samples_of(number)[0]), inputs, outputs)
                    result = call("explain", stdin=read.text())
                    self.assertTrue(result.out.startswith(f"refused: {number}, "), result)
                    self.assertNotIn("capacity", result.out)
