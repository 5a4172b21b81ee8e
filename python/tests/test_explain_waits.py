"""explain: what a recovery waits for and what it has waited, in words, and a successor that no recovery can leave."""

from dataclasses import replace

from fowlcredenza.scene import Input, Output
from support import Case, call, own_cell, sample, samples_of, with_line, with_state

# The relative flag and the metrics of a since.
RELATIVE, EPOCHS, SECONDS, METRIC_3 = 1 << 63, 1 << 61, 2 << 61, 3 << 61


def epochs(number, index, length):
    return EPOCHS | length << 40 | index << 24 | number


# Waits in words, and malformed ones.
WAITS = {
    1000: "absolute, 1,000 blocks",
    RELATIVE | 2**56 - 1: "relative, 72,057,594,037,927,935 blocks",
    SECONDS | 60: "absolute, 60 seconds",
    RELATIVE | SECONDS: "relative, 0 seconds",
    epochs(5, 0, 0): "absolute, 5 and 0/0 epochs",
    RELATIVE | epochs(5, 1, 2): "relative, 5 and 1/2 epochs",
    RELATIVE | epochs(5, 333, 1000): "relative, 5 and 333/1,000 epochs",
    epochs(2**24 - 1, 65534, 65535): "absolute, 16,777,215 and 65,534/65,535 epochs",
}
MALFORMED = {
    1 << 56: "its reserved bit 56 is set",
    RELATIVE | SECONDS | 1 << 60 | 1 << 57 | 9: "its reserved bit 57 is set; its reserved bit 60 is set",
    METRIC_3 | 1: "its bits 61 and 62 are both set, which is no metric",
    epochs(5, 7, 7): "its index 7 (bits 24 to 39) is not below its length 7 (bits 40 to 55)",
    RELATIVE | epochs(0, 65535, 0): "its index 65,535 (bits 24 to 39) is not below its length 0 (bits 40 to 55)",
    METRIC_3 | 1 << 58: "its reserved bit 58 is set; its bits 61 and 62 are both set, which is no metric",
}
# Pairs that are too early: recovery_since, since, and why.
TOO_EARLY = [
    (1000, 999, "the since is lower"),
    (RELATIVE | 1000, 2000, "one of them is relative and the other is not"),
    (SECONDS | 60, 2000, "one of them is in seconds and the other in blocks"),
    (epochs(5, 0, 0), SECONDS | 60, "one of them is in epochs and the other in seconds"),
    (RELATIVE | epochs(5, 1, 3), RELATIVE | epochs(5, 333, 1000), "the since is lower"),
    (epochs(6, 0, 0), epochs(5, 65534, 65535), "the since is lower"),
    (RELATIVE | epochs(5, 1, 2), epochs(9, 0, 0), "one of them is relative and the other is not"),
]
# Pairs that are not, and are not equal numbers.
WAITED = [(999, 1000), (RELATIVE | epochs(5, 1, 2), RELATIVE | epochs(5, 2, 4)), (epochs(5, 9, 10), epochs(6, 0, 0))]
# Every case: recovery_since, since, number, and what is told besides both.
CASES = [
    *((since, since, 0, []) for since in WAITS),
    *((since, 1000, 42, []) for since in MALFORMED),
    *((epochs(5, 0, 0), since, 42, []) for since in MALFORMED),
    *((0, since, 0, []) for since in MALFORMED),
    *((wanted, given, 34, [why]) for wanted, given, why in TOO_EARLY),
    *((wanted, given, 0, []) for wanted, given in WAITED),
]


def said_of(since):
    """What explain says of a since."""
    if since in MALFORMED:
        return f"{since}, malformed: {MALFORMED[since]}"
    number, index, length = since & 0xFFFFFF, since >> 24 & 0xFFFF, since >> 40 & 0xFFFF
    value = f"{since & 2**56 - 1:,}" if not since & EPOCHS else f"{number:,} and {index:,}/{length:,}"
    metric = "epochs" if since & EPOCHS else "seconds" if since & SECONDS else "blocks"
    return f"{since}, {WAITS.get(since, ('relative' if since & RELATIVE else 'absolute') + f', {value} {metric}')}"


def with_recovery_since(cell, since):
    """The cell with a state that has recovery with this recovery_since."""
    state = bytearray(cell.data)
    state[5], state[20:22], state[38] = state[5] | 1, b"\1\0", state[38] | 4
    return with_state(cell, bytes(state[:24] + since.to_bytes(8, "little") + state[32:]))


class Recoveries(Case):
    def test_waits(self):
        for name in ("recovery.scene", "recovery_epochs.scene", *samples_of(34), *samples_of(42)):
            for wanted, given, number, why in CASES:
                with self.subTest(f"{name}, recovery_since {wanted:#x}, since {given:#x}"):
                    self.tell(sample(name), wanted, given, number, why)

    def tell(self, read, wanted, given, number, why):
        """Explains a recovery with these waits."""
        i, cell = own_cell(read, Input)
        edited = with_line(read, i, replace(with_recovery_since(cell, wanted), since=given))
        told = [f"its state's recovery_since is {said_of(wanted)}", f"its since is {said_of(given)}", *why]
        if wanted == 0:
            told = ["its state's recovery_since is 0: the recovery waits for nothing"]
        result = call("explain", stdin=edited.text())
        self.assertTrue(result.out.startswith("accepted\n" if number == 0 else f"refused: {number}, "), result)
        self.assertEqual((result.status, result.lines[-len(told) :]), (number != 0, told))
        self.assertTrue(result.lines[-len(told) - 1].startswith(f"line {i + 1}: {edited.lines[i].text()[:60]}"), result)


class Successors(Case):
    def test_warning(self):
        """A successor whose recovery_since lets no recovery run is told, in accepted scenes alone."""
        for name in ("rotation.scene", "recovery.scene", *samples_of(34)):
            for since in (0, *WAITS, *MALFORMED):
                with self.subTest(f"{name}, {since:#x}"):
                    read = sample(name)
                    i, cell = own_cell(read, Output)
                    said = call("explain", stdin=with_line(read, i, with_recovery_since(cell, since)).text()).lines
                    if name in samples_of(34) or since not in MALFORMED:
                        self.assertFalse(any(line.startswith("warning") for line in said), said)
                        continue
                    self.assertEqual((said[0], said[-3][: len(f"line {i + 1}: ")]), ("accepted", f"line {i + 1}: "))
                    self.assertEqual(said[-2], f"warning: its state's recovery_since is {said_of(since)}")
                    self.assertEqual(said[-1], "a recovery from it is 42 until a rotation leaves another state")
