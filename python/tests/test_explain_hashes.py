"""explain: a hash that is not that of what its cell holds is told, with the hash that belongs there."""

import re
from dataclasses import replace

from fowlcredenza.protocol import ckb_hash
from support import EDITED, Case, call, sample, samples_of, with_line

# What each hash is of, and its field's name in a scene.
PARTS = {"type_hash": "type_script", "data_hash": "data"}
NAMES = {"TYPEHASH": "type_hash", "DATAHASH": "data_hash"}


def turned(cell, field):
    """The cell with another last byte in a field."""
    data = getattr(cell, field)
    return replace(cell, **{field: data[:-1] + bytes([data[-1] ^ 1])})


def title(field):
    return field.replace("_", "").upper()


class Hashes(Case):
    def tell(self, read, place, field):
        """Explains a scene in which this is the first hash that differs."""
        cell = read.lines[place]
        result = call("explain", stdin=read.text())
        self.assertEqual(result.status, 1)
        self.assertTrue(result.out.startswith("refused: 40, "), result)
        line, words = result.lines[-2:]
        self.assertTrue(line.startswith(f"line {place + 1}: {cell.text()[:60]}"), result)
        self.assertEqual(words, f"its {title(field)} should be {ckb_hash(getattr(cell, PARTS[field])).hex()}")

    def test_each_hash(self):
        """Each hash wrong, what it is of changed, and all hashes from this one on wrong."""
        for name in EDITED:
            read = sample(name)
            places = [(place, field) for place, cell in read.cells() for field in PARTS if getattr(cell, PARTS[field])]
            behind = read
            for place, field in reversed(places):
                behind = with_line(behind, place, turned(behind.lines[place], field))
                for changed in (field, PARTS[field]):
                    with self.subTest(f"{name}, line {place + 1}, {changed}"):
                        self.tell(with_line(read, place, turned(read.lines[place], changed)), place, field)
                with self.subTest(f"{name}, from line {place + 1}, {field} on"):
                    self.tell(behind, place, field)

    def test_empty_data(self):
        """The hash of empty data is believed."""
        for name in EDITED:
            read = sample(name)
            for place, cell in read.cells():
                if not cell.data:
                    with self.subTest(f"{name}, line {place + 1}"):
                        result = call("explain", stdin=with_line(read, place, turned(cell, "data_hash")).text())
                        self.assertLess(result.status, 2)
                        self.assertNotRegex(result.out, "refused: 40,|should be")

    def test_mended(self):
        """The sample for 40 passes that row once each hash that is told stands where it belongs."""
        read, mends = sample(samples_of(40)[0]), 0
        result = call("explain", stdin=read.text())
        while told := re.search(r"\nline (\d+): .*\nits (\w+) should be ([0-9a-f]{64})\n", result.out):
            place = int(told[1]) - 1
            read = with_line(read, place, replace(read.lines[place], **{NAMES[told[2]]: bytes.fromhex(told[3])}))
            result, mends = call("explain", stdin=read.text()), mends + 1
        self.assertGreater(mends, 0)
        self.assertNotIn("refused: 40,", result.out)
