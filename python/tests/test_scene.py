"""A scene's lines as objects: read, written back, changed; and the line at fault where the library refuses a text."""

import dataclasses
import random

from fowlcredenza import scene
from fowlcredenza.library import Refusal
from fowlcredenza.scene import LineFault
from support import SAMPLES, SPEND, Case, answers, call, library, recorded, sample, samples_of

# Bytes that a scene is made of, and some that it is not.
ALPHABET = b"0123456789abcdef,,,,\n\nscriptxnouwegdvA \0\xff"


def number_of(text):
    """The number with which the library's reader refuses a text, 0 where it takes it."""
    try:
        library().read_scene(text)
    except Refusal as refusal:
        return refusal.number
    return 0


def fault_of(text):
    try:
        scene.read(text)
    except LineFault as fault:
        return fault.number
    return 0


def damaged(text, chance):
    """The text with one to three bytes put in, left out or replaced."""
    for _ in range(chance.randrange(1, 4)):
        at, kind = chance.randrange(len(text)), chance.randrange(3)
        new = b"" if kind == 0 else bytes([chance.choice(ALPHABET)])
        text = text[:at] + new + text[at + (kind != 1) :]
    return text


class Read(Case):
    def test_written_back(self):
        for name in answers():
            text = (SAMPLES / name).read_bytes()
            if number_of(text) == 0:
                with self.subTest(name):
                    self.assertEqual(scene.read(text).text(), text)
        for text, line in recorded():
            self.assertEqual(scene.read(text).text(), text, line)

    def test_objects(self):
        read = sample("spend.scene")
        self.assertEqual((len(read.inputs), len(read.outputs), len(read.deps), len(read.witnesses)), (1, 0, 1, 1))
        self.assertEqual((read.inputs[0].group, read.inputs[0].since, read.inputs[0].capacity), (True, 0, 9))
        self.assertEqual((read.verdicts, read.transaction), ("0", b"\x66" * 32))
        self.assertEqual(read.own_cells(), [(3, read.deps[0])])

    def test_changed(self):
        """The example at the module's head: another capacity, and the fee follows."""
        read = sample("spend.scene")
        read.lines[2] = dataclasses.replace(read.inputs[0], capacity=10)
        self.assertEqual(library().decide_scene(read.text()).fee, 10)


class Faults(Case):
    def test_samples(self):
        for number in (2, 3, 4):
            for name in samples_of(number):
                with self.subTest(name), self.assertRaises(LineFault) as caught:
                    scene.read((SAMPLES / name).read_bytes())
                self.assertEqual(caught.exception.number, number)

    def test_in_words(self):
        lines = SPEND.read_text().splitlines(keepends=True)
        cases = {
            "a kind": (0, "spend,0\n", "line 1: it begins with none of script, tx, input"),
            "an order": (1, lines[2] + lines[1], "line 2: input may not stand after script"),
            "a count of fields": (2, lines[2][:-1] + ",\n", "line 3: input has 7 fields, and not 8"),
            "a group": (2, lines[2].replace("input,1", "input,2"), "line 3: its GROUP is not 0 or 1"),
            "a since": (2, lines[2].replace("1,0,", "1,00,"), "line 3: its SINCE is not a decimal number below 2^64"),
            "a hash": (3, lines[3].replace("dep,c3", "dep,C3"), "line 4: its TYPEHASH is not 64 lower-case"),
            "a type script": (3, lines[3].replace(",44,", ",,"), "line 4: just one of TYPEHASH and TYPESCRIPT is empty"),
            "a capacity": (2, lines[2].replace(",9\n", f",{2**64}\n"), "line 3: its CAPACITY is not a decimal"),
            "digits": (5, "verdicts,3\n", "line 6: its DIGITS is not up to 16 of"),
            "an ending": (5, "verdicts,0", "line 6: it does not end with byte 10"),
            "an end": (5, "", "line 6: a line is missing"),
        }
        for name, (place, other, words) in cases.items():
            with self.subTest(name):
                text = "".join([*lines[:place], other, *lines[place + 1 :]]).encode()
                with self.assertRaises(LineFault) as caught:
                    scene.read(text)
                self.assertTrue(str(caught.exception).startswith(words), caught.exception)
                self.assertIn(f"\n{words.partition(': ')[2]}", call("explain", stdin=text).out)

    def test_agreement(self):
        """The number of the line at fault is the library's, on recorded scenes that are damaged at random."""
        chance = random.Random(33)
        for text, _ in recorded()[::2]:
            for _ in range(3):
                other = damaged(text, chance)
                self.assertEqual(fault_of(other), number_of(other), other)
