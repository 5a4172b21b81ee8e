"""explain: samples, damaged scenes, scenes that are too long for the program, and misuse."""

import subprocess

from support import ROOT, SAMPLES, SPEND, Case, answers, call, library, run, samples_of

# The line of a sample that the reader refuses.
LINES = {2: 1, 3: 1, 4: 67}
# Numbers of samples whose state is at fault.
OF_STATES = (21, 33, 38, 44)


class Samples(Case):
    def test_each_sample(self):
        for name, answer in answers().items():
            with self.subTest(name):
                number = int(answer.split(",")[1])
                result = call("explain", SAMPLES / name)
                first = "accepted" if number == 0 else f"refused: {number}, "
                self.assertTrue(result.lines[0].startswith(first), result)
                self.assertEqual(result.status, 0 if number == 0 else 1)
                if number in LINES:
                    self.assertIn(f"\nline {LINES[number]}: ", result.out)
                piped = call("explain", stdin=(SAMPLES / name).read_bytes())
                self.assertEqual((piped.status, piped.out), (result.status, result.out))

    def test_prompt(self):
        for name in ("spend.scene", samples_of(3)[0], samples_of(22)[0]):
            with self.subTest(name):
                result, wanted = run("explain", SAMPLES / name), call("explain", SAMPLES / name)
                self.assertEqual((result.status, result.out, result.err), (wanted.status, wanted.out, ""))

    def test_states_at_fault(self):
        for number in OF_STATES:
            for name in samples_of(number):
                with self.subTest(name):
                    result = call("explain", SAMPLES / name)
                    self.assertRegex(result.out, r"\nline \d+: .*\n(the state|its entry \d+, slot \d+,) ")

    def test_json(self):
        told = call("explain", "--json", SAMPLES / samples_of(3)[0])
        self.assertEqual(told.status, 1)
        self.assertEqual((told.json["number"], told.json["name"], told.json["findings"][0]["line"]), (3, "InvalidField", 1))
        told = call("explain", "--json", SPEND)
        self.assertEqual((told.status, told.json["number"], told.json["fee"], told.json["rows"]), (0, 0, 9, []))

    def test_the_tool_of_that_name(self):
        for words, text in (([SPEND], b""), ([], SPEND.read_bytes()), ([], b"")):
            done = subprocess.run([ROOT / "tools/explain", *words], input=text, capture_output=True, check=False)
            wanted = call("explain", *words, stdin=text)
            self.assertEqual((done.returncode, done.stdout.decode()), (wanted.status, wanted.out))


class Damaged(Case):
    def test_each_line(self):
        """Each line left out, doubled, with a field more, and without its ending: a refused line is pointed at."""
        lines = (SAMPLES / "rotation.scene").read_bytes().splitlines(keepends=True)
        for i, line in enumerate(lines):
            for other in (b"", line + line, line[:-1] + b",\n", line[:-1] + b"G\n", line[:-1]):
                with self.subTest(f"line {i + 1} as {other[:40]}"):
                    text = b"".join([*lines[:i], other, *lines[i + 1 :]])
                    result = call("explain", stdin=text)
                    of_line = library().decide_scene(text).number in (2, 3, 4)
                    self.assertEqual(result.out.startswith(("refused: 2,", "refused: 3,", "refused: 4,")), of_line)
                    self.assertEqual("\nline " in result.out, of_line)

    def test_each_capacity(self):
        """A CAPACITY that is malformed, missing or followed by a field: its line is told."""
        lines = (SAMPLES / "rotation.scene").read_bytes().split(b"\n")
        wrong = {b"," + value: 3 for value in (b"", b"00", b"01", b"+1", b" 1", b"1a", b"ab", str(2**64).encode())}
        for i, line in enumerate(lines):
            if line.startswith(b"dep,"):
                ends = {line + b",0": 2, line + b",": 2}
            elif line.startswith((b"input,", b"output,")):
                start = line.rpartition(b",")[0]
                ends = {start + end: number for end, number in {**wrong, b"": 2, b",0,": 2, b",0,0": 2}.items()}
            else:
                ends = {}
            for other, number in ends.items():
                with self.subTest(f"line {i + 1} as ..{other[-30:]}"):
                    result = call("explain", stdin=b"\n".join([*lines[:i], other, *lines[i + 1 :]]))
                    self.assertTrue(result.out.startswith(f"refused: {number}, "), result)
                    self.assertIn(f"\nline {i + 1}: ", result.out)


class Long(Case):
    def test_above_what_the_program_reads(self):
        note = "the program gives 1: it reads scenes of at most 65,536 bytes"
        result = call("explain", stdin=b"x" * 65537)
        self.assertEqual((result.status, result.lines[0], result.lines[-1]), (1, "refused: 2, InvalidLine", note))
        self.assertNotIn("the program", call("explain", stdin=b"x" * 65536).out)

    def test_above_what_the_library_reads(self):
        result = call("explain", stdin=b"x" * 1048577)
        self.assertEqual((result.status, result.lines[0]), (1, "refused: 1, SceneTooLong"))
        self.assertTrue(call("explain", stdin=b"x" * 1048576).out.startswith("refused: 2, "))


class Misuse(Case):
    def test_files(self):
        wrong = {
            "a missing file": ((SAMPLES / "none.scene",), "none.scene: No such file"),
            "a folder": ((SAMPLES,), "Is a directory"),
            "two files": ((SPEND, SPEND), "unrecognized arguments"),
        }
        for name, (words, said) in wrong.items():
            with self.subTest(name):
                result = run("explain", *words)
                self.assertEqual((result.status, result.out), (2, ""))
                self.assertIn(said, result.err)
