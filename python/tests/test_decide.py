"""decide: files, folders, lists of expected answers, and all samples and recorded scenes in one call."""

from support import SAMPLES, SPEND, Case, answers, call, recorded, run, samples_of

SPEND_LINE = answers()["spend.scene"]


class OneScene(Case):
    def test_accepted(self):
        result = run("decide", SPEND)
        self.assertEqual((result.status, result.out, result.err), (0, SPEND_LINE + "\n", ""))

    def test_refused(self):
        result = run("decide", SAMPLES / samples_of(28)[0])
        self.assertEqual((result.status, result.lines, result.err), (1, [answers()[samples_of(28)[0]]], ""))

    def test_malformed(self):
        result = run("decide", self.write("none.scene", b"no scene"))
        self.assertEqual((result.status, result.out), (1, "answer,2,0,0,,\n"))

    def test_standard_input(self):
        for text, status, line in ((SPEND.read_bytes(), 0, SPEND_LINE), (b"", 1, "answer,2,0,0,,")):
            with self.subTest(line):
                result = run("decide", "-", stdin=text)
                self.assertEqual((result.status, result.lines), (status, [line]))

    def test_long(self):
        """Scenes above what the program reads, and above what the library reads."""
        lines = SPEND.read_bytes().splitlines(keepends=True)
        for count, number in ((64, 0), (65, 4)):
            with self.subTest(f"{count} witnesses"):
                text = b"".join([*lines[:-1], (count - 1) * (b"witness," + b"00" * 8000 + b"\n"), lines[-1]])
                result = call("decide", self.write("long.scene", text))
                self.assertGreater(len(text), 1000000)
                self.assertTrue(result.out.startswith(f"answer,{number},"), result)
        for length, number in ((1048576, 2), (1048577, 1)):
            with self.subTest(f"{length} bytes"):
                result = call("decide", self.write("long.scene", b"x" * length))
                self.assertEqual((result.status, result.out), (1, f"answer,{number},0,0,,\n"))

    def test_json(self):
        result = run("decide", "--json", SPEND)
        (answer,) = result.json["answers"]
        self.assertEqual((result.status, answer["number"], answer["name"], answer["fee"]), (0, 0, "Accepted", 9))
        self.assertEqual((answer["line"], result.json["counts"], result.json["unread"]), (SPEND_LINE, {"0": 1}, {}))


class SeveralScenes(Case):
    def test_files(self):
        result = run("decide", SPEND, SAMPLES / "rotation.scene")
        wanted = [f"{name} {answers()[name]}" for name in ("spend.scene", "rotation.scene")]
        self.assertEqual((result.status, result.lines, result.err.split()), (0, wanted, ["2", "0", "Accepted"]))

    def test_folder(self):
        """All samples in one call, in the order of their names, and counts by number."""
        result = run("decide", SAMPLES)
        self.assertEqual((result.status, result.lines), (1, [f"{name} {answers()[name]}" for name in sorted(answers())]))
        self.assertIn(f"{len(samples_of(0))}  0 Accepted\n", result.err)
        self.assertIn(" 1 20 InvalidArgs\n", result.err)

    def test_unreadable(self):
        """A file that can't be read is told, and the others are decided."""
        (self.folder / "folder.scene").mkdir()
        good = self.write("spend.scene", SPEND.read_bytes())
        missing = self.folder / "none.scene"
        for words, name in (((self.folder,), "folder.scene: Is a directory"), ((missing, good), "none.scene: No such file")):
            with self.subTest(name):
                result = run("decide", *words)
                self.assertEqual((result.status, result.lines), (2, [f"spend.scene {SPEND_LINE}"]))
                self.assertIn(f"fowlcredenza decide: {self.folder}/{name}", result.err)
        result = run("decide", "--json", missing)
        self.assertEqual((result.status, result.json["answers"], list(result.json["unread"])), (2, [], [str(missing)]))

    def test_misuse(self):
        self.assertEqual(run("decide").status, 2)
        result = run("decide", self.folder)
        self.assertEqual((result.status, result.out), (2, ""))
        self.assertIn("a folder without a *.scene file", result.err)


class Expected(Case):
    def test_samples(self):
        result = run("decide", SAMPLES, "--expect", SAMPLES / "answers.txt")
        self.assertEqual((result.status, result.out), (0, ""))
        self.assertIn(f"{len(answers())} scenes compared, 0 differences", result.err)
        self.assertEqual(run("decide", SPEND, "--expect", SAMPLES / "answers.txt").status, 0)

    def test_recorded(self):
        """All recorded scenes in one call give what was recorded."""
        lines = []
        for place, (text, line) in enumerate(recorded()):
            self.write(f"{place:04}.scene", text)
            lines.append(f"{place:04}.scene {line}\n")
        listed = self.write("answers.txt", "".join(lines).encode())
        result = run("decide", self.folder, "--expect", listed)
        self.assertEqual((result.status, result.out), (0, ""))
        self.assertIn(f"{len(lines):,} scenes compared, 0 differences", result.err)
        self.assertEqual("".join(f"{line}\n" for line in run("decide", self.folder).lines), "".join(lines))

    def test_differences(self):
        given = self.write("spend.scene", SPEND.read_bytes())
        other = "answer,28,0,0,,"
        cases = {
            "another answer": (f"spend.scene {other}\n", f"spend.scene: {SPEND_LINE}, expected {other}"),
            "no line": ("", f"spend.scene: {SPEND_LINE}, expected no such scene"),
            "no scene": (f"spend.scene {SPEND_LINE}\nnone.scene {other}\n", f"none.scene: no scene, expected {other}"),
        }
        for name, (text, difference) in cases.items():
            with self.subTest(name):
                listed = self.write("list.txt", text.encode())
                result = run("decide", self.folder, "--expect", listed)
                self.assertEqual((result.status, result.lines), (1, [difference]))
                self.assertEqual(run("decide", self.folder, "--json", "--expect", listed).json["differences"], [difference])
        self.assertEqual(run("decide", given, "--expect", listed).status, 0)

    def test_malformed_list(self):
        cases = {
            "no answer": (b"a.scene answer,0,0,0,,\nb.scene\n", "list.txt: line 2: not of the form"),
            "a name twice": (2 * b"a.scene answer,0,0,0,,\n", "list.txt: line 2: a second line for a.scene"),
        }
        for name, (text, words) in cases.items():
            with self.subTest(name):
                result = run("decide", SPEND, "--expect", self.write("list.txt", text))
                self.assertEqual((result.status, result.out), (2, ""))
                self.assertIn(words, result.err)
        self.assertIn("none.txt: No such file", run("decide", SPEND, "--expect", self.folder / "none.txt").err)
