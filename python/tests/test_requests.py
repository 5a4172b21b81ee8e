"""requests and verdicts: the requests of all proofs, the list that is filed, and the scene that it fills."""

import json

from fowlcredenza import requests
from fowlcredenza.protocol import VERDICTS, ckb_hash
from fowlcredenza.scene import Witness
from support import SAMPLES, SPEND, Case, answers, call, library, recorded, run, sample, samples_of, with_line

WORDS = {digit: word for word, digit in VERDICTS.items()}
# Numbers that the lock gives once all requests are made.
AT_THE_END = (0, 28, 39, 48)


def text_with(name, digits):
    return sample(name).with_verdicts(digits).text()


class Requests(Case):
    def test_accepted(self):
        out = self.folder / "new/requests"
        result = run("requests", SPEND, "--out", out)
        wanted = "proof 1: slot 5, P-256 with WebAuthn (0x0001), 98 bytes, proof_1_slot_5.request"
        listed = f"{out}/requests.json: a list of 1, for their verdicts"
        self.assertEqual((result.status, result.lines, result.err), (0, [wanted, listed], ""))
        data = (out / "proof_1_slot_5.request").read_bytes()
        digest = answers()["spend.scene"].split(",")[4]
        row = {"proof": 1, "slot": 5, "algorithm": 1, "digest": digest, "hash": ckb_hash(data).hex(), "length": 98}
        row |= {"file": "proof_1_slot_5.request", "verdict": None}
        self.assertEqual(json.loads((out / "requests.json").read_text()), [row])
        self.assertEqual(library().parse_verifier_request(data).proof, b"\xaa")

    def test_whatever_the_verdicts(self):
        """The same requests without a digit, with a failed one, and with all."""
        for digits in ("", "2", "12", "00", "0" * 16):
            with self.subTest(digits):
                scene = self.write("two.scene", text_with("spend_two_proofs.scene", digits))
                result = call("requests", scene, "--json", "--out", self.folder / f"out{digits}")
                self.assertEqual((result.status, result.json["all_made"], len(result.json["requests"])), (0, True, 2))

    def test_not_all(self):
        """A fault in a later proof: the requests before it are written, and the fault is told."""
        name = samples_of(22)[0]
        out = self.folder / "out"
        result = run("requests", SAMPLES / name, "--out", out)
        self.assertEqual((result.status, len(json.loads((out / "requests.json").read_text()))), (1, 1))
        self.assertEqual(result.lines[2], "refused: 22, InvalidWitness")
        self.assertEqual(len(list(out.glob("*.request"))), 1)

    def test_no_proof(self):
        """A witness lock without proofs has no request: the list is empty, and fills the scene with no digit."""
        read = sample("spend.scene")
        lock = library().encode_witness(1, 7, [])
        head = [20 + len(lock), 16, 20 + len(lock), 20 + len(lock), len(lock)]
        witness = b"".join(number.to_bytes(4, "little") for number in head) + lock
        scene = self.write("none.scene", with_line(read, 4, Witness(witness)).text())
        result = call("requests", scene, "--out", self.folder / "out")
        self.assertEqual((result.status, (self.folder / "out/requests.json").read_text()), (0, "[]\n"))
        filled = call("verdicts", scene, "--from", self.folder / "out/requests.json")
        self.assertEqual((filled.status, filled.lines[-1]), (0, "verdicts,"))

    def test_none(self):
        """A scene that is refused before its proofs, and a text that is no scene: nothing is written."""
        for number in (2, 3, 4, 20, 40):
            with self.subTest(number):
                result = call("requests", SAMPLES / samples_of(number)[0], "--out", self.folder / "out")
                self.assertEqual((result.status, (self.folder / "out").exists()), (1, False))
                self.assertTrue(result.out.startswith(f"refused: {number}, "), result)
                self.assertEqual("\nline " in result.out, number in (2, 3, 4, 40))

    def test_misuse(self):
        self.write("requests.json", b"[]\n")
        cases = {
            "no folder": ((SPEND,), "--out"),
            "a missing scene": ((self.folder / "none.scene", "--out", self.folder / "out"), "none.scene: No such file"),
            "a list that is there": ((SPEND, "--out", self.folder), "requests.json: there is a list already"),
            "a folder that is a file": ((SPEND, "--out", SPEND), "spend.scene: "),
        }
        for name, (words, said) in cases.items():
            with self.subTest(name):
                result = run("requests", *words)
                self.assertEqual((result.status, result.out), (2, ""))
                self.assertIn(said, result.err)
        self.assertEqual((self.folder / "requests.json").read_bytes(), b"[]\n")

    def test_recorded(self):
        """All are made where the recorded answer comes after the walk, and those of the answer are among them."""
        for text, line in recorded():
            number, _, length = map(int, line.split(",")[1:4])
            made = requests.make(library(), text)
            with self.subTest(line):
                if number in AT_THE_END:
                    self.assertTrue(made.all_made)
                self.assertTrue(made.answer.requests.startswith(library().decide_scene(text).requests))
                self.assertGreaterEqual(made.answer.length, length)
                self.assertEqual(made.answer.count, len(made.requests))

    def test_filled_again(self):
        """A recorded scene is the same again once its own verdicts are written into its list."""
        for text, line in recorded()[::10]:
            made = requests.make(library(), text)
            with self.subTest(line):
                digits = made.scene.verdicts.ljust(16, "2")
                rows = [{**request.row(), "verdict": WORDS[digit]} for request, digit in zip(made.requests, digits)]
                self.assertIsNone(requests.difference(made, rows))
                filled = made.scene.with_verdicts(requests.digits_of(rows)).text()
                self.assertEqual(library().decide_scene(filled).line(), line)


class Verdicts(Case):
    def filed(self, name, *verdicts):
        """The list of a scene, with these verdicts."""
        out = self.folder / name
        call("requests", SAMPLES / name, "--out", out)
        rows = json.loads((out / "requests.json").read_text())
        for row, verdict in zip(rows, verdicts):
            row["verdict"] = verdict
        return self.write("list.json", json.dumps(rows).encode())

    def test_filled(self):
        name = "spend_two_proofs.scene"
        cases = {("approved", "approved"): "00", ("refused", "failed"): "12", ("approved", None): "02", (): "22"}
        for verdicts, digits in cases.items():
            with self.subTest(digits):
                result = run("verdicts", SAMPLES / name, "--from", self.filed(name, *verdicts))
                self.assertEqual((result.status, result.out.encode()), (0, text_with(name, digits)))
                for file in (self.folder / name).iterdir():
                    file.unlink()

    def test_prompt(self):
        """From a scene to its answer: requests are made, judged, and the filled scene is decided."""
        listed = self.filed("spend.scene", "approved")
        filled = run("verdicts", "-", "--from", listed, stdin=text_with("spend.scene", ""))
        self.assertEqual(run("decide", "-", stdin=filled.out.encode()).lines, [answers()["spend.scene"]])
        data = run("verdicts", SPEND, "--json", "--from", listed).json
        self.assertEqual((data["verdicts"], data["scene"]), ("0", SPEND.read_text()))

    def test_refused(self):
        listed = self.filed("spend_two_proofs.scene", "approved", "approved")
        rows = json.loads(listed.read_text())
        cases = {
            "another scene's list": (SAMPLES / "rotation.scene", rows, "row 1: its request's hash is"),
            "a row too few": (SAMPLES / "spend_two_proofs.scene", rows[:1], "it has 1 requests, this scene has 2"),
            "a row too many": (SAMPLES / "spend_two_proofs.scene", [*rows, rows[0]], "it has 3 requests"),
            "rows in another order": (SAMPLES / "spend_two_proofs.scene", rows[::-1], "row 1: its request's hash is"),
            "no scene": (SAMPLES / samples_of(2)[0], rows, "refused: 2, InvalidLine"),
        }
        for name, (scene, listed, words) in cases.items():
            with self.subTest(name):
                result = run("verdicts", scene, "--from", self.write("list.json", json.dumps(listed).encode()))
                self.assertEqual(result.status, 1)
                self.assertIn(words, result.lines[0])

    def test_malformed_list(self):
        (row,) = json.loads(self.filed("spend.scene").read_text())
        cases = {
            "no JSON": (b'[\n  {"hash": 1,,}\n]\n', "list.json: line 2: "),
            "no list": (b"{}", "list.json: line 1: this is no list"),
            "no hash": (b"[{}]", "list.json: row 1: it has no hash"),
            "another verdict": (json.dumps([{**row, "verdict": "yes"}]).encode(), "list.json: row 1: its verdict is none of"),
            "a verdict that is no word": (json.dumps([{**row, "verdict": [0]}]).encode(), "list.json: row 1: its verdict"),
        }
        for name, (text, words) in cases.items():
            with self.subTest(name):
                result = run("verdicts", SPEND, "--from", self.write("list.json", text))
                self.assertEqual((result.status, result.out), (2, ""))
                self.assertIn(words, result.err)
        self.assertIn("none.json: No such file", run("verdicts", SPEND, "--from", self.folder / "none.json").err)
        self.assertEqual(run("verdicts", SPEND).status, 2)
