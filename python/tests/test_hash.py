"""hash: CKB's hash of a file's bytes, compared with python3's hashlib."""

from fowlcredenza.protocol import ckb_hash
from support import SPEND, Case, call, run


class Hash(Case):
    def test_files(self):
        for data in (b"", b"abc", bytes(127), bytes(128), bytes(129), bytes(range(256)) * 4096):
            with self.subTest(len(data)):
                result = call("hash", self.write("data", data))
                self.assertEqual((result.status, result.out), (0, ckb_hash(data).hex() + "\n"))

    def test_prompt(self):
        digits = "44f4c69744d5f8c55d642062949dcae49bc4e7ef43d388c5a12f42b5633d163e"
        self.assertEqual((run("hash", "-").status, run("hash", "-").out), (0, digits + "\n"))
        data = run("hash", "--json", SPEND).json
        self.assertEqual((data["length"], data["hash"]), (SPEND.stat().st_size, ckb_hash(SPEND.read_bytes()).hex()))

    def test_unreadable(self):
        for path, words in ((self.folder / "none", "none: No such file"), (self.folder, "Is a directory")):
            with self.subTest(words):
                result = run("hash", path)
                self.assertEqual((result.status, result.out), (2, ""))
                self.assertIn(words, result.err)
        self.assertEqual(run("hash").status, 2)
