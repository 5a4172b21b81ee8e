"""build: the library is made, and how many crates of how many are proved is shown."""

import unittest.mock

from fowlcredenza.verbs import build
from support import ROOT, Case, call, run

LIBRARY = "target/lib/libfowlcredenza.so"


class Build(Case):
    def test_up_to_date(self):
        result = run("build")
        self.assertEqual((result.status, result.err), (0, ""))
        self.assertRegex(result.out, rf"^{LIBRARY} is up to date, of \d+ crates, after \d+ s\n$")
        self.assertEqual(run("build", "--json").json["library"], LIBRARY)

    def test_crates(self):
        """The crates that the library is made of: the exported ones and all below them, and no program."""
        crates = build.crates_of_library()
        self.assertLessEqual({"octets", "blake2b", "account_lock", "exports", "exports_lock"}, crates)
        self.assertFalse({"account_lock_cli", "test_lock", "io", "libc"} & crates)
        self.assertTrue(all((ROOT / "crates" / name).is_dir() for name in crates))

    def made_by(self, text):
        """build with another maker."""
        maker = self.write("maker", text)
        with unittest.mock.patch.object(build, "MAKER", maker):
            return call("build")

    def test_progress(self):
        """Each crate is counted once, as it is proved."""
        lines = [
            "rt: chose --jobs 2 for octets",
            "fn octets::read::fits: proved",
            "library: octets proved",
            "library: protocol proved",
            "library: octets proved",
            "library: exports proved",
        ]
        result = self.made_by("".join(f"echo '{line}' >&2\n" for line in lines).encode())
        total, names = len(build.crates_of_library()), ("octets", "protocol", "exports")
        wanted = [f"{place} of {total} crates proved: {name}" for place, name in enumerate(names, 1)]
        self.assertEqual((result.status, result.err.splitlines()), (0, wanted))

    def test_refused(self):
        """A crate that is not proved: what the toolchain says is shown."""
        result = self.made_by(b"echo 'rt: the library octets did not build, so nothing above it was checked'\nexit 1\n")
        said = "rt: the library octets did not build, so nothing above it was checked"
        self.assertEqual((result.status, result.lines), (1, [said, f"{LIBRARY} is not made"]))

    def test_misuse(self):
        self.assertEqual(run("build", "everything").status, 2)
