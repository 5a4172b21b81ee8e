"""The command: help, misuse, a missing library, a broken pipe and a full disk; and the module as a script imports it."""

import _ctypes
import io
import os
import shutil
import signal
import subprocess
import sys
import unittest.mock

from fowlcredenza import progress
from fowlcredenza.verbs import VERBS
from support import COMMAND, ROOT, SAMPLES, SPEND, Case, run

HOW = "`tools/fowlcredenza build` makes one, in about"
# Words with which each verb asks for the library.
NEED_LIBRARY = {
    "decide": (SPEND,),
    "explain": (SPEND,),
    "requests": (SPEND, "--out", "/none"),
    "verdicts": (SPEND, "--from", "/dev/null"),
    "state": ("00",),
    "hash": (SPEND,),
}


class Help(Case):
    def test_each_verb(self):
        first = run("--help")
        self.assertEqual(first.status, 0)
        for verb in VERBS:
            with self.subTest(verb):
                result = run(verb, "--help")
                self.assertEqual((result.status, result.err), (0, ""))
                self.assertIn("--json", result.out)
                self.assertIn(f"    {verb} ", first.out)

    def test_registration(self):
        """Each file in verbs/ is registered."""
        files = {path.stem for path in (ROOT / "python/fowlcredenza/verbs").glob("[a-z]*.py")}
        self.assertEqual(files, set(VERBS))

    def test_misuse(self):
        for words in ((), ("none",), ("decide", "--none", SPEND)):
            with self.subTest(words):
                result = run(*words)
                self.assertEqual((result.status, result.out), (2, ""))
                self.assertIn("usage: fowlcredenza", result.err)


class MissingLibrary(Case):
    def test_named(self):
        """Each verb says what makes the library, and how long that takes."""
        self.assertEqual(set(NEED_LIBRARY) | {"build"}, set(VERBS))
        for verb, words in NEED_LIBRARY.items():
            with self.subTest(verb):
                result = run(verb, *words, FOWLCREDENZA_LIBRARY="/none.so")
                self.assertEqual((result.status, result.out), (2, ""))
                self.assertTrue(result.err.startswith(f"fowlcredenza {verb}: there is no library /none.so; {HOW}"), result)

    def test_fresh_clone(self):
        (self.folder / "tools").mkdir()
        shutil.copy(COMMAND, self.folder / "tools")
        shutil.copytree(ROOT / "python", self.folder / "python")
        result = run("decide", SPEND, command=self.folder / "tools/fowlcredenza")
        wanted = f"fowlcredenza decide: there is no library target/lib/libfowlcredenza.so; {HOW}"
        self.assertEqual((result.status, result.out, result.err[: len(wanted)]), (2, "", wanted))

    def test_another(self):
        """A file that is no library, and a library of something else."""
        text = run("decide", SPEND, FOWLCREDENZA_LIBRARY=str(SPEND))
        self.assertEqual((text.status, text.out), (2, ""))
        self.assertIn("the library cannot be loaded", text.err)
        other = run("decide", SPEND, FOWLCREDENZA_LIBRARY=_ctypes.__file__)
        self.assertEqual((other.status, other.out), (2, ""))
        self.assertIn("has no function fowlcredenza_ckb_hash", other.err)


class Output(Case):
    def test_broken_pipe(self):
        """A reader that goes away ends the command quietly."""
        with subprocess.Popen([COMMAND, "decide", SAMPLES], stdout=subprocess.PIPE, stderr=subprocess.PIPE) as command:
            command.stdout.close()
            said = command.stderr.read().decode()
            self.assertEqual(command.wait(), -signal.SIGPIPE)
        self.assertNotIn("Traceback", said)

    def test_full_disk(self):
        with open("/dev/full", "wb") as full:
            done = subprocess.run([COMMAND, "decide", SPEND], stdout=full, stderr=subprocess.PIPE, check=False)
        wanted = b"fowlcredenza decide: standard output: No space left on device\n"
        self.assertEqual((done.returncode, done.stderr), (2, wanted))

    def test_progress(self):
        """On a terminal a line is written over, and then wiped; elsewhere there is none."""
        for terminal, wanted in ((True, "\r1 of 2\r2 of 2\r\033[K"), (False, "")):
            said = io.StringIO()
            said.isatty = lambda shown=terminal: shown
            with unittest.mock.patch("sys.stderr", said), unittest.mock.patch.object(progress, "PAUSE", 0):
                steps = progress.Progress(2)
                steps.step()
                steps.step()
                steps.end()
            self.assertEqual(said.getvalue(), wanted)


class Script(Case):
    def test_import(self):
        """The lines at the head of the module, from a script of the tester's own."""
        words = "import fowlcredenza; print(fowlcredenza.__doc__)"
        lines = [line[4:] for line in self.script(words).splitlines() if line.startswith("    ")]
        self.assertTrue(self.script("\n".join(lines)).startswith("0 answer,0,1,98,"))

    def script(self, text):
        environment = {**os.environ, "PYTHONPATH": str(ROOT / "python")}
        words = [sys.executable, "-c", text]
        return subprocess.run(words, env=environment, cwd=ROOT, capture_output=True, text=True, check=True).stdout
