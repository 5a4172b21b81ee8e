"""state: what an account's state holds, and the entry and the byte at fault in a refused one."""

from fowlcredenza.library import Refusal
from fowlcredenza.protocol import ckb_hash
from fowlcredenza.state_fault import find_fault
from support import Case, call, entries_of, library, recorded, run, sample, samples_of

SPEND_STATE = sample("spend.scene").deps[0].data
LARGE_STATE = sample("recovery.scene").own_cells()[0][1].data


def changed(state, at, *values):
    return state[:at] + bytes(values) + state[at + len(values) :]


def without_aux(state):
    """The state of one entry, whose aux has one byte, without it."""
    return changed(changed(state, 32, 80), 78, 0)[:-1]


class Accepted(Case):
    def test_in_words(self):
        result = run("state", SPEND_STATE.hex())
        digits = ckb_hash(SPEND_STATE).hex()
        self.assertEqual(result.status, 0)
        self.assertEqual(
            result.lines[:6],
            [
                f"a state of 113 bytes, hash {digits}",
                "sequence 7",
                "flags 0: recovery off, sessions off",
                "thresholds: spend 1 of 1, rotate 1 of 1, recovery 0 of 0",
                "recovery is off",
                "slot 5: P-256 with WebAuthn (0x0001), weight 1, capabilities spend, rotate",
            ],
        )

    def test_a_wait(self):
        result = call("state", LARGE_STATE.hex())
        self.assertEqual(result.status, 0)
        self.assertRegex(result.out, r"\na recovery waits for its recovery_since: \d+, (relative|absolute), [\d,]+ ")
        malformed = changed(LARGE_STATE, 31, 0x60)
        self.assertRegex(call("state", malformed.hex()).out, "malformed: .*; no recovery can run\n")
        self.assertIn("waits for nothing", call("state", changed(LARGE_STATE, 24, *bytes(8)).hex()).out)

    def test_a_file_wins(self):
        path = self.write("abcd", SPEND_STATE)
        self.assertEqual(call("state", path).out, call("state", SPEND_STATE.hex()).out)
        self.assertEqual(run("state", "-", stdin=SPEND_STATE).out, call("state", path).out)

    def test_json(self):
        data = run("state", "--json", SPEND_STATE.hex()).json
        self.assertEqual((data["number"], data["sequence"], data["spend_threshold"], data["count"]), (0, 7, 1, 1))
        entry = data["entries"][0]
        self.assertEqual((entry["slot"], entry["algorithm_name"], entry["weight"]), (5, "P-256 with WebAuthn", 1))
        self.assertEqual(entry["capabilities"], ["spend", "rotate"])


class RefusedStates(Case):
    def test_each_check(self):
        """A state for each check, with the number, the byte and what is said."""
        second = entries_of(LARGE_STATE)[1]
        cases = {
            "empty": (b"", 21, 0, "the state has 0 bytes; a state has 32 to 16,384"),
            "too long": (SPEND_STATE + bytes(16384), 21, 16384, "the state has 16,497 bytes"),
            "magic": (changed(SPEND_STATE, 0, 0), 21, 0, "the state begins with 004b4153"),
            "version": (changed(SPEND_STATE, 4, 2), 32, 4, "the state has version 2"),
            "flags": (changed(SPEND_STATE, 5, 4), 21, 5, "the state has flags 4"),
            "header length": (changed(SPEND_STATE, 6, 33), 21, 6, "the state has a header length of 33"),
            "byte 23": (changed(SPEND_STATE, 23, 1), 21, 23, "the state has 1 where a 0 stands"),
            "count": (changed(SPEND_STATE, 22, 17), 21, 22, "the state has a count of 17 entries"),
            "cut": (SPEND_STATE[:60], 21, 32, "its entry 1, slot 5, has 28 bytes left, and needs 48"),
            "entry length": (changed(SPEND_STATE, 32, 80), 21, 32, "its entry 1, slot 5, has an entry length of 80"),
            "short": (SPEND_STATE[:-1], 21, 32, "its entry 1, slot 5, has 80 bytes left, and needs 81"),
            "slot": (changed(LARGE_STATE, second + 2, 0, 0), 21, second + 2, "its entry 2, slot 0, is not above the slot"),
            "weight": (changed(SPEND_STATE, 40, 0), 21, 40, "its entry 1, slot 5, has weight 0"),
            "capabilities": (changed(SPEND_STATE, 38, 16), 21, 38, "its entry 1, slot 5, has capabilities 0x0010"),
            "hash type": (changed(SPEND_STATE, 42, 2), 30, 42, "its entry 1, slot 5, has hash type 2"),
            "ABI": (changed(SPEND_STATE, 43, 0), 30, 43, "its entry 1, slot 5, has ABI 0"),
            "algorithm": (changed(SPEND_STATE, 36, 1, 3), 33, 36, "its entry 1, slot 5, has algorithm 0x0301"),
            "key": (changed(SPEND_STATE, 76, 31, 0, 2), 21, 76, "its entry 1, slot 5, has a key of 31 bytes"),
            "aux": (without_aux(SPEND_STATE), 21, 78, "its entry 1, slot 5, has an empty aux"),
            "end": (SPEND_STATE + b"ab", 21, 113, "the state has 2 bytes after its last entry"),
            "no threshold": (changed(SPEND_STATE, 18, 0), 38, 18, "the state has a rotate threshold of 0"),
            "threshold": (changed(SPEND_STATE, 16, 2), 38, 16, "the state has a spend threshold of 2; all entries with"),
            "recovery on": (changed(SPEND_STATE, 5, 1), 38, 20, "the state has a recovery threshold of 0"),
            "recovery off": (changed(SPEND_STATE, 20, 1), 21, 20, "the state has a recovery threshold of 1, and recovery"),
            "a wait, off": (changed(SPEND_STATE, 24, 1), 21, 24, "the state has a recovery_since of 1, and recovery is off"),
        }
        for name, (state, number, byte, words) in cases.items():
            with self.subTest(name):
                result = call("state", self.write("state", state))
                self.assertEqual(result.status, 1)
                self.assertRegex(result.lines[0], rf"^refused: {number}, \w+$")
                self.assertTrue(result.lines[1].startswith(f"byte {byte}: {words}"), result)

    def test_json(self):
        data = run("state", "--json", changed(SPEND_STATE, 40, 0).hex()).json
        wanted = {"number": 21, "name": "InvalidState", "entry": 1, "slot": 5, "byte": 40}
        self.assertEqual({name: data[name] for name in wanted}, wanted)

    def test_agreement(self):
        """The number of the fault that is found is the library's, whatever byte is changed, and however a state is cut."""
        for name, state in (("small", SPEND_STATE), ("large", LARGE_STATE)):
            edited = [changed(state, at, value) for at in range(len(state)) for value in (0, 1, 2, 3, 32, 255, state[at] ^ 1)]
            edited += [state[:length] for length in range(len(state))] + [state + bytes(1)]
            with self.subTest(name):
                for other in edited:
                    self.agree(other)

    def test_recorded(self):
        """The same of all states of the recorded scenes."""
        for text, _ in recorded():
            for line in text.split(b"\n"):
                if line.startswith((b"dep,", b"output,", b"input,")):
                    fields = line.split(b",")
                    place = {b"dep": 4, b"output": 4, b"input": 6}[fields[0]]
                    self.agree(bytes.fromhex(fields[place].decode()))

    def agree(self, state):
        fault = find_fault(state)
        try:
            library().validate_state(state)
            number = 0
        except Refusal as refusal:
            number = refusal.number
        self.assertEqual(fault.number if fault else 0, number, (state.hex(), fault))

    def test_long_aux(self):
        """The state of the sample for 44."""
        for _, cell in sample(samples_of(44)[0]).own_cells():
            if (fault := find_fault(cell.data)) is not None:
                self.assertEqual(fault.number, 44)
                result = call("state", cell.data.hex())
                self.assertRegex(result.lines[1], r"^byte \d+: its entry \d+, slot \d+, has an aux of [\d,]+ bytes; a state's")


class Misuse(Case):
    def test_words(self):
        cases = {"none": "no such file", "abc": "no hexadecimal digits", str(self.folder): "Is a directory"}
        for words, said in cases.items():
            with self.subTest(words):
                result = run("state", words)
                self.assertEqual((result.status, result.out), (2, ""))
                self.assertIn(said, result.err)
        self.assertEqual(run("state").status, 2)
