"""The library's functions: their declarations beside the header, and a call of each with good and refused input."""

import re

from fowlcredenza import numbers
from fowlcredenza.declarations import FUNCTIONS, KINDS, PREFIX, RESULT, SIZES, WORDS
from fowlcredenza.library import Library, Refusal
from fowlcredenza.protocol import ALGORITHMS, OPERATIONS, ckb_hash
from fowlcredenza.readings import Entry, Proof, PublicKeyProof, StateHeader, VerifierRequest
from support import ROOT, SPEND, Case, answers, library, sample

HEADER = (ROOT / "include/fowlcredenza.h").read_text()
STATE = sample("spend.scene").deps[0].data
WITNESS = sample("spend.scene").witnesses[0]
SCRIPT = sample("spend.scene").script
HASH = bytes(range(32))


def declared():
    """The header's functions: name, then the types of result and parameters."""
    for result, name, parameters in re.findall(rf"^(\w+) {PREFIX}(\w+)\(([^)]*)\);", HEADER, re.M):
        kinds = [re.sub(r"\w+$", "", " ".join(part.split())).strip() for part in parameters.split(",")]
        yield name, (result, *kinds)


def enumerated(name):
    body = HEADER.split(f"enum {name} {{")[1].split("}")[0]
    return {key: int(value) for key, value in re.findall(r"FOWLCREDENZA_(\w+) = (\d+)", body)}


class Declarations(Case):
    def test_functions(self):
        found = dict(declared())
        self.assertEqual({name: (RESULT, *types) for name, types in FUNCTIONS.items()}, found)
        self.assertTrue(all(kind in KINDS for types in FUNCTIONS.values() for kind in types))
        self.assertTrue(all(callable(getattr(Library, name)) for name in found))

    def test_sizes(self):
        sizes = enumerated("fowlcredenza_size")
        self.assertEqual(SIZES, {name: sizes[name] for name in SIZES})
        stored = {f"{name.upper()}_OUT_LEN": 8 * count for name, count in WORDS.items()} | {"LOCK_OUT_LEN": 64}
        self.assertEqual(stored, {name: size for name, size in sizes.items() if name.endswith("OUT_LEN")})

    def test_numbers(self):
        """Each number of the header has a row in docs/NUMBERS.md with its name, and the names here are the header's."""
        found = enumerated("fowlcredenza_number")
        for name, number in found.items():
            with self.subTest(name):
                self.assertEqual(numbers.name_of(number), name.title().replace("_", ""))
        here = {name: value for name, value in vars(numbers).items() if name.isupper() and isinstance(value, int)}
        self.assertEqual(here, {name: found[name] for name in here})


class Refused(Case):
    def refuse(self, number, function, *arguments):
        with self.assertRaises(Refusal) as caught:
            function(*arguments)
        self.assertEqual(caught.exception.number, number)
        return caught.exception

    def test_refusal(self):
        refusal = self.refuse(21, library().validate_state, b"")
        self.assertEqual((refusal.name, refusal.function), ("InvalidState", "validate_state"))
        self.assertIn("validate_state", refusal.words)
        self.assertIn("21, InvalidState", str(refusal))

    def test_each(self):
        lib, request = library(), VerifierRequest(1, 5, 4, 1, HASH, HASH, b"", b"")
        header, read = StateHeader(0, 7, 1, 1, 0, 1, 0), lib.read_scene(SPEND.read_bytes())
        cases = [
            (37, lib.capability_for_operation, 4),
            (20, lib.parse_args, bytes(32)),
            (32, lib.parse_args, bytes(33)),
            (21, lib.parse_state_header, b""),
            (21, lib.next_entry, STATE, 33),
            (21, lib.next_entry, STATE, 32, 6),
            (21, lib.entries, STATE[:-1]),
            (22, lib.parse_witness_header, b""),
            (22, lib.validate_witness, b""),
            (22, lib.next_proof, b""),
            (35, lib.parse_verifier_request, b""),
            (36, lib.parse_public_key_proof, b""),
            (7, lib.account_lock_args, bytes(31)),
            (21, lib.encode_state, header, []),
            (7, lib.encode_state, header, [Entry(5, 1, 3, 1, 1, 1, HASH, b"", b"1")]),
            (37, lib.encode_witness, 4, 7, []),
            (37, lib.encode_verifier_request, request),
            (36, lib.encode_public_key_proof, PublicKeyProof(b"", b"1")),
            (22, lib.witness_lock, b""),
            (20, lib.script_args, b""),
            (22, lib.canonical_witness, b""),
            (37, lib.authorization_digest, 4, HASH, 7, STATE, HASH),
            (7, lib.authorization_digest, 1, b"", 7, STATE, HASH),
            (7, lib.canonical_group_sighash, read._replace(store=b"")),
            (2, lib.read_scene, b""),
            (1, lib.read_scene, bytes(1048577)),
            (35, lib.request_numbers, b""),
            (35, lib.request_authorization_digest, b""),
            (35, lib.request_key_id, b""),
            (35, lib.request_aux, b""),
            (35, lib.request_proof, b""),
        ]
        for number, function, *arguments in cases:
            with self.subTest(f"{function.__name__}, {number}"):
                self.refuse(number, function, *arguments)

    def test_numbers_that_do_not_fit(self):
        """A number that its type does not hold is an error, and is not cut."""
        lib = library()
        calls = [
            (lib.is_supported_algorithm, 65537),
            (lib.capability_for_operation, 257),
            (lib.capability_for_operation, -1),
            (lib.encode_witness, 1, 2**64, []),
            (lib.encode_witness, 1, 7, [Proof(65536, b"1")]),
            (lib.table_valid, [2**32], 0),
        ]
        for function, *arguments in calls:
            with self.subTest(f"{function.__name__} {arguments}"), self.assertRaises(OverflowError):
                function(*arguments)


class Accepted(Case):
    def test_numbers(self):
        for algorithm in range(65536):
            if library().is_supported_algorithm(algorithm) is not (algorithm in ALGORITHMS):
                self.fail(hex(algorithm))
        self.assertEqual([library().capability_for_operation(operation) for operation in OPERATIONS], [1, 2, 4])

    def test_args(self):
        args = library().account_lock_args(HASH)
        self.assertEqual((args, library().parse_args(args)), (b"\1" + HASH, (1, HASH)))
        self.assertEqual(library().script_args(SCRIPT), b"\1" + SCRIPT[-32:])

    def test_state(self):
        """A state is written back from what is read of it."""
        for name in ("spend.scene", "recovery.scene", "rotation.scene"):
            for _, cell in sample(name).own_cells():
                with self.subTest(name):
                    state = library().validate_state(cell.data)
                    self.assertEqual(state.header, library().parse_state_header(cell.data))
                    self.assertEqual(library().encode_state(state.header, library().entries(cell.data)), cell.data)
        self.assertEqual(library().next_entry(STATE)[:6], (5, 1, 3, 1, 1, 1))

    def test_witness(self):
        lock = library().witness_lock(WITNESS)
        self.assertEqual(library().validate_witness(lock), (1, 1, 7))
        self.assertEqual(library().parse_witness_header(lock), (1, 1, 7))
        proof = library().next_proof(lock)
        self.assertEqual((proof.slot, proof.proof, proof.offset), (5, b"\xaa", len(lock)))
        self.assertEqual(library().encode_witness(1, 7, [proof]), lock)
        canonical = library().canonical_witness(WITNESS)
        self.assertEqual(canonical.hex(), "1400000010000000140000001400000000000000")

    def test_request(self):
        request = VerifierRequest(1, 5, 1, 7, HASH, HASH[::-1], b"\7aux", b"proof")
        data = library().encode_verifier_request(request)
        self.assertEqual(library().parse_verifier_request(data), request)
        self.assertEqual(library().request_numbers(data), request[:4])
        parts = (lib(data) for lib in (library().request_authorization_digest, library().request_key_id))
        self.assertEqual(tuple(parts), request[4:6])
        self.assertEqual((library().request_aux(data), library().request_proof(data)), request[6:])

    def test_public_key_proof(self):
        proof = PublicKeyProof(b"key", b"signature")
        self.assertEqual(library().parse_public_key_proof(library().encode_public_key_proof(proof)), proof)

    def test_digest(self):
        """The digest of the spend, worked out from its parts."""
        read, scene = library().read_scene(SPEND.read_bytes()), sample("spend.scene")
        sighash = library().canonical_group_sighash(read)
        digest = library().authorization_digest(1, scene.account, 7, STATE, sighash)
        self.assertEqual(digest.hex(), answers()["spend.scene"].split(",")[4])
        self.assertEqual(library().ckb_hash(STATE), ckb_hash(STATE))

    def test_lock(self):
        """The lock answers what a scene's answer is, and does not raise."""
        for name in ("spend.scene", "recovery.scene"):
            read = sample(name)
            for text in (read.text(), read.with_verdicts("").text()):
                table, store = library().read_scene(text)
                self.assertTrue(library().table_valid(table, len(store)))
                self.assertEqual(library().lock(table, store), library().decide_scene(text))
        self.assertIs(library().table_valid([0] * 2048, 0), False)
        self.assertEqual(library().lock([], b"").number, 7)
        self.assertEqual(library().lock([0] * 2048, b"").line(), "answer,7,0,0,,")
        self.assertEqual(library().decide_scene(b"").line(), "answer,2,0,0,,")
        self.assertEqual((library().decide_scene(b"").digest, library().decide_scene(b"").fee), (None, None))
