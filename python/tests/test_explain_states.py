"""explain: an aux that is too long, and a session that a successor carries, are told entry by entry."""

from fowlcredenza.protocol import number_at
from fowlcredenza.scene import Output
from support import EDITED, Case, call, entries_of, sample, samples_of, with_line, with_state


def with_aux(state, place, length):
    """The state with an aux of this length in the entry of that place, and the entry's slot."""
    at = entries_of(state)[place]
    lengths = [(80 + length).to_bytes(2, "little"), length.to_bytes(2, "little")]
    entry = lengths[0] + state[at + 2 : at + 46] + lengths[1] + state[at + 48 : at + 80] + bytes([1]) * length
    return state[:at] + entry + state[at + number_at(state, at) :], number_at(state, at + 2)


def with_session(state, flag, places):
    """The state with the session's flag or not, and the session's capability in the entries of these places alone; and what
    there is to be told of it."""
    state, told = bytearray(state), []
    state[5] = state[5] & 1 | (2 if flag else 0)
    if flag:
        told.append(f"its flags are {state[5]} and should be {state[5] & 1}, without the session's 2")
    for place, at in enumerate(entries_of(state)):
        state[at + 6] &= 7
        if place in places:
            words = f"its entry {place + 1}, slot {number_at(state, at + 2)}, has capabilities 0x{state[at + 6] | 8:04x}"
            told.append(f"{words} and should have 0x{state[at + 6]:04x}, without the session's 0x0008")
            state[at + 6] |= 8
    return bytes(state), told


def with_sessions(read):
    """The scene with a session in all that its states can carry."""
    for place, cell in read.own_cells():
        read = with_line(read, place, with_state(cell, with_session(cell.data, True, range(16))[0]))
    return read


class Aux(Case):
    def test_each_entry(self):
        """An aux about the limit in each entry of each state that the lock reads."""
        for name in EDITED:
            read = sample(name)
            for i, cell in read.own_cells():
                for place in range(len(entries_of(cell.data))):
                    for length in (2592, 2593, 2594, 4096, 5000):
                        with self.subTest(f"{name}, line {i + 1}, entry {place + 1}, aux {length}"):
                            self.tell(read, i, place, length)

    def tell(self, read, i, place, length):
        state, slot = with_aux(read.lines[i].data, place, length)
        edited = with_line(read, i, with_state(read.lines[i], state))
        result = call("explain", stdin=edited.text())
        if length <= 2593:
            self.assertLess(result.status, 2)
            self.assertNotRegex(result.out, "refused: 44,|aux of")
            return
        line, words = result.lines[-2:]
        self.assertEqual(result.status, 1)
        self.assertTrue(result.out.startswith("refused: 44, "), result)
        self.assertTrue(line.startswith(f"line {i + 1}: {edited.lines[i].text()[:60]}"), result)
        told = f"its entry {place + 1}, slot {slot}, has an aux of {length:,} bytes; a state's has at most 2,593"
        self.assertEqual(words, told)


class Sessions(Case):
    def tell(self, read, i, told):
        """Explains a scene whose line there is that of a successor, of which this is to be told; or that is accepted."""
        result = call("explain", stdin=read.text())
        if not told:
            self.assertEqual((result.status, result.lines[0]), (0, "accepted"))
            self.assertNotIn("session", result.out)
            return
        self.assertEqual((result.status, result.lines[-len(told) :]), (1, told))
        self.assertTrue(result.out.startswith("refused: 49, "), result)
        self.assertTrue(result.lines[-len(told) - 1].startswith(f"line {i + 1}: {read.lines[i].text()[:60]}"), result)

    def test_successors(self):
        """No session, the flag, the capability in each entry, in all, and both; without and with one in the current state. The
        sample for 49 is accepted without it."""
        for name in (*EDITED, *samples_of(49)):
            read = sample(name)
            for i, cell in [(i, cell) for i, cell in read.own_cells() if isinstance(cell, Output)]:
                every = range(len(entries_of(cell.data)))
                for flag in (False, True):
                    for places in ([], *([place] for place in every), every):
                        left, told = with_session(cell.data, flag, places)
                        for before in (read, with_sessions(read)):
                            with self.subTest(f"{name}, flag {flag}, entries {list(places)}, session {before is not read}"):
                                self.tell(with_line(before, i, with_state(cell, left)), i, told)

    def test_current_states(self):
        """A session in a current state is not told."""
        for name in EDITED:
            read = sample(name)
            for i, cell in read.own_cells():
                if not isinstance(cell, Output):
                    with self.subTest(f"{name}, line {i + 1}"):
                        state, _ = with_session(cell.data, True, range(16))
                        self.tell(with_line(read, i, with_state(cell, state)), i, [])
