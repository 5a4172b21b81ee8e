//! The session that change 10 of document 02 withdraws. "A successor may not carry either": flag 2, or capability 0x0008 in an
//! entry.

use crate::account::owns;
use crate::aux_limit::{state_number, u16_at, MAX_AUX};
use ckb_std::Scene;

/// The number of a successor that carries one.
pub const SESSION_WITHDRAWN: i8 = 49;
/// The flag's value in a state's flags.
pub const FLAG: u8 = 2;
/// The bit of an entry's capabilities.
pub const CAPABILITY: u16 = 0x0008;

/// The places of the entries with the capability, in a state that passes its checks.
fn holders(state: &[u8]) -> Vec<u8> {
    let (mut at, mut places) = (32, Vec::new());
    for place in 0..state[22] {
        if u16_at(state, at + 6) & usize::from(CAPABILITY) != 0 {
            places.push(place);
        }
        at += u16_at(state, at);
    }
    places
}

/// Whether these bytes are a state that passes its own checks and carries a session.
pub fn carried(state: &[u8]) -> bool {
    let passes = state_number(state, Some(MAX_AUX)) == 0;
    passes && (state[5] & FLAG != 0 || !holders(state).is_empty())
}

/// How a state can carry a session.
pub const KINDS: [&str; 7] = [
    "session: flag 2 alone",
    "session: flag 2 and capability 0x0008",
    "session: capability 0x0008 in the only entry",
    "session: capability 0x0008 in the first entry",
    "session: capability 0x0008 in a middle entry",
    "session: capability 0x0008 in the last entry",
    "session: capability 0x0008 in several entries",
];

/// How this one carries it.
fn kind(state: &[u8]) -> &'static str {
    let last = state[22] - 1;
    let kind = match (state[5] & FLAG != 0, &holders(state)[..]) {
        (true, []) => 0,
        (true, _) => 1,
        (false, [0]) if last == 0 => 2,
        (false, [0]) => 3,
        (false, [place]) if *place < last => 4,
        (false, [_]) => 5,
        (false, _) => 6,
    };
    KINDS[kind]
}

/// The operations that can leave such a state.
pub const OPERATIONS: [&str; 2] = ["session: left by a rotation", "session: left by a recovery"];

/// By which operation the successor is left and how it carries a session, in a scene that is refused for it. The witness lock
/// stands behind the offsets of its table and its own length.
pub fn met(scene: &Scene) -> [&'static str; 2] {
    let mut outputs = scene.outputs.iter().map(|output| &output.cell);
    let successor = outputs.find(|cell| owns(scene, cell)).expect("a successor");
    let first = scene.inputs.iter().position(|input| input.group);
    let operation = scene.witnesses[first.expect("an input of the group")][20 + 5];
    let operation = OPERATIONS[usize::from(operation - 2)];
    [operation, kind(&successor.data)]
}
