//! Account states, valid and with faults.

use crate::prng::Prng;
use ckb_account_host::{AccountState, Authenticator};
use ckb_account_protocol::{
    ALG_FALCON512_EXPERIMENTAL, ALG_MLDSA44, ALG_MLDSA65, ALG_MLDSA87, ALG_P256_WEBAUTHN,
    ALG_SLHDSA,
};

const ALGORITHMS: [u16; 5] = [
    ALG_P256_WEBAUTHN,
    ALG_MLDSA44,
    ALG_MLDSA65,
    ALG_MLDSA87,
    ALG_SLHDSA,
];
/// The longest state.
const LONGEST: usize = 16_384;

/// A state with one thing in it changed.
type Change = fn(&mut AccountState, &mut Prng);

fn authenticator(prng: &mut Prng, slot: u16, aux_len: usize) -> Authenticator {
    let heaviest = [5, 65_535][prng.up_to(1)];
    Authenticator {
        slot,
        algorithm_id: ALGORITHMS[prng.up_to(4)],
        capabilities: prng.up_to(15) as u16,
        weight: 1 + prng.up_to(heaviest - 1) as u16,
        verifier_hash_type: prng.up_to(1) as u8,
        verifier_abi: 1,
        verifier_code_hash: prng.bytes(32).try_into().unwrap(),
        key_id: prng.bytes(32).try_into().unwrap(),
        aux: prng.bytes(aux_len),
    }
}

/// The weight of those that have a capability, as far as a threshold can ask for it.
fn weight(state: &AccountState, capability: u16) -> u16 {
    let holds = |auth: &&Authenticator| auth.capabilities & capability != 0;
    let weights = state.authenticators.iter().filter(holds);
    let sum: u32 = weights.map(|auth| u32::from(auth.weight)).sum();
    sum.min(65_535) as u16
}

/// Slots rise by small steps, or by large ones up to the last.
fn slots(prng: &mut Prng, count: usize) -> Vec<u16> {
    let step = [3, 4_095][prng.up_to(1)];
    let mut slots = Vec::new();
    let mut next = prng.up_to(1);
    for _ in 0..count {
        slots.push(next as u16);
        next += 1 + prng.up_to(step - 1);
    }
    slots
}

/// A valid state whose entries have aux of these lengths. The first may spend, rotate and recover, so that
/// each threshold can be met.
pub fn with_aux(prng: &mut Prng, aux_lens: &[usize]) -> AccountState {
    let slots = slots(prng, aux_lens.len());
    let entries = slots.into_iter().zip(aux_lens);
    let mut state = AccountState {
        flags: prng.up_to(3) as u8,
        sequence: prng.next(),
        spend_threshold: 0,
        rotate_threshold: 0,
        recovery_threshold: 0,
        recovery_since: 0,
        authenticators: entries
            .map(|(slot, aux_len)| authenticator(prng, slot, *aux_len))
            .collect(),
    };
    if let Some(first) = state.authenticators.first_mut() {
        first.capabilities |= 7;
    }
    let mut threshold = |most: u16| 1 + prng.up_to(most.max(1) as usize - 1) as u16;
    state.spend_threshold = threshold(weight(&state, 1));
    state.rotate_threshold = threshold(weight(&state, 2));
    if state.flags & 1 != 0 {
        state.recovery_threshold = threshold(weight(&state, 4));
        state.recovery_since = prng.next();
    }
    state
}

/// A valid state of so many entries with short aux.
pub fn valid(prng: &mut Prng, count: usize) -> AccountState {
    let aux_lens: Vec<usize> = (0..count).map(|_| 1 + prng.up_to(20)).collect();
    with_aux(prng, &aux_lens)
}

/// The smallest state: 113 bytes.
pub fn smallest(prng: &mut Prng) -> AccountState {
    let mut state = with_aux(prng, &[1]);
    state.flags = 0;
    state.recovery_threshold = 0;
    state.recovery_since = 0;
    state
}

/// States at the limits of length and count, and beyond them.
pub fn limits(prng: &mut Prng) -> Vec<AccountState> {
    let mut states = Vec::new();
    for count in [0, 1, 2, 15, 16, 17, 18, 254, 255, 256, 257] {
        states.push(valid(prng, count));
    }
    for aux_len in [0, 1, 2, 4_095, 4_096, 4_097, 5_000] {
        states.push(with_aux(prng, &[aux_len]));
        states.push(with_aux(prng, &[3, aux_len, 4]));
    }
    for total in LONGEST - 2..=LONGEST + 2 {
        states.push(with_aux(prng, &[total - 112]));
        let room = total - 32 - 16 * 80;
        let mut aux_lens = [room / 16; 16];
        aux_lens[15] += room % 16;
        states.push(with_aux(prng, &aux_lens));
    }
    for aux_len in [65_454, 65_455, 65_456, 65_535] {
        states.push(with_aux(prng, &[aux_len]));
    }
    states
}

fn entry<'a>(state: &'a mut AccountState, prng: &mut Prng) -> &'a mut Authenticator {
    let i = prng.up_to(state.authenticators.len() - 1);
    &mut state.authenticators[i]
}

/// One of the algorithms or its neighbours, or one that is named and not supported.
fn algorithm(prng: &mut Prng) -> u16 {
    let algorithm = ALGORITHMS[prng.up_to(4)];
    match prng.up_to(4) {
        0 => algorithm - 1,
        1 => algorithm + 1,
        2 => algorithm.swap_bytes(),
        3 => ALG_FALCON512_EXPERIMENTAL,
        _ => prng.next() as u16,
    }
}

/// A threshold of 0, of the whole weight, or one above it.
fn threshold(state: &AccountState, prng: &mut Prng, capability: u16) -> u16 {
    let weight = weight(state, capability);
    [0, 1, weight, weight.saturating_add(1), 65_535][prng.up_to(4)]
}

const CHANGES: [Change; 18] = [
    |state, prng| state.flags = prng.up_to(5) as u8,
    |state, prng| state.flags = prng.next() as u8,
    |state, _| state.flags ^= 1,
    |state, prng| state.spend_threshold = threshold(state, prng, 1),
    |state, prng| state.rotate_threshold = threshold(state, prng, 2),
    |state, prng| state.recovery_threshold = threshold(state, prng, 4),
    |state, prng| state.recovery_since = [0, 1, u64::MAX, 1 << 32][prng.up_to(3)],
    |state, prng| entry(state, prng).weight = [0, 1, 65_535][prng.up_to(2)],
    |state, prng| entry(state, prng).capabilities = [0, 8, 0x000f, 0x0010, 0x0100][prng.up_to(4)],
    |state, prng| entry(state, prng).capabilities = prng.up_to(16) as u16,
    |state, prng| entry(state, prng).verifier_hash_type = [0, 1, 2, 255][prng.up_to(3)],
    |state, prng| entry(state, prng).verifier_abi = [0, 1, 2, 255][prng.up_to(3)],
    |state, prng| entry(state, prng).algorithm_id = ALGORITHMS[prng.up_to(4)],
    |state, prng| entry(state, prng).algorithm_id = algorithm(prng),
    |state, prng| entry(state, prng).aux.clear(),
    |state, prng| entry(state, prng).slot = prng.up_to(6) as u16,
    |state, prng| {
        let i = prng.up_to(state.authenticators.len() - 1);
        let slot = state.authenticators[i].slot;
        let next = (i + 1) % state.authenticators.len();
        state.authenticators[next].slot = slot;
    },
    |state, _| state.authenticators.reverse(),
];

/// A state of one to 16 entries with one to three changes, which may be faults.
pub fn changed(prng: &mut Prng) -> AccountState {
    let count = match prng.up_to(2) {
        0 => 1,
        1 => 2,
        _ => 1 + prng.up_to(15),
    };
    let mut state = valid(prng, count);
    for _ in 0..=prng.up_to(2) {
        CHANGES[prng.up_to(CHANGES.len() - 1)](&mut state, prng);
    }
    state
}

/// The state's layout filled from it, valid or not. Numbers that do not fit their fields are cut.
pub fn layout(state: &AccountState) -> Vec<u8> {
    let mut out = b"CKAS\x01".to_vec();
    out.push(state.flags);
    out.extend(32u16.to_le_bytes());
    out.extend(state.sequence.to_le_bytes());
    out.extend(state.spend_threshold.to_le_bytes());
    out.extend(state.rotate_threshold.to_le_bytes());
    out.extend(state.recovery_threshold.to_le_bytes());
    out.push(state.authenticators.len() as u8);
    out.push(0);
    out.extend(state.recovery_since.to_le_bytes());
    for auth in &state.authenticators {
        out.extend(entry_layout(auth));
    }
    out
}

/// The same of one entry.
pub fn entry_layout(auth: &Authenticator) -> Vec<u8> {
    let length = 80 + auth.aux.len();
    let mut out = Vec::new();
    for number in [length as u16, auth.slot, auth.algorithm_id] {
        out.extend(number.to_le_bytes());
    }
    out.extend(auth.capabilities.to_le_bytes());
    out.extend(auth.weight.to_le_bytes());
    out.extend([auth.verifier_hash_type, auth.verifier_abi]);
    out.extend(auth.verifier_code_hash);
    out.extend(32u16.to_le_bytes());
    out.extend((auth.aux.len() as u16).to_le_bytes());
    out.extend(auth.key_id);
    out.extend(&auth.aux);
    out
}
