//! What an account is about to do, before it becomes a scene.

use super::sinces;
use crate::formats::states;
use crate::formats::witnesses::Witness;
use crate::prng::Prng;
use crate::session::{CAPABILITY, FLAG};
use blake2b::ckb_hash;
use ckb_account_host::{AccountState, Proof};

pub struct Plan {
    /// The type script of the cell that holds the state. Its hash is the account's id.
    pub type_script: Vec<u8>,
    /// What verifiers' code hashes are the hashes of.
    pub programs: Vec<Vec<u8>>,
    pub state: AccountState,
    /// What a rotation or a recovery leaves.
    pub successor: AccountState,
    pub lock: Witness,
    /// The since of the input that holds the state.
    pub since: u64,
    pub verdicts: Vec<u8>,
}

/// The bit that an operation asks of an entry.
pub fn capability(operation: u8) -> u16 {
    match operation {
        1 => 1,
        2 => 2,
        _ => 4,
    }
}

/// A valid state of so many entries, with recovery where that is the operation.
fn state(prng: &mut Prng, operation: u8, entries: usize) -> AccountState {
    loop {
        let state = states::valid(prng, entries);
        if operation != 3 || state.flags & 1 == 1 {
            return state;
        }
    }
}

/// Takes from a state what a successor may not carry.
pub fn clear_session(state: &mut AccountState) {
    state.flags &= !FLAG;
    for auth in &mut state.authenticators {
        auth.capabilities &= !CAPABILITY;
    }
}

/// A valid state of so many entries with this sequence, which a rotation or a recovery may leave.
pub fn successor(prng: &mut Prng, entries: usize, sequence: u64) -> AccountState {
    let mut state = states::valid(prng, entries);
    clear_session(&mut state);
    state.sequence = sequence;
    if state.flags & 1 == 1 {
        [state.recovery_since, _] = sinces::passing(prng);
    }
    state
}

/// Gives a state the flag, the capability in any entry, or both.
fn give_session(state: &mut AccountState, prng: &mut Prng) {
    let kind = prng.up_to(2);
    if kind > 0 {
        state.flags |= FLAG;
    }
    if kind < 2 {
        let place = prng.up_to(state.authenticators.len() - 1);
        state.authenticators[place].capabilities |= CAPABILITY;
    }
}

/// Lets entries share one code hash.
fn share_verifiers(state: &mut AccountState) {
    let hash = state.authenticators[0].verifier_code_hash;
    for auth in &mut state.authenticators {
        auth.verifier_code_hash = hash;
    }
}

/// Gives verifiers programs, made of the code hashes that are there, and the programs' hashes as code hashes. One of four
/// that are found by data hash has none: any hash is believed of a dep without data.
fn programs(state: &mut AccountState) -> Vec<Vec<u8>> {
    let mut programs = Vec::new();
    for auth in &mut state.authenticators {
        let bytes = auth.verifier_code_hash;
        if auth.verifier_hash_type == 1 || bytes[31] % 4 != 0 {
            let program = bytes[..5 + usize::from(bytes[0] % 8)].to_vec();
            auth.verifier_code_hash = ckb_hash(&program);
            programs.push(program);
        }
    }
    programs
}

/// Mostly one entry, at times up to 16.
fn entries(prng: &mut Prng) -> usize {
    match prng.up_to(9) {
        0..=5 => 1,
        6..=8 => 2 + prng.up_to(1),
        _ => 1 + prng.up_to(15),
    }
}

impl Plan {
    /// Every entry with the capability gives a proof, and each is approved. A recovery has waited; of the other operations the
    /// state's recovery_since is any number.
    pub fn of_state(prng: &mut Prng, operation: u8, mut state: AccountState) -> Self {
        let [recovery_since, since] = sinces::passing(prng);
        if operation == 3 {
            state.recovery_since = recovery_since;
        }
        let programs = programs(&mut state);
        let bit = capability(operation);
        let mut proofs = Vec::new();
        for auth in &state.authenticators {
            let length = 1 + prng.up_to(20);
            if auth.capabilities & bit != 0 {
                let (slot, bytes) = (auth.slot, prng.bytes(length));
                proofs.push(Proof { slot, bytes });
            }
        }
        let count = 1 + prng.up_to(1);
        let successor = successor(prng, count, state.sequence.wrapping_add(1));
        let length = prng.up_to(12);
        Plan {
            type_script: [&[9], &prng.bytes(length)[..]].concat(),
            programs,
            successor,
            verdicts: vec![0; proofs.len()],
            lock: Witness {
                operation,
                sequence: state.sequence,
                proofs,
            },
            since,
            state,
        }
    }

    /// The account's id.
    pub fn id(&self) -> [u8; 32] {
        ckb_hash(&self.type_script)
    }

    /// A plan that the lock accepts.
    pub fn valid(prng: &mut Prng, operation: u8, entries: usize) -> Self {
        let mut state = state(prng, operation, entries);
        if prng.up_to(1) == 1 {
            share_verifiers(&mut state);
        }
        Plan::of_state(prng, operation, state)
    }

    /// The same, every entry having a small weight and every capability, and one entry of it being enough.
    pub fn full(prng: &mut Prng, operation: u8, entries: usize) -> Self {
        let mut state = state(prng, operation, entries);
        for auth in &mut state.authenticators {
            auth.capabilities |= 7;
            auth.weight = 1 + prng.up_to(4) as u16;
        }
        state.spend_threshold = 1;
        state.rotate_threshold = 1;
        state.recovery_threshold = u16::from(state.flags & 1);
        Plan::of_state(prng, operation, state)
    }

    /// The same, with every capability and aux of these lengths.
    pub fn with_aux(prng: &mut Prng, operation: u8, aux_lens: &[usize]) -> Self {
        let mut state = states::with_aux(prng, aux_lens);
        state.flags = 1;
        state.recovery_threshold = 1;
        for auth in &mut state.authenticators {
            auth.capabilities |= 7;
        }
        Plan::of_state(prng, operation, state)
    }

    /// The same with the longest answer: the aux of 16 entries fill a state, and as many proofs a witness lock.
    pub fn longest_answer(prng: &mut Prng, operation: u8) -> Self {
        let mut plan = Plan::with_aux(prng, operation, &[942; 16]);
        for proof in &mut plan.lock.proofs {
            proof.bytes = prng.bytes(8_183);
        }
        plan
    }

    /// Some proofs are left out, verdicts are of every kind, some successors carry a session or have any recovery_since, and
    /// some recoveries have any waits.
    pub fn random(prng: &mut Prng) -> Self {
        let operation = 1 + prng.up_to(2) as u8;
        let count = entries(prng);
        let mut plan = Plan::valid(prng, operation, count);
        if prng.up_to(14) == 0 {
            give_session(&mut plan.successor, prng);
        }
        if operation == 3 && prng.up_to(2) == 0 {
            [plan.state.recovery_since, plan.since] = sinces::any(prng);
        }
        if plan.successor.flags & 1 == 1 && prng.up_to(1) == 0 {
            plan.successor.recovery_since = prng.next();
        }
        if prng.up_to(2) == 0 {
            plan.lock.proofs.retain(|_| prng.up_to(3) > 0);
        }
        let spare = [0, 0, 0, 1, 16][prng.up_to(4)];
        let digits = (plan.lock.proofs.len() + spare).min(16);
        let refusing = prng.up_to(2) == 0;
        let digit = |prng: &mut Prng| [0, 0, 0, 1, 1, 2][prng.up_to(5)];
        plan.verdicts = vec![0; digits];
        if refusing {
            plan.verdicts.fill_with(|| digit(prng));
        }
        plan
    }
}
