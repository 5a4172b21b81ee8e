//! A session, which a successor may not carry: in the successor alone, and in the current state, which may carry it.

use super::parts::{put_u16, set, u16_at};
use super::states::{entry, last, recovery, FIRST};
use super::Made::AllBut;
use super::{on_plan, row, Fault, OnBytes, OnPlan, Part, Row, ALL, CHANGING};
use crate::formats::states as plain;
use crate::locks::plan::{clear_session, successor, Plan};
use crate::prng::Prng;
use crate::session::{CAPABILITY, FLAG, SESSION_WITHDRAWN};
use ckb_account_host::{AccountState, Authenticator};

/// The capabilities that a successor's entries may have.
const OTHERS: u16 = 7;

pub fn on_successor(change: OnBytes) -> Fault {
    Fault::Bytes(Part::Successor, change)
}

/// The flag, beside the others.
pub fn flag(state: &mut Vec<u8>, _: &mut Prng) {
    let flags = state.get(5).copied().unwrap_or(0);
    set(state, 5, flags | FLAG);
}

/// The capability, beside the others, in the entry that stands here.
fn give(state: &mut [u8], at: usize) {
    let capabilities = u16_at(state, at + 6);
    put_u16(state, at + 6, capabilities | usize::from(CAPABILITY));
}

/// In the first entry.
pub fn in_first(state: &mut Vec<u8>, _: &mut Prng) {
    give(state, FIRST);
}

/// In the last one.
pub fn in_last(state: &mut Vec<u8>, _: &mut Prng) {
    let at = last(state);
    give(state, at);
}

/// The flag, or the capability in any entry.
pub fn about_session(state: &mut Vec<u8>, prng: &mut Prng) {
    let count = state.get(22).copied().unwrap_or(0);
    let place = prng.up_to(usize::from(count));
    match place.checked_sub(1) {
        None => flag(state, prng),
        Some(place) => {
            let at = entry(state, place);
            give(state, at);
        }
    }
}

/// Every entry has all capabilities but the session's, and any one of them is enough.
fn ease(state: &mut AccountState) {
    state
        .authenticators
        .iter_mut()
        .for_each(|auth| auth.capabilities = OTHERS);
    state.spend_threshold = 1;
    state.rotate_threshold = 1;
    state.recovery_threshold = u16::from(state.flags & 1);
}

/// A successor of so many entries.
fn entries<const COUNT: usize>(plan: &mut Plan, prng: &mut Prng) {
    plan.successor = successor(prng, COUNT, plan.successor.sequence);
    ease(&mut plan.successor);
}

/// The longest successor.
fn longest(plan: &mut Plan, prng: &mut Prng) {
    let sequence = plan.successor.sequence;
    plan.successor = plain::with_aux(prng, &[942; 16]);
    plan.successor.sequence = sequence;
    clear_session(&mut plan.successor);
}

/// These capabilities and no others in the entry of this place.
pub fn capabilities<const PLACE: usize, const VALUE: usize>(state: &mut Vec<u8>, _: &mut Prng) {
    let at = entry(state, PLACE);
    put_u16(state, at + 6, VALUE);
}

/// All capabilities in the entry of this place, or the session's alone.
const fn in_place<const PLACE: usize>() -> [OnBytes; 2] {
    [capabilities::<PLACE, 0x000f>, capabilities::<PLACE, 0x0008>]
}

/// Places among several entries. The others are enough for each threshold.
const PLACES: [(&str, OnPlan, [OnBytes; 2]); 8] = [
    ("first entry of 2", entries::<2>, in_place::<0>()),
    ("last entry of 2", entries::<2>, in_place::<1>()),
    ("first entry of 3", entries::<3>, in_place::<0>()),
    ("second entry of 3", entries::<3>, in_place::<1>()),
    ("last entry of 3", entries::<3>, in_place::<2>()),
    ("first entry of 16", entries::<16>, in_place::<0>()),
    ("ninth entry of 16", entries::<16>, in_place::<8>()),
    ("last entry of 16", entries::<16>, in_place::<15>()),
];

fn capability_rows() -> Vec<Row> {
    let mut rows = Vec::new();
    for (place, entries, [all, alone]) in PLACES {
        for (value, change) in [("0x000f", all), ("0x0008", alone)] {
            let name = format!("successor has capabilities {value} in its {place}");
            let fault = Fault::Plan(entries);
            rows.push(row(SESSION_WITHDRAWN, CHANGING, &name, fault).and(on_successor(change)));
        }
    }
    let only = |number, name, change| {
        on_plan(number, CHANGING, name, entries::<1>).and(on_successor(change))
    };
    rows.push(only(
        SESSION_WITHDRAWN,
        "successor has capabilities 0x000f in its only entry",
        capabilities::<0, 0x000f>,
    ));
    // With that no entry may spend.
    rows.push(only(
        38,
        "successor has capabilities 0x0008 in its only entry",
        capabilities::<0, 0x0008>,
    ));
    rows
}

/// Flags with recovery off and on, and numbers for it.
const FLAGS: [(i8, &str, OnBytes); 6] = [
    (0, "successor has flags 0", |state, _| {
        recovery(state, 0, 0, 0)
    }),
    (0, "successor has flags 1", |state, _| {
        recovery(state, 1, 1, 9)
    }),
    (SESSION_WITHDRAWN, "successor has flags 2", |state, _| {
        recovery(state, 2, 0, 0)
    }),
    (SESSION_WITHDRAWN, "successor has flags 3", |state, _| {
        recovery(state, 3, 1, 9)
    }),
    (
        SESSION_WITHDRAWN,
        "successor has flags 2 and capability 0x0008",
        |state, prng| {
            recovery(state, 2, 0, 0);
            in_first(state, prng);
        },
    ),
    (
        SESSION_WITHDRAWN,
        "successor has flags 3 and a last capability 0x0008",
        |state, prng| {
            recovery(state, 3, 1, 9);
            in_last(state, prng);
        },
    ),
];

/// Every other number of the successor has the bits that flags and capabilities may not have.
fn alike(plan: &mut Plan, prng: &mut Prng) {
    entries::<2>(plan, prng);
    plan.successor.flags = 1;
    plan.successor.spend_threshold = 0x0a0a;
    plan.successor.rotate_threshold = 0x0a0a;
    plan.successor.recovery_threshold = 0x0a0a;
    plan.successor.recovery_since = 0x0a0a_0a0a_0a0a_0a0a;
    for (auth, slot) in plan.successor.authenticators.iter_mut().zip(0x0a0a..) {
        auth.slot = slot;
        auth.weight = 0x0a0a;
        auth.verifier_code_hash = [0x0a; 32];
        auth.key_id = [0x0a; 32];
        auth.aux = vec![0x0a; 20];
    }
}

/// Successors that are as they may be.
fn passing_rows() -> Vec<Row> {
    let passing: [(&str, OnPlan); 5] = [
        ("successor has capabilities 0x0007 alone", entries::<1>),
        ("successor has capabilities 0x0007 twice", entries::<2>),
        ("successor has capabilities 0x0007 in 3", entries::<3>),
        ("successor has capabilities 0x0007 in 16", entries::<16>),
        ("successor has 2 and 8 in other numbers", alike),
    ];
    let row = |(name, change)| on_plan(0, CHANGING, name, change).made(AllBut(0));
    passing.map(row).into()
}

fn alone_rows() -> Vec<Row> {
    let flags = |(number, name, change)| row(number, CHANGING, name, on_successor(change));
    let mut rows: Vec<Row> = FLAGS.map(flags).into();
    rows.extend(capability_rows());
    rows.extend(passing_rows());
    let long = |number, name| on_plan(number, CHANGING, name, longest).long();
    rows.extend([
        long(0, "successor of 16,384 bytes"),
        long(SESSION_WITHDRAWN, "successor of 16,384 bytes, flag 2").and(on_successor(flag)),
        long(
            SESSION_WITHDRAWN,
            "successor of 16,384 bytes, its last entry",
        )
        .and(on_successor(in_last)),
    ]);
    rows
}

/// The capability in these entries of the current state.
fn give_current<'a>(entries: impl IntoIterator<Item = &'a mut Authenticator>) {
    for auth in entries {
        auth.capabilities |= CAPABILITY;
    }
}

/// What the current state carries.
const CARRIED: [(&str, OnPlan); 5] = [
    ("flag 2", |plan, _| plan.state.flags |= FLAG),
    ("a first capability 0x0008", |plan, _| {
        give_current(plan.state.authenticators.first_mut())
    }),
    ("a last capability 0x0008", |plan, _| {
        give_current(plan.state.authenticators.last_mut())
    }),
    ("capabilities 0x0008", |plan, _| {
        give_current(&mut plan.state.authenticators)
    }),
    ("flag 2 and capabilities 0x0008", |plan, _| {
        plan.state.flags |= FLAG;
        give_current(&mut plan.state.authenticators);
    }),
];

/// The current state carries no session.
fn clear_current(plan: &mut Plan, _: &mut Prng) {
    clear_session(&mut plan.state);
}

/// The successor is the current state, but for its sequence.
fn keep(plan: &mut Plan, _: &mut Prng) {
    plan.successor = AccountState {
        sequence: plan.successor.sequence,
        ..plan.state.clone()
    };
}

/// The same, and it carries no session: this cleans the account.
fn clean(plan: &mut Plan, prng: &mut Prng) {
    keep(plan, prng);
    clear_session(&mut plan.successor);
}

/// Current states without a session and with one; successors that are cleaned, and successors that keep it.
fn current_rows() -> Vec<Row> {
    let none = |operations, name| {
        let row = on_plan(0, operations, name, clear_current);
        row.made(AllBut(0))
    };
    let mut rows = vec![
        none(ALL, "state has no session"),
        none(CHANGING, "state has no session, its successor neither").and(Fault::Plan(keep)),
    ];
    for (carried, change) in CARRIED {
        let with = |number, operations, then: &str| {
            let name = format!("state has {carried}{then}");
            on_plan(number, operations, &name, clear_current).and(Fault::Plan(change))
        };
        let cleaned = with(0, CHANGING, ", its successor cleaned").and(Fault::Plan(clean));
        let kept = with(SESSION_WITHDRAWN, CHANGING, ", its successor too");
        rows.push(with(0, ALL, "").made(AllBut(0)));
        rows.push(cleaned.made(AllBut(0)));
        rows.push(kept.and(Fault::Plan(keep)));
    }
    rows
}

pub fn rows() -> Vec<Row> {
    let mut rows = alone_rows();
    rows.extend(current_rows());
    rows
}
