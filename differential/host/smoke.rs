//! The originals over their stubs, and the test of hashes, on scenes whose answers are known.

use crate::cell_hashes::{first_difference, Difference, Of, Place};
use crate::hex::{hex, Hex};
use crate::original::{self, Outcome};
use crate::report::Report;
use crate::samples;
use ckb_account_host::{authorization_digest, encode_verifier_request, group_sighash};
use ckb_account_lock::opened;
use ckb_account_protocol::{OP_RECOVERY, OP_SPEND};
use ckb_std::{serve, Scene};
use ckb_types::bytes::Bytes;
use ckb_types::H256;

/// A sample's sighash by the host crate: the second input is the group, the third witness an extra one.
fn sighash(scene: &Scene) -> [u8; 32] {
    let witness = |i: usize| Bytes::from(scene.witnesses[i].clone());
    group_sighash(&H256(scene.tx_hash), &[witness(1)], &[witness(2)]).expect("a strict witness")
}

fn digest(scene: &Scene, operation: u8) -> [u8; 32] {
    let (id, sequence) = (samples::account_id(), samples::SEQUENCE);
    let state = samples::state(sequence);
    authorization_digest(operation, &id, sequence, &state, &sighash(scene)).expect("an operation")
}

/// The request that a sample's proof makes, by the host crate.
fn request(scene: &Scene, operation: u8) -> Vec<u8> {
    let auth = samples::authenticator();
    encode_verifier_request(
        auth.algorithm_id,
        auth.slot,
        operation,
        auth.aux[0],
        &digest(scene, operation),
        &auth.key_id,
        &auth.aux,
        samples::PROOF,
    )
    .expect("a valid request")
}

/// Expects this number and, where there is an operation, its request and digest.
fn expect(report: &mut Report, input: &str, scene: &Scene, number: i8, made: Option<u8>) {
    let bytes = |operation| Hex(request(scene, operation));
    let expected = Outcome {
        number,
        requests: made.into_iter().map(bytes).collect(),
        digest: made.map(|operation| Hex(digest(scene, operation).to_vec())),
        fee: None,
    };
    let outcome = original::lock(scene);
    report.compare("original lock", 0, || input.into(), &outcome, &expected);
}

/// One request, whatever its verdict.
fn verdicts(report: &mut Report) {
    for (verdicts, number) in [(vec![0], 0), (vec![1], 28), (vec![2], 31), (vec![], 31)] {
        let input = format!("spend with verdicts {verdicts:?}");
        let scene = Scene {
            verdicts,
            ..samples::spend()
        };
        expect(report, &input, &scene, number, Some(OP_SPEND));
    }
}

/// The state may not be among the inputs of a spend: refused before the digest.
fn consumed(report: &mut Report) {
    let mut scene = samples::spend();
    let state = samples::state_cell(samples::SEQUENCE);
    scene.inputs.push(samples::input(false, 0, state));
    expect(report, "spend that consumes the state", &scene, 25, None);
}

fn recovery(report: &mut Report) {
    let scene = samples::recovery(samples::RECOVERY_SINCE);
    expect(report, "recovery", &scene, 0, Some(OP_RECOVERY));
    let scene = samples::recovery(samples::RECOVERY_SINCE - 1);
    expect(report, "recovery before its time", &scene, 34, None);
}

/// Functions that the lock keeps private: the marked row of document 01, and the sample's parts.
fn opened_functions(report: &mut Report) {
    let name = "original functions";
    let witness = hex("15000000 10000000 15000000 15000000 01000000 aa");
    let canonical = hex("14000000 10000000 14000000 14000000 00000000");
    let result = opened::canonical_witness(&witness.0).map(Hex);
    report.compare(name, 0, || format!("{witness:?}"), &result, &Ok(canonical));
    let lock = opened::witness_lock(&witness.0);
    report.compare(name, 0, || format!("{witness:?}"), &lock, &Ok(&[0xaa][..]));

    let scene = samples::spend();
    let (result, _) = serve(&scene, opened::canonical_group_sighash);
    let expected = Ok(sighash(&scene));
    report.compare(name, 0, || "sample's sighash".into(), &result, &expected);
    let args = opened::script_args(&scene.script);
    let expected = ckb_account_host::account_lock_args(&samples::account_id());
    report.compare(
        name,
        0,
        || "sample's args".into(),
        &args,
        &Ok(&expected[..]),
    );
}

/// The host crate's hash goes through the stub of ckb_hash.
fn host_hash(report: &mut Report) {
    for data in [&b""[..], b"abc", &[7; 300]] {
        let input = || format!("{:?}", Hex(data.to_vec()));
        let result = ckb_account_host::ckb_hash(data);
        let expected = blake2b::ckb_hash(data);
        report.compare("original ckb_hash", data.len(), input, &result, &expected);
    }
}

/// Changes of a sample, each with the hash that differs first after it.
type Edit = (&'static str, fn(&mut Scene), Option<(Place, Of)>);
const EDITS: [Edit; 9] = [
    ("no edit", |_| {}, None),
    ("any hashes that are believed", believed, None),
    (
        "data of a foreign input",
        |scene| scene.inputs[0].cell.data.push(1),
        Some((Place::ForeignInput, Of::Data)),
    ),
    (
        "data of an input of the group",
        |scene| scene.inputs[1].cell.data.push(1),
        Some((Place::GroupInput, Of::Data)),
    ),
    (
        "data of an output",
        |scene| scene.outputs[0].cell.data.push(1),
        Some((Place::Output, Of::Data)),
    ),
    (
        "type script of the state's dep",
        |scene| scene.deps[0].type_script = Some(vec![1]),
        Some((Place::Dep, Of::Type)),
    ),
    (
        "data of the verifier's dep",
        |scene| scene.deps[1].data.push(1),
        Some((Place::Dep, Of::Data)),
    ),
    (
        "both hashes of the state's dep",
        |scene| {
            scene.deps[0].data_hash = [1; 32];
            scene.deps[0].type_hash = Some([1; 32]);
        },
        Some((Place::Dep, Of::Type)),
    ),
    (
        "a dep's type hash and an output's data",
        |scene| {
            scene.deps[0].type_hash = Some([1; 32]);
            scene.outputs[0].cell.data.push(1);
        },
        Some((Place::Output, Of::Data)),
    ),
];

/// The transaction's hash, and data hashes of cells without data.
fn believed(scene: &mut Scene) {
    scene.tx_hash = [1; 32];
    scene.inputs[0].cell.data_hash = [1; 32];
    scene.outputs[0].cell.data_hash = [1; 32];
}

fn differences(report: &mut Report) {
    for (input, edit, found) in EDITS {
        let mut scene = samples::spend();
        edit(&mut scene);
        let expected = found.map(|(place, of)| Difference { place, of });
        let result = first_difference(&scene);
        report.compare("test of hashes", 0, || input.into(), &result, &expected);
    }
}

pub fn run(report: &mut Report) {
    verdicts(report);
    consumed(report);
    recovery(report);
    opened_functions(report);
    host_hash(report);
    differences(report);
}
