//! The request that holds its bytes: each of its fields beside the original's.

use super::calls::{numbered, word_bytes, Calls};
use crate::exports_request as exports;
use crate::hex::Hex;
use ckb_account_protocol::VerifierRequest;

/// A field's bytes, or the refusal of the request.
type Field = Result<Vec<u8>, u32>;

/// The original's request, and of it a field.
fn field(request: &[u8], of: impl FnOnce(VerifierRequest) -> Vec<u8>) -> Field {
    numbered(VerifierRequest::parse(request)).map(of)
}

fn numbers(parsed: VerifierRequest) -> Vec<u8> {
    word_bytes(vec![
        parsed.algorithm_id.into(),
        parsed.slot.into(),
        parsed.operation.into(),
        parsed.verifier_profile.into(),
    ])
}

/// Compares one field in buffers of several lengths.
fn compare(
    calls: &mut Calls,
    name: &'static str,
    request: &[u8],
    expected: Field,
    function: fn(&[u8], &mut [u8], &mut usize) -> u32,
) {
    let input = || format!("{:?}", Hex(request.to_vec()));
    calls.write(name, &expected, input, |out, len| {
        function(request, out, len)
    });
}

/// Compares every field of a request, accepted or refused.
pub fn fields(calls: &mut Calls, request: &[u8]) {
    let expected = field(request, numbers);
    compare(
        calls,
        "request_numbers",
        request,
        expected,
        exports::numbers,
    );
    let expected = field(request, |parsed| parsed.authorization_digest.to_vec());
    compare(
        calls,
        "request_authorization_digest",
        request,
        expected,
        exports::authorization_digest,
    );
    let expected = field(request, |parsed| parsed.key_id.to_vec());
    compare(calls, "request_key_id", request, expected, exports::key_id);
    let expected = field(request, |parsed| parsed.aux.to_vec());
    compare(calls, "request_aux", request, expected, exports::aux);
    let expected = field(request, |parsed| parsed.proof.to_vec());
    compare(calls, "request_proof", request, expected, exports::proof);
}
