//! An account state as the port's writer is lent it.

use ckb_account_host::AccountState;

/// The numbers and the bytes of the entries, as the writer is lent them.
pub fn slices(state: &AccountState) -> (Vec<u16>, Vec<u8>) {
    let (mut fields, mut bytes) = (Vec::new(), Vec::new());
    for auth in &state.authenticators {
        fields.extend([auth.slot, auth.algorithm_id, auth.capabilities, auth.weight]);
        fields.push(auth.aux.len() as u16);
        bytes.extend([auth.verifier_hash_type, auth.verifier_abi]);
        bytes.extend(auth.verifier_code_hash);
        bytes.extend(auth.key_id);
        bytes.extend(&auth.aux);
    }
    (fields, bytes)
}
