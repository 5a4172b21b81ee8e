//! The lock's args, algorithms and operations.

use super::calls::{numbered, place, word_bytes, Calls, Words, DISAGREE};
use crate::changes;
use crate::exports;
use crate::hex::Hex;
use ckb_account_host::account_lock_args;
use ckb_account_protocol::{capability_for_operation, is_supported_algorithm, AccountLockArgs};

fn words(args: &[u8]) -> Words {
    let parsed = AccountLockArgs::parse(args)?;
    let account_id = place(args, parsed.account_id);
    Ok(vec![parsed.version.into(), account_id])
}

fn read(calls: &mut Calls, args: &[u8]) {
    calls.read("parse_args", args, words(args), exports::parse_args);
}

/// The writer takes an account of 32 bytes.
fn write(calls: &mut Calls, account: &[u8]) {
    let expected = match <&[u8; 32]>::try_from(account) {
        Ok(account) => Ok(account_lock_args(account).to_vec()),
        Err(_) => Err(DISAGREE),
    };
    let input = || format!("{:?}", Hex(account.to_vec()));
    calls.write("account_lock_args", &expected, input, |out, len| {
        exports::account_lock_args(account, out, len)
    });
}

fn every_algorithm(calls: &mut Calls) {
    let name = "is_supported_algorithm";
    let supported = [0x0001, 0x0101, 0x0102, 0x0103, 0x0201].repeat(4);
    for algorithm in (0..=u16::MAX).chain(supported) {
        let result = exports::is_supported_algorithm(algorithm);
        let expected = u32::from(is_supported_algorithm(algorithm));
        let input = || format!("{algorithm}");
        calls.report.answered(name, result);
        calls.report.compare(name, 0, input, &result, &expected);
    }
}

fn every_operation(calls: &mut Calls) {
    for operation in (0..=u8::MAX).chain([1, 2, 3].repeat(40)) {
        let bit = numbered(capability_for_operation(operation)).map(u64::from);
        let expected = bit.map(|bit| word_bytes(vec![bit]));
        let input = || format!("{operation}");
        calls.store("capability_for_operation", 0, expected, input, |out| {
            exports::capability_for_operation(operation, out)
        });
    }
}

pub fn run(calls: &mut Calls) {
    every_algorithm(calls);
    every_operation(calls);
    let account = calls.prng.bytes(32);
    let args = [&[1][..], &account].concat();
    read(calls, &args);
    changes::one_byte(&args, changes::any_other, |args| read(calls, args));
    changes::other_lengths(&args, |args| read(calls, args));
    for length in 0..=100 {
        let bytes = calls.prng.bytes(length);
        read(calls, &bytes);
        write(calls, &bytes);
    }
    for _ in 0..200 {
        let account = calls.prng.bytes(32);
        write(calls, &account);
    }
}
