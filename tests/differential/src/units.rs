//! The Rust counts a key's size in bits, the port in bytes (request 9). What is compared with the Rust, and what is
//! recorded of it, goes through here: nowhere else does a key's size change its unit.
use crate::call::{Answer, Call, Function, Good, Takes};

/// A key's size in bits.
pub fn bits(key_size_bytes: u64) -> u64 {
    8 * key_size_bytes
}

/// The numbers of a call as the Rust takes them, and as they are recorded.
pub fn call_in_bits<'m>(call: &Call<'m>) -> Call<'m> {
    Call { args: taken(call.function, call.args, bits), ..*call }
}

/// An answer as the Rust gives it, and as it is recorded.
pub fn answer_in_bits(function: Function, answer: Answer) -> Answer {
    given(function, answer, bits)
}

/// The numbers and the answer of a record, whose sizes are all listed, as the port has them.
pub fn record_in_bytes(function: Function, args: [u64; 3], answer: Answer) -> ([u64; 3], Answer) {
    let bytes = |key_size_bits| key_size_bits / 8;
    (taken(function, args, bytes), given(function, answer, bytes))
}

fn taken(function: Function, [a, b, c]: [u64; 3], change: impl Fn(u64) -> u64) -> [u64; 3] {
    match function.takes() {
        Takes::Sizes | Takes::Mack | Takes::MackTag | Takes::MackKey => [change(a), b, c],
        _ => [a, b, c],
    }
}

fn given(function: Function, answer: Answer, change: impl Fn(u64) -> u64) -> Answer {
    match (function, answer) {
        (Function::kroot_key_size_bytes, Ok(good)) => Ok(Good { values: [change(good.values[0]), 0, 0], ..good }),
        _ => answer,
    }
}
