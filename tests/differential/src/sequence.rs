//! Sequences of calls on two sides that must agree after each, and the smallest one that still shows a difference.
use std::fmt::Display;
use std::panic::{AssertUnwindSafe, catch_unwind};

/// What a call came to, for the count.
#[derive(Clone, Copy, PartialEq, Eq, Debug)]
pub enum Came {
    Nothing,
    Answer,
    /// An answer of a pair whose 75 bytes are all zero, and of one in which that byte alone is not.
    Silent,
    Nearly(usize),
    Refusal(u64),
}

/// The two sides.
pub trait Pair: Sized {
    type Call: Clone + Display;

    /// Both as new. `start` says what the lent memory holds: 0 for zeros, else random bytes from that seed.
    fn new(start: u64) -> Self;

    /// Makes the call on both sides and compares all that can be seen then.
    fn call(&mut self, call: &Self::Call) -> Result<Came, String>;

    /// Calls that are simpler than this one.
    fn simpler(call: &Self::Call) -> Vec<Self::Call>;
}

/// The place of the first difference, and what differs.
fn difference<P: Pair>(start: u64, calls: &[P::Call]) -> Option<(usize, String)> {
    let mut pair = P::new(start);
    calls.iter().enumerate().find_map(|(place, call)| pair.call(call).err().map(|text| (place, text)))
}

/// The calls with some of them left out, as few as still show a difference.
fn fewest<P: Pair>(start: u64, mut calls: Vec<P::Call>) -> Vec<P::Call> {
    let mut piece = calls.len();
    while piece > 0 {
        let mut from = 0;
        while from < calls.len() {
            let mut fewer = calls.clone();
            fewer.drain(from..(from + piece).min(calls.len()));
            match difference::<P>(start, &fewer) {
                Some((place, _)) => {
                    fewer.truncate(place + 1);
                    calls = fewer;
                }
                None => from += piece,
            }
        }
        piece /= 2;
    }
    calls
}

/// The difference of a sequence as text, with the smallest sequence that shows one.
pub fn report<P: Pair>(start: u64, calls: &[P::Call]) -> String {
    let start = if difference::<P>(0, calls).is_some() { 0 } else { start };
    let (place, _) = difference::<P>(start, calls).expect("a sequence that differs");
    let mut calls = fewest::<P>(start, calls[..=place].to_vec());
    // each round makes some call simpler, and no call can be made so for ever
    for _ in 0..20 {
        let mut again = false;
        for place in 0..calls.len() {
            for candidate in P::simpler(&calls[place]) {
                let there = std::mem::replace(&mut calls[place], candidate);
                if difference::<P>(start, &calls).is_some() {
                    again = true;
                    break;
                }
                calls[place] = there;
            }
        }
        calls = fewest::<P>(start, calls);
        if !again {
            break;
        }
    }
    let (place, text) = difference::<P>(start, &calls).expect("a sequence that differs");
    let lines: Vec<String> = calls[..=place].iter().map(|call| format!("  {call}\n")).collect();
    format!("DIFFERENCE after {} calls, lent memory {}:\n{}  {text}\n", lines.len(), lent(start), lines.concat())
}

fn lent(start: u64) -> String {
    if start == 0 { "zeros".to_string() } else { format!("random from {start}") }
}

/// The number of the first that holds; 0 for none.
pub fn refusal<const N: usize>(checks: [(u64, bool); N]) -> u64 {
    checks.into_iter().find(|check| check.1).map_or(0, |check| check.0)
}

/// What the Rust gives; a panic, where document 01 refuses nothing, is a difference.
pub fn caught<T>(call: impl FnOnce() -> T) -> Result<T, String> {
    catch_unwind(AssertUnwindSafe(call)).map_err(|_| "the Rust panics".to_string())
}

pub fn hex(bytes: &[u8]) -> String {
    bytes.iter().map(|byte| format!("{byte:02x}")).collect()
}
