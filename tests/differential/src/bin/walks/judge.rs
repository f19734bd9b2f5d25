//! One walk, and the list alone: the port against document 02 and, where it is a judge, the Rust.
use crate::call::Call;
use crate::recorder::{self, TimingTold, WalkTold};
use crate::tally::{Answers, Refusals};
use crate::{model, rust};
use differential::sequence::{Came, Pair, caught, refusal};
use oracle::Gst;
use std::fmt::Debug;

fn same<T: PartialEq + Debug>(what: &str, port: T, judge: &str, expected: T) -> Result<(), String> {
    if port == expected { Ok(()) } else { Err(format!("{what}: the port answers {port:?}, {judge} {expected:?}")) }
}

/// What a walk answers, at that time if it is of a subframe, and whether the Rust was asked. It knows no message but 0 and 1.
pub fn walk(call: &Call, gst: Option<Gst>) -> Result<(WalkTold, bool), String> {
    let told = recorder::walk(&call.mack, call.sizes, call.sender, call.maclt, call.msg);
    same("walk", told, "document 02 asks for", model::walk(call))?;
    let asked = matches!(refusal(model::checks(call)), 0 | 8);
    if asked {
        let gst = gst.unwrap_or_else(|| Gst::new(0, 30 * call.msg as u32));
        same("walk", told, "the Rust", caught(|| rust::walk(call, gst))?)?;
    }
    Ok((told, asked))
}

/// The list alone, and whether the Rust was asked.
fn timing(call: &Call) -> Result<(TimingTold, bool), String> {
    let told = recorder::timing_tags(&call.mack, call.sizes);
    same("timing_tags", told, "document 02 asks for", model::timing(&call.mack, call.sizes))?;
    let asked = told.timing.kind == 1;
    if asked {
        let mack = call.mack[..].try_into().expect("60 bytes");
        same("timing_tags", told, "the Rust", caught(|| rust::timing(mack, call.sizes))?)?;
    }
    Ok((told, asked))
}

/// What came up in walks, and in lists alone.
#[derive(Default)]
pub struct Walks {
    pub with_the_rust: u64,
    pub answers: Answers,
    pub refusals: Refusals,
    /// Lists that were asked for alone; of these, such of messages whose walk is refused.
    pub lists: u64,
    pub lists_alone: u64,
    pub timing_refusals: Refusals,
}

impl Walks {
    /// What a walk answers.
    pub fn check(&mut self, call: &Call) -> Result<WalkTold, String> {
        let (told, asked) = walk(call, None)?;
        self.with_the_rust += u64::from(asked);
        match told.slots.kind {
            2 => self.refusals.add(told.slots.first, &model::checks(call)),
            _ => self.answers.add(&told, call.sizes),
        }
        Ok(told)
    }

    /// The same, and the list alone beside it.
    pub fn check_both(&mut self, call: &Call) -> Result<WalkTold, String> {
        let told = self.check(call)?;
        let (list, asked) = timing(call)?;
        if list.timing.kind == 2 {
            self.timing_refusals.add(list.timing.first, &model::timing_checks(&call.mack, call.sizes));
        }
        self.lists += u64::from(asked);
        self.lists_alone += u64::from(asked && told.slots.kind == 2);
        Ok(told)
    }
}

impl Pair for Walks {
    type Call = Call;

    /// Nothing is held from one walk to the next.
    fn new(_start: u64) -> Walks {
        Walks::default()
    }

    fn call(&mut self, call: &Call) -> Result<Came, String> {
        let told = self.check_both(call)?;
        Ok(if told.slots.kind == 2 { Came::Refusal(told.slots.first) } else { Came::Answer })
    }

    fn simpler(call: &Call) -> Vec<Call> {
        call.simpler()
    }
}
