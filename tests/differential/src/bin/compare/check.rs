//! One call, three answers: the archive's, the Rust's and document 01's; and the smallest call that
//! still shows a difference.
use crate::firmware::{self, Seen};
use differential::call::{Answer, Call, Function, show};
use differential::model;
use differential::published::{self, Said};

pub struct Check {
    pub function: Function,
    pub seen: Seen,
    pub said: Option<Said>,
    pub model: Answer,
}

impl Check {
    pub fn new(call: &Call) -> Check {
        let (seen, said) = (firmware::call(call), published::ask(call));
        Check { function: call.function, seen, said, model: model::answer(call) }
    }

    pub fn differs(&self) -> bool {
        self.seen.strayed
            || self.seen.answer != self.model
            || self.said.is_some_and(|said| {
                !said.agrees(self.function, self.seen.answer) || !said.agrees(self.function, self.model)
            })
    }
}

/// The difference at a call, made as small as it goes, as text.
pub fn report(call: &Call) -> String {
    let mut message = call.message.to_vec();
    let mut small = Call { message: &[], ..*call };
    shrink(&mut small, &mut message);
    let call = Call { message: &message, ..small };
    let check = Check::new(&call);
    let results = call.function.results();
    let said = match check.said {
        None => "not asked: these arguments cannot be said in it, or are off the lists".to_string(),
        Some(Said::Good(good)) if call.function == Function::kroot_key_size_bytes => {
            show(Ok(good), results) + " (in bits)"
        }
        Some(Said::Good(good)) => show(Ok(good), results),
        Some(other) => format!("{other:?}"),
    };
    let strayed = if check.seen.strayed { ", and wrote where it may not" } else { "" };
    let archive = show(check.seen.answer, results);
    let paper = show(check.model, results);
    format!("DIFFERENCE {call}\n  archive:     {archive}{strayed}\n  the Rust:    {said}\n  document 01: {paper}\n")
}

fn shrink(call: &mut Call<'static>, message: &mut Vec<u8>) {
    let differs = |call: &Call<'static>, message: &[u8]| Check::new(&Call { message, ..*call }).differs();
    // each pass makes a finite measure smaller: length, then bytes, then numbers
    loop {
        let before = (call.args, call.room, message.clone());
        if let Some(length) = (0..message.len()).find(|length| differs(call, &message[..*length])) {
            message.truncate(length);
        }
        for place in 0..message.len() {
            let byte = message[place];
            let simpler = [0, byte & 0xf0, byte & 0x0f].into_iter().chain((0..8).map(|bit| byte & 1 << bit));
            for candidate in simpler.filter(|candidate| *candidate < byte) {
                let there = std::mem::replace(&mut message[place], candidate);
                if differs(call, message) {
                    break;
                }
                message[place] = there;
            }
        }
        for place in 0..3 {
            let number = call.args[place];
            let simpler = (0..600).chain((0..64).rev().map(|shift| number >> shift));
            for candidate in simpler.filter(|candidate| *candidate < number) {
                let mut smaller = *call;
                smaller.args[place] = candidate;
                if call.room == Call::right_room(call.function, call.args) {
                    smaller.room = Call::right_room(call.function, smaller.args);
                }
                if differs(&smaller, message) {
                    *call = smaller;
                    break;
                }
            }
        }
        if before == (call.args, call.room, message.clone()) {
            return;
        }
    }
}
