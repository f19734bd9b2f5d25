//! merges RECORDINGS SEED: recordings of two receiver cards, each merged in two or three ways that keep every satellite's own order,
//! at the archive `probe` and at the published Rust, compared after every call: all merges must end with the same record, the same
//! lent bytes and the same answers (request 8 of document 02). Ends with status 1 at the first difference, with the smallest input.
use differential::inputs::Random;
use differential::published::silence_panics;
use differential::sequence::report;
use feeding::alike;
use recording::{Merging, Recording};
use sides::Sides;
use std::panic::{AssertUnwindSafe, catch_unwind};
use std::process::exit;
use tally::Tally;

mod feeding;
#[allow(unused)]
#[path = "../sequences/probe.rs"]
mod probe;
mod recording;
#[path = "../sequences/sides.rs"]
mod sides;
mod source;
mod tally;
mod two;

/// Ends the run at a recording that differs. The smallest that does is looked for, and is none where only the example's end does.
fn differs(part: &str, start: u64, recording: &Recording, text: &str) -> ! {
    let smallest = catch_unwind(AssertUnwindSafe(|| report::<Merging>(start, &recording.calls())));
    println!("{part}: {}", smallest.unwrap_or_else(|_| format!("DIFFERENCE: {text}")));
    exit(1)
}

fn recorded(random: &mut Random, start: u64, new: Sides, tally: &mut Tally) {
    let (recording, blocks, on_both) = source::recording(random);
    assert!(recording.fair(), "merges that may end differently");
    if let Err(text) = recording.check(new, tally) {
        differs("merges", start, &recording, &text);
    }
    tally.recordings += 1;
    tally.blocks += blocks;
    tally.on_both += on_both;
}

fn two_pages(random: &mut Random, start: u64, new: Sides, tally: &mut Tally) {
    if let Err((recording, text)) = two::pairs(random, new, tally) {
        differs("two pages", start, &recording, &text);
    }
}

fn main() {
    let words: Vec<Option<u64>> = std::env::args().skip(1).map(|word| word.parse().ok()).collect();
    let [Some(recordings), Some(seed)] = words[..] else {
        eprintln!("usage: merges RECORDINGS SEED");
        exit(2)
    };
    silence_panics();
    println!("seed {seed}, {recordings} recordings");
    let (random, mut tally) = (&mut Random::new(seed), Tally::default());
    two::example(&mut tally).unwrap_or_else(|(recording, text)| differs("example", 0, &recording, &text));
    for _ in 0..recordings {
        // one of four has zeros in the lent memory
        let start = if random.below(4) == 0 { 0 } else { 1 + random.below(1 << 32) };
        let new = alike(start);
        recorded(random, start, new.clone(), &mut tally);
        two_pages(random, start, new, &mut tally);
    }
    tally.print();
    if let Some(missing) = tally.missing() {
        println!("FAILED: there was no {missing}");
        exit(1)
    }
    println!("compared with the Rust: {} merges, 0 differences", tally.merges);
}
