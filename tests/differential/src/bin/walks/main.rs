//! walks ROUNDS SEED: the verdicts on the slots of MACK messages and the lists of their ADKD 4 tags, by the archive `probe`, against
//! request 4 of document 02 (model.rs) and against `Chain::validate_adkd` of the published Rust: every slot with every PRND and
//! ADKD, walks at random, and pairs behind the subframe collector. Ends with status 1 at the first difference, with its input.
use call::Call;
use complete::{Counts, Recorder};
use differential::inputs::Random;
use differential::published::silence_panics;
use differential::sequence::{Pair, report};
use judge::Walks;
use std::process::exit;

mod call;
mod complete;
mod every;
mod judge;
mod model;
mod pages;
#[allow(unused)]
#[path = "../sequences/probe.rs"]
mod probe;
mod recorder;
mod rust;
mod source;
mod tally;

/// Pages of one sequence.
const LENGTH: u64 = 400;

/// The refusal numbers of a walk, of the list alone, and of a satellite's pair, in the paper's order, and how many causes there are.
const WALK: (&[u64], usize) = (&[1, 2, 7, 8], 6);
const TIMING: (&[u64], usize) = (&[1, 7], 3);
const COMPLETE: (&[u64], usize) = (&[1, 12, 2, 7, 8], 9);

/// The pairs of sizes whose nt some table has, and how many walks over every slot each has at least.
const SIZES: (usize, u64) = (23, 100_000);

/// Ends the run at a call that differs.
fn differs(part: &str, call: &Call, text: &str) -> ! {
    match Walks::default().check_both(call) {
        Err(_) => print!("{part}: {}", report::<Walks>(0, std::slice::from_ref(call))),
        Ok(_) => println!("{part}: DIFFERENCE\n  {call}\n  {text}"),
    }
    exit(1)
}

fn every(walks: &mut Walks, random: &mut Random) {
    let fitting = every::slots(walks, random);
    let (timing, all) = fitting.unwrap_or_else(|(call, text)| differs("every slot", &call, &text));
    let (slots, (pairs, least)) = (walks.with_the_rust, walks.answers.sizes());
    println!("every slot: {slots} walks, at least {least} of each of {pairs} pairs of sizes");
    println!("  of {all} messages that fit the Rust calls {timing} wrong as they stand, at 04S");
    if pairs != SIZES.0 || least < SIZES.1 {
        println!("FAILED: some pair of sizes had too few walks");
        exit(1)
    }
    every::ids(walks, random).unwrap_or_else(|(call, text)| differs("every ID", &call, &text));
    every::messages(walks, random).unwrap_or_else(|(call, text)| differs("message numbers", &call, &text));
}

fn at_random(walks: &mut Walks, random: &mut Random, rounds: u64) {
    for _ in 0..rounds {
        let call = source::call(random);
        if let Err(text) = walks.check_both(&call) {
            differs("at random", &call, &text);
        }
    }
}

/// Sequences of pages, at least so many in all.
fn complete(random: &mut Random, pages: u64) -> Counts {
    let mut counts = Counts::default();
    while counts.pages < pages {
        // one of four has zeros in the lent bytes
        let start = if random.below(4) == 0 { 0 } else { 1 + random.below(1 << 32) };
        let mut source = pages::Source::new(random);
        let mut recorder = Recorder::new(start);
        recorder.counts = counts;
        let mut made = Vec::new();
        for _ in 0..LENGTH {
            made.push(source.call(random));
            if recorder.call(made.last().expect("a call")).is_err() {
                print!("behind the collector: {}", report::<Recorder>(start, &made));
                exit(1)
            }
        }
        counts = recorder.counts;
    }
    counts
}

fn print(walks: &Walks, complete: &Counts) {
    let Walks { answers, refusals, timing_refusals, lists, lists_alone, .. } = walks;
    println!("verdicts: {}", answers.verdicts());
    println!("lists of 0 to 9 tags: {}", answers.lists());
    println!("refused: {}", refusals.text());
    println!("lists alone: {lists}, of refused walks {lists_alone}; refused {}", timing_refusals.text());
    let Counts { pages, asked, judged: [even, odd], answers, silent, incomplete, changed, refusals } = complete;
    println!(
        "behind the collector: {pages} pages, {asked} questions; {even} of message 0 and {odd} of message 1 judged,"
    );
    println!("  {}; {silent} silent, {incomplete} not complete,", answers.verdicts());
    println!("  {changed} of other records; refused {}", refusals.text());
}

/// What should have come up and did not.
fn missing(walks: &Walks, complete: &Counts) -> Option<String> {
    let alone = (walks.lists_alone == 0).then(|| "a list of a message whose walk is refused".to_string());
    let Counts { judged: [even, odd], silent, incomplete, changed, .. } = *complete;
    let none = [even, odd, silent, incomplete, changed].contains(&0);
    let none = none.then(|| "a pair of either message number, a silent, an incomplete or another one".to_string());
    let refusals = [(&walks.refusals, WALK), (&walks.timing_refusals, TIMING), (&complete.refusals, COMPLETE)];
    let refusal = refusals.into_iter().find_map(|(refusals, (numbers, causes))| refusals.missing(numbers, causes));
    let verdict = walks.answers.missing().or(walks.answers.missing_list()).or(complete.answers.missing());
    verdict.or(alone).or(none).or(refusal)
}

fn main() {
    let words: Vec<Option<u64>> = std::env::args().skip(1).map(|word| word.parse().ok()).collect();
    let [Some(rounds), Some(seed)] = words[..] else {
        eprintln!("usage: walks ROUNDS SEED");
        exit(2)
    };
    silence_panics();
    println!("seed {seed}, {rounds} random rounds");
    let random = &mut Random::new(seed);
    let mut walks = Walks::default();
    every(&mut walks, random);
    at_random(&mut walks, random, rounds);
    let complete = complete(random, rounds / 2);
    print(&walks, &complete);
    if let Some(missing) = missing(&walks, &complete) {
        println!("FAILED: there was no walk with {missing}");
        exit(1)
    }
    let [even, odd] = complete.judged;
    println!("compared with the Rust: {} walks, 0 differences", walks.with_the_rust + even + odd);
}
