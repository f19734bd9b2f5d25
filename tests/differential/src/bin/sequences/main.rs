//! sequences CALLS SEED: long random sequences of calls to the collectors and the store, on the archive `probe` and on the
//! published Rust, compared after every call. Ends with status 1 at the first difference, with the smallest sequence.
use differential::inputs::Random;
use differential::published::silence_panics;
use differential::sequence::{Came, Pair, caught, hex, refusal, report};
use probe::Told;
use std::collections::BTreeMap;
use std::process::exit;

mod dsm;
mod probe;
mod sides;
mod store;
mod subframe;

/// Calls of one sequence.
const LENGTH: u64 = 2000;

/// Counts of the calls of one collector.
#[derive(Default)]
struct Count {
    calls: u64,
    nothing: u64,
    answers: u64,
    /// Of the answers: silent pairs, and pairs with one byte that is not zero, by its number.
    silent: u64,
    nearly: BTreeMap<usize, u64>,
    refusals: [u64; 13],
}

impl Count {
    fn add(&mut self, came: Came) {
        self.calls += 1;
        self.answers += u64::from(matches!(came, Came::Answer | Came::Silent | Came::Nearly(_)));
        match came {
            Came::Nothing => self.nothing += 1,
            Came::Answer => {}
            Came::Silent => self.silent += 1,
            Came::Nearly(place) => *self.nearly.entry(place).or_default() += 1,
            Came::Refusal(number) => self.refusals[number as usize] += 1,
        }
    }

    fn print(&self, name: &str) {
        let Count { calls, nothing, answers, refusals, .. } = self;
        let refused: Vec<String> =
            (1..13).filter(|n| refusals[*n] > 0).map(|n| format!("{n}: {}", refusals[n])).collect();
        println!("{name:<12}{calls:>12}{answers:>12}{nothing:>12}  refused {}", refused.join(", "));
    }
}

/// Runs sequences until there are `calls` calls, and counts what they came to; each refusal number named must come up.
fn run<P: Pair, S>(
    name: &str,
    calls: u64,
    random: &mut Random,
    new: impl Fn(&mut Random) -> S,
    next: impl Fn(&mut S, &mut Random) -> P::Call,
    refusals: &[usize],
) -> Count {
    let mut count = Count::default();
    while count.calls < calls {
        // half of the sequences start with zeros in the lent memory, as the Rust does
        let start = if random.below(2) == 0 { 0 } else { 1 + random.below(1 << 32) };
        let mut source = new(random);
        let mut pair = P::new(start);
        let mut made = Vec::new();
        for _ in 0..LENGTH {
            made.push(next(&mut source, random));
            match pair.call(made.last().unwrap()) {
                Ok(came) => count.add(came),
                Err(_) => {
                    print!("{name}: {}", report::<P>(start, &made));
                    exit(1)
                }
            }
        }
    }
    count.print(name);
    let missing = refusals.iter().find(|n| count.refusals[**n] == 0);
    if count.answers == 0 || count.nothing == 0 || missing.is_some() {
        println!("{name}: some kind of answer never came up");
        exit(1)
    }
    count
}

/// How many pairs were silent, which the Rust calls complete, and how many but for one byte: each of the 75 must have been it.
fn silent(pairs: &Count) {
    let nearly: u64 = pairs.nearly.values().sum();
    println!("of {} pairs {} were silent, {nearly} but for one byte", pairs.answers, pairs.silent);
    if pairs.silent == 0 || pairs.nearly.len() != 75 {
        println!("subframe: no pair was silent, or one of the 75 bytes was never the only one that is not zero");
        exit(1)
    }
}

/// One satellite's count, which the Rust has not as a function: all counts and words, against document 01.
fn words() {
    for words in 0..=255 {
        for word in 0..=255 {
            let taken = probe::word_take(words, word);
            let number = refusal([(12, words > 15), (7, word > 14)]);
            let expected = match number {
                0 if word == words => (u64::from(words) + 1, Told::given(0, 0, 0)),
                0 => (words.into(), Told::NOTHING),
                _ => (words.into(), Told::refused(number)),
            };
            if (taken.next, taken.answer) != expected {
                println!("DIFFERENCE take of count {words} word {word}: {} {:?}", taken.next, taken.answer);
                exit(1)
            }
        }
    }
}

fn main() {
    let words_given: Vec<Option<u64>> = std::env::args().skip(1).map(|word| word.parse().ok()).collect();
    let [Some(calls), Some(seed)] = words_given[..] else {
        eprintln!("usage: sequences CALLS SEED");
        exit(2)
    };
    silence_panics();
    println!("seed {seed}, {calls} calls");
    println!("{:<12}{:>12}{:>12}{:>12}", "collector", "calls", "answers", "nothing");
    words();
    let random = &mut Random::new(seed);
    let pairs = run::<subframe::Subframes, _>(
        "subframe",
        calls / 2,
        random,
        subframe::Source::new,
        subframe::Source::call,
        &[1, 2, 3, 4, 12],
    );
    silent(&pairs);
    let blocks = run::<dsm::Dsms, _>("dsm", calls / 3, random, dsm::Source::new, dsm::Source::call, &[1, 12]);
    let messages = run::<store::Stores, _>(
        "mack store",
        calls / 4,
        random,
        store::Source::new,
        store::Source::call,
        &[1, 2, 3, 4, 7, 10, 12],
    );
    let ran = pairs.calls + blocks.calls + messages.calls;
    println!("compared with the Rust: {ran} calls, 0 differences");
}
