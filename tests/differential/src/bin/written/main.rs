//! written MESSAGES SEED: messages that the archive `probe` writes, against request 1 of document 02 (model.rs) and against the
//! published Rust, which reads them and is fed their blocks. Ends with status 1 at the first difference, with the smallest input.
use bench::{Bench, Counts};
use call::Call;
use differential::inputs::Random;
use differential::published::silence_panics;
use differential::sequence::{Came, Pair, report};
use model::Kind;
use source::{Shape, shape, shapes};
use std::collections::{BTreeMap, BTreeSet};
use std::process::exit;

mod bench;
mod call;
mod model;
#[allow(unused)]
#[path = "../sequences/probe.rs"]
mod probe;
mod read;
mod source;
mod vector;
mod writers;

/// Messages of one sequence: the collectors go on from one to the next.
const LENGTH: u64 = 200;

/// The refusal numbers, in the paper's order.
const NUMBERS: [u64; 4] = [1, 7, 6, 11];

/// Those of a block.
const CUT_NUMBERS: [usize; 3] = [1, 7, 6];

#[derive(Default)]
struct Tally {
    messages: u64,
    written: [u64; 2],
    shapes: Vec<Shape>,
    /// By kind and number.
    refused: BTreeMap<(u64, u64), u64>,
    /// Two numbers that a message could have been refused with, by kind.
    pairs: BTreeSet<(u64, u64, u64)>,
    counts: Counts,
}

impl Tally {
    fn add(&mut self, call: &Call, came: Came) {
        let kind = call.kind.number();
        self.messages += 1;
        match came {
            Came::Refusal(number) => {
                *self.refused.entry((kind, number)).or_default() += 1;
                let others = model::checks(call).into_iter().filter(|(other, holds)| *holds && *other != number);
                self.pairs.extend(others.map(|(other, _)| (kind, number, other)));
            }
            _ => {
                self.written[kind as usize] += 1;
                if !self.shapes.contains(&shape(call)) {
                    self.shapes.push(shape(call));
                }
            }
        }
    }

    fn add_counts(&mut self, counts: &Counts) {
        let all = &mut self.counts;
        all.cuts += counts.cuts;
        all.cuts_refused.iter_mut().zip(counts.cuts_refused).for_each(|(all, more)| *all += more);
        all.fed += counts.fed;
        all.completed += counts.completed;
        all.numbers += counts.numbers;
        all.numbers_refused += counts.numbers_refused;
    }

    fn print(&self) {
        let [kroot, pkr] = self.written;
        let of = |kind| self.shapes.iter().filter(|shape| shape.0 == kind).count();
        println!("written: {kroot} KROOT ({} shapes), {pkr} PKR ({} shapes)", of(Kind::Kroot), of(Kind::Pkr));
        for (kind, name) in ["KROOT", "PKR"].into_iter().enumerate() {
            let numbers = NUMBERS.map(|n| format!("{n}: {}", self.refused.get(&(kind as u64, n)).unwrap_or(&0)));
            println!("refused {name}: {}", numbers.join(", "));
        }
        let Counts { cuts, cuts_refused, fed, completed, numbers, numbers_refused } = self.counts;
        let refused = CUT_NUMBERS.map(|n| format!("{n}: {}", cuts_refused[n]));
        println!("blocks cut: {cuts}, refused {}", refused.join(", "));
        println!("raw numbers read: {numbers}, refused 5: {numbers_refused}");
        println!("collector calls: {fed}, completions {completed}");
    }

    /// What should have come up and did not: a shape, a refusal number, or two causes to refuse at once.
    fn missing(&self) -> Option<String> {
        let shape = shapes().into_iter().find(|shape| !self.shapes.contains(shape));
        let pairs =
            NUMBERS.into_iter().enumerate().flat_map(|(place, a)| NUMBERS[place + 1..].iter().map(move |b| (a, *b)));
        let mut pairs = [0, 1].into_iter().flat_map(|kind| pairs.clone().map(move |(a, b)| (kind, a, b)));
        let pair = pairs.find(|pair| !self.pairs.contains(pair)).map(|(_, a, b)| format!("both {a} and {b}"));
        let cut = CUT_NUMBERS.into_iter().find(|n| self.counts.cuts_refused[*n] == 0);
        let cut = cut.map(|n| format!("a block refused with {n}"));
        let alone = self.refused.len() < 2 * NUMBERS.len() || self.counts.numbers_refused == 0;
        let alone = alone.then(|| "some refusal number".to_string());
        shape.map(|shape| format!("the shape {shape:?}")).or(pair).or(cut).or(alone)
    }
}

/// One sequence of messages.
fn sequence(random: &mut Random, shapes: &[Shape], many: u64, tally: &mut Tally) {
    // one of eight has zeros in the lent bytes
    let start = if random.below(8) == 0 { 0 } else { 1 + random.below(1 << 32) };
    let mut bench = Bench::new(start);
    let mut made = Vec::new();
    for _ in 0..many {
        let call = source::call(random, shapes);
        let came = bench.call(&call);
        made.push(call);
        match came {
            Ok(came) => tally.add(made.last().unwrap(), came),
            Err(_) => {
                print!("{}", report::<Bench>(start, &made));
                exit(1)
            }
        }
    }
    tally.add_counts(&bench.counts);
}

fn main() {
    let words: Vec<Option<u64>> = std::env::args().skip(1).map(|word| word.parse().ok()).collect();
    let [Some(messages), Some(seed)] = words[..] else {
        eprintln!("usage: written MESSAGES SEED");
        exit(2)
    };
    silence_panics();
    println!("seed {seed}, {messages} messages");
    let (random, shapes) = (&mut Random::new(seed), shapes());
    let mut tally = Tally::default();
    while tally.messages < messages {
        let left = messages - tally.messages;
        sequence(random, &shapes, left.min(LENGTH), &mut tally);
    }
    if let Err(text) = vector::published_pkr() {
        println!("DIFFERENCE at the published PKR: {text}");
        exit(1)
    }
    tally.print();
    if let Some(missing) = tally.missing() {
        println!("FAILED: no message came up with {missing}");
        exit(1)
    }
    println!("compared with the Rust: {} messages, 0 differences", tally.messages);
}
