//! compare ROUNDS SEED [all]: the archive against the published Rust and against document 01. Ends with
//! status 1 at the first difference; with `all` it goes on, and shows the first of each function.
use check::Check;
use differential::call::{Call, Function};
use differential::inputs::Random;
use differential::published::silence_panics;
use keys::Keys;
use std::process::exit;

mod check;
mod firmware;
mod keys;
mod runs;

/// Comparisons of one function.
#[derive(Clone, Copy, Default)]
struct Count {
    with_the_rust: u64,
    refused: u64,
    with_the_paper_alone: u64,
    different: u64,
}

pub struct Tally {
    counts: [Count; 256],
    keys: Keys,
    go_on: bool,
    seed: u64,
}

impl Tally {
    fn compare(&mut self, call: &Call) {
        let check = Check::new(call);
        let count = &mut self.counts[usize::from(call.function.number())];
        match check.said {
            Some(_) => count.with_the_rust += 1,
            None => count.with_the_paper_alone += 1,
        }
        count.refused += u64::from(check.model.is_err());
        if check.differs() {
            count.different += 1;
            if count.different == 1 {
                print!("{}", check::report(call));
            }
            if !self.go_on {
                self.end();
            }
        } else {
            self.keys.count(call, &check);
        }
    }

    fn print(&self, name: &str, count: Count) {
        let Count { with_the_rust, refused, with_the_paper_alone, different } = count;
        println!("{name:<32}{with_the_rust:>14}{with_the_paper_alone:>14}{refused:>14}{different:>14}");
    }

    fn end(&self) -> ! {
        println!(
            "{:<32}{:>14}{:>14}{:>14}{:>14}",
            "function", "with the Rust", "paper alone", "refusals", "differences"
        );
        let mut all = Count::default();
        for function in Function::ALL {
            let count = self.counts[usize::from(function.number())];
            self.print(function.name(), count);
            all.with_the_rust += count.with_the_rust;
            all.with_the_paper_alone += count.with_the_paper_alone;
            all.refused += count.refused;
            all.different += count.different;
        }
        self.print("all", all);
        self.keys.print();
        println!("seed {}", self.seed);
        println!("compared with the Rust: {} comparisons, {} differences", all.with_the_rust, all.different);
        exit(if all.different == 0 { 0 } else { 1 })
    }
}

fn main() {
    let words: Vec<String> = std::env::args().skip(1).collect();
    let (rounds, seed, go_on) = match words.iter().map(String::as_str).collect::<Vec<_>>()[..] {
        [rounds, seed] => (rounds.parse(), seed.parse(), false),
        [rounds, seed, "all"] => (rounds.parse(), seed.parse(), true),
        _ => usage(),
    };
    let (Ok(rounds), Ok(seed)) = (rounds, seed) else { usage() };
    let rounds: u64 = rounds;
    silence_panics();
    let mut tally = Tally { counts: [Count::default(); 256], keys: Keys::default(), go_on, seed };
    let mut random = Random::new(seed);
    println!("seed {seed}, {rounds} random rounds");
    runs::headers(&mut tally);
    runs::table(&mut tally);
    runs::num_tags(&mut tally);
    runs::bits(&mut tally, &mut random);
    runs::single_bits(&mut tally);
    runs::mack_refusals(&mut tally, &mut random);
    runs::kroot_signatures(&mut tally, &mut random);
    runs::kroot_lengths(&mut tally, &mut random);
    runs::pkr_lengths(&mut tally, &mut random);
    for _ in 0..rounds {
        runs::random_round(&mut tally, &mut random);
    }
    let missing = tally.keys.missing();
    if !missing.is_empty() {
        println!("FAILED: no key was compared of these sizes of key and tag: {missing:?}");
        exit(1);
    }
    tally.end()
}

fn usage() -> ! {
    eprintln!("usage: compare ROUNDS SEED [all]");
    exit(2)
}
