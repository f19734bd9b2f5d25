//! What came up: verdicts, lists, sizes, refusal numbers, and causes of a refusal that came together.
use crate::probe::Told;
use crate::recorder::{Sizes, WalkTold};
use std::collections::{BTreeMap, BTreeSet};

/// The verdicts that must come up; the message's nt is the greater one, and the smaller.
const VERDICTS: [&str; 5] = ["all fit", "ADKD breaks", "PRND breaks", "more tags than slots", "fewer tags than slots"];

fn verdict(slots: Told) -> &'static str {
    match slots {
        Told { kind: 1, first: 0, .. } => VERDICTS[0],
        Told { kind: 1, first: 1, third: 1, .. } => VERDICTS[1],
        Told { kind: 1, first: 1, .. } => VERDICTS[2],
        Told { kind: 1, second, third, .. } if third > second => VERDICTS[3],
        Told { kind: 1, .. } => VERDICTS[4],
        _ => "none",
    }
}

/// Refusals by number, and the places of two causes in the list of checks that held at once.
#[derive(Default)]
pub struct Refusals {
    numbers: BTreeMap<u64, u64>,
    pairs: BTreeSet<(usize, usize)>,
}

impl Refusals {
    pub fn add(&mut self, number: u64, checks: &[(u64, bool)]) {
        *self.numbers.entry(number).or_default() += 1;
        let holding: Vec<usize> = (0..checks.len()).filter(|place| checks[*place].1).collect();
        let pairs = holding.iter().flat_map(|a| holding.iter().map(|b| (*a, *b)));
        self.pairs.extend(pairs.filter(|(a, b)| a < b));
    }

    pub fn text(&self) -> String {
        let numbers: Vec<String> = self.numbers.iter().map(|(number, many)| format!("{number}: {many}")).collect();
        numbers.join(", ")
    }

    /// What did not come up of so many causes: a number, or two causes at once.
    pub fn missing(&self, numbers: &[u64], causes: usize) -> Option<String> {
        let number = numbers.iter().find(|number| !self.numbers.contains_key(number));
        let mut pairs = (0..causes).flat_map(|b| (0..b).map(move |a| (a, b)));
        let pair = pairs.find(|pair| !self.pairs.contains(pair));
        let number = number.map(|number| format!("refusal {number}"));
        number.or(pair.map(|(a, b)| format!("both cause {a} and cause {b} of a refusal")))
    }
}

/// Answers that are not refused.
#[derive(Default)]
pub struct Answers {
    verdicts: BTreeMap<&'static str, u64>,
    /// By how many tags they have.
    lists: [u64; 10],
    /// Messages that were walked to the first break or the end, by the sizes of key and tag.
    sizes: BTreeMap<(usize, usize), u64>,
}

impl Answers {
    pub fn add(&mut self, told: &WalkTold, sizes: Sizes) {
        *self.verdicts.entry(verdict(told.slots)).or_default() += 1;
        self.lists[told.timing.first as usize] += 1;
        if told.slots.first < 2 {
            *self.sizes.entry((sizes.key, sizes.tag)).or_default() += 1;
        }
    }

    /// How many pairs of sizes there were, and the fewest walks of one.
    pub fn sizes(&self) -> (usize, u64) {
        (self.sizes.len(), self.sizes.values().copied().min().unwrap_or(0))
    }

    pub fn verdicts(&self) -> String {
        let verdicts = VERDICTS.map(|name| format!("{name}: {}", self.verdicts.get(name).unwrap_or(&0)));
        verdicts.join(", ")
    }

    pub fn lists(&self) -> String {
        self.lists.map(|many| many.to_string()).join(", ")
    }

    /// The verdict that did not come up.
    pub fn missing(&self) -> Option<String> {
        let verdict = VERDICTS.iter().find(|name| !self.verdicts.contains_key(*name));
        verdict.map(|name| format!("the verdict: {name}"))
    }

    /// The length that no list had, of 0 to 9.
    pub fn missing_list(&self) -> Option<String> {
        let length = self.lists.iter().position(|many| *many == 0);
        length.map(|length| format!("a list of {length} tags"))
    }
}
