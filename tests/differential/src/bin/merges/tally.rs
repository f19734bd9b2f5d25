//! What came up; the run fails where something never did.
use crate::probe::Told;

/// A page of a word that was used before: the last one, with the same bytes or others, or a lower one.
#[derive(Clone, Copy)]
pub enum Double {
    Same,
    Other,
    Lower,
}

/// Two pages that were fed in either order: how many, with how many something came out, and how often the record, the lent bytes,
/// an answer ended differently.
#[derive(Default)]
pub struct Orders {
    pub pairs: u64,
    pub given: u64,
    pub differ: [u64; 3],
}

impl Orders {
    pub fn add(&mut self, same: [bool; 3], given: bool) {
        self.pairs += 1;
        self.given += u64::from(given);
        self.differ.iter_mut().zip(same).for_each(|(many, same)| *many += u64::from(!same));
    }

    fn text(&self) -> String {
        let Orders { pairs, given, differ: [record, bytes, answers] } = self;
        format!("{pairs}, {given} with a pair; differing: the record {record}, the bytes {bytes}, an answer {answers}")
    }
}

#[derive(Default)]
pub struct Tally {
    pub recordings: u64,
    pub blocks: u64,
    /// Satellites of a block that both cards have.
    pub on_both: u64,
    pub merges: u64,
    /// Merges in another order than the first of their recording.
    pub reordered: u64,
    pages: u64,
    complete: u64,
    silent: u64,
    refusals: [u64; 13],
    doubled: [u64; 3],
    /// Of the doubled pages: those with a page of another satellite in between.
    apart: u64,
    /// Of different satellites in one subframe, of different ones in two, and of one satellite.
    pub commuting: Orders,
    pub two_subframes: Orders,
    pub one_satellite: Orders,
}

/// The refusal numbers of a page.
const NUMBERS: [usize; 5] = [1, 12, 2, 3, 4];

impl Tally {
    pub fn add(&mut self, told: Told, doubled: Option<Double>, between: bool) {
        self.pages += 1;
        match told {
            Told { kind: 2, first, .. } => self.refusals[first as usize] += 1,
            Told { kind: 1, third: 1, .. } => self.silent += 1,
            Told { kind: 1, .. } => self.complete += 1,
            _ => {}
        }
        if let Some(double) = doubled {
            self.doubled[double as usize] += 1;
            self.apart += u64::from(between);
        }
    }

    pub fn print(&self) {
        let Tally { recordings, blocks, on_both, merges, reordered, pages, complete, silent, apart, .. } = self;
        let [same, other, lower] = self.doubled;
        let refused = NUMBERS.map(|n| format!("{n}: {}", self.refusals[n])).join(", ");
        println!("{recordings} recordings of {blocks} blocks, {on_both} satellites on both cards;");
        println!("  {merges} merges, {reordered} in another order than the first of their recording");
        println!("{pages} pages: complete {complete}, silent {silent}, refused {refused};");
        println!(
            "  doubled: {same} with the same bytes, {other} with others, {lower} of lower words; {apart} after others"
        );
        println!("two pages in either order: {}", self.commuting.text());
        println!("  of two subframes: {}", self.two_subframes.text());
        println!("  of one satellite: {}", self.one_satellite.text());
    }

    /// What should have come up and did not.
    pub fn missing(&self) -> Option<String> {
        let counts = [
            (self.blocks, "block"),
            (self.on_both, "satellite on both cards"),
            (self.reordered, "merge in another order"),
            (self.complete, "complete pair"),
            (self.silent, "silent pair"),
            (self.doubled[0], "doubled page with the same bytes"),
            (self.doubled[1], "doubled page with other bytes"),
            (self.doubled[2], "page of a lower word"),
            (self.apart, "doubled page with another satellite's in between"),
            (self.commuting.given, "two pages of one subframe that complete a pair"),
            (self.two_subframes.differ[0], "two pages of two subframes whose record depends on the order"),
            (self.two_subframes.differ[1], "two pages of two subframes whose bytes depend on the order"),
            (self.two_subframes.differ[2], "two pages of two subframes whose answers depend on the order"),
            (self.one_satellite.differ[0], "two pages of one satellite whose record depends on the order"),
            (self.one_satellite.differ[1], "two pages of one satellite whose bytes depend on the order"),
            (self.one_satellite.differ[2], "two pages of one satellite whose answers depend on the order"),
        ];
        let number = NUMBERS.into_iter().find(|n| self.refusals[*n] == 0).map(|n| format!("refusal {n}"));
        let none = counts.into_iter().find(|(many, _)| *many == 0);
        none.map(|(_, name)| name.to_string()).or(number)
    }
}
