//! A recording of two cards with some merges of it, and the check that all of them end the same.
use crate::feeding::{Feeding, alike, ends};
use crate::sides::{Bad, Lent, Page, RIGHT, Sides, page_refusal, simpler_pages};
use crate::tally::Tally;
use differential::sequence::{Came, Pair};
use std::collections::BTreeMap;
use std::fmt;

/// A page, its block, and its place in each merge of the block.
#[derive(Clone)]
pub struct Entry {
    pub page: Page,
    pub block: usize,
    pub places: Vec<usize>,
}

#[derive(Clone, Default)]
pub struct Recording {
    /// What is fed before, in one order.
    pub before: Vec<Page>,
    /// What makes the record a bad one then.
    pub bad: Option<Bad>,
    pub entries: Vec<Entry>,
}

impl Recording {
    /// Two pages in either order.
    pub fn of_two(before: &[Page], p: &Page, q: &Page) -> Recording {
        let entry = |page: &Page, places: [usize; 2]| Entry { page: page.clone(), block: 0, places: places.to_vec() };
        Recording { before: before.to_vec(), bad: None, entries: vec![entry(p, [0, 1]), entry(q, [1, 0])] }
    }

    /// The pages of each merge, block after block.
    pub fn merges(&self) -> Vec<Vec<Page>> {
        let merge = |number: usize| {
            let mut entries: Vec<&Entry> = self.entries.iter().collect();
            entries.sort_by_key(|entry| (entry.block, entry.places[number]));
            entries.into_iter().map(|entry| entry.page.clone()).collect()
        };
        let many = self.entries.first().map_or(0, |entry| entry.places.len());
        (0..many).map(merge).collect()
    }

    /// Whether all merges must end the same: the admitted pages of a block have one week and subframe, and each satellite's own
    /// pages have one order.
    pub fn fair(&self) -> bool {
        let mut subframes = BTreeMap::new();
        let one_subframe = self.entries.iter().filter(|entry| page_refusal(&entry.page, RIGHT) == 0).all(|entry| {
            let subframe = (entry.page.when.week, entry.page.when.time / 30);
            *subframes.entry(entry.block).or_insert(subframe) == subframe
        });
        let own = |pages: &[Page]| {
            let mut own: BTreeMap<u8, Vec<Page>> = BTreeMap::new();
            pages.iter().for_each(|page| own.entry(page.when.satellite).or_default().push(page.clone()));
            own
        };
        let merges = self.merges();
        one_subframe && merges.iter().all(|merge| own(merge) == own(&merges[0]))
    }

    /// Feeds all merges, from the same start on.
    pub fn check(&self, start: Sides, tally: &mut Tally) -> Result<(), String> {
        let start = Feeding::after(start, &self.before, RIGHT)?;
        let merges = self.merges();
        let ends = ends(&start, &merges, Lent { bad: self.bad, ..RIGHT }, tally)?;
        tally.merges += merges.len() as u64;
        tally.reordered += merges.iter().filter(|merge| **merge != merges[0]).count() as u64;
        if !self.fair() {
            return Ok(());
        }
        ends.iter().try_for_each(|end| ends[0].same(end)).map_err(|text| format!("two merges: {text}"))
    }

    /// The same as a sequence, of which `report` leaves out what it can.
    pub fn calls(&self) -> Vec<Call> {
        let before = self.before.iter().cloned().map(Call::Before);
        let (bad, entries) = (self.bad.map(Call::Bad), self.entries.iter().cloned().map(Call::Entry));
        before.chain(bad).chain(entries).chain([Call::Merge]).collect()
    }
}

#[derive(Clone)]
pub enum Call {
    Before(Page),
    Bad(Bad),
    Entry(Entry),
    Merge,
}

impl fmt::Display for Call {
    fn fmt(&self, f: &mut fmt::Formatter<'_>) -> fmt::Result {
        match self {
            Call::Before(page) => write!(f, "before: {page}"),
            Call::Bad(bad) => write!(f, "the record with {bad:?}"),
            Call::Entry(Entry { page, block, places }) => write!(f, "block {block}, places {places:?}: {page}"),
            Call::Merge => {
                write!(f, "the pages of each block fed in the order of their first places, of their second, ...")
            }
        }
    }
}

/// A recording that is put together call by call.
pub struct Merging {
    start: u64,
    recording: Recording,
}

impl Pair for Merging {
    type Call = Call;

    fn new(start: u64) -> Merging {
        Merging { start, recording: Recording::default() }
    }

    fn call(&mut self, call: &Call) -> Result<Came, String> {
        match call {
            Call::Before(page) => self.recording.before.push(page.clone()),
            Call::Bad(bad) => self.recording.bad = Some(*bad),
            Call::Entry(entry) => self.recording.entries.push(entry.clone()),
            Call::Merge => self.recording.check(alike(self.start), &mut Tally::default())?,
        }
        Ok(Came::Nothing)
    }

    fn simpler(call: &Call) -> Vec<Call> {
        match call {
            Call::Before(page) => simpler_pages(page).into_iter().map(Call::Before).collect(),
            Call::Entry(entry) => {
                let pages = simpler_pages(&entry.page).into_iter();
                pages.map(|page| Call::Entry(Entry { page, ..entry.clone() })).collect()
            }
            Call::Bad(_) | Call::Merge => Vec::new(),
        }
    }
}
