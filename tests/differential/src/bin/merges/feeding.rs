//! Pages fed to both collectors in some order, and what it comes to: states and answers, which two orders must have in common.
use crate::probe::{Told, When};
use crate::sides::{HKROOT, Handed, Lent, MACK, Page, Sides, page_refusal};
use crate::tally::{Double, Tally};
use oracle::{Gst, Svn};
use std::collections::BTreeMap;

/// The most entries of one trace.
const TRACE: usize = 100;

/// The answer to a page, and what the Rust handed out with it.
type Answer = (Told, Option<Handed>);

/// The words of each satellite that were used since the last change of week or subframe.
#[derive(Clone)]
struct Used {
    at: (u16, u32),
    words: [u16; 36],
    /// The satellite of the last admitted page.
    last: u8,
}

#[derive(Clone)]
pub struct Feeding {
    pub sides: Sides,
    used: Used,
    /// By satellite number, in the order of its pages.
    answers: BTreeMap<u8, Vec<Answer>>,
}

/// Both as new, with the same bytes in their memory: zeros for 0, else random ones from that seed.
pub fn alike(start: u64) -> Sides {
    let mut sides = Sides::new(start);
    if start == 0 {
        return sides;
    }
    let mut feed = |satellite: usize, week, time, page: &[u8; 5]| {
        let svn = Svn::try_from(satellite as u8 + 1).expect("a satellite");
        sides.rust.feed(page, svn, Gst::new(week, time));
    };
    let words = sides.hkroot[..HKROOT].iter().zip(sides.mack[..MACK].chunks(4)).enumerate();
    for (place, (hkroot, mack)) in words {
        let page = [*hkroot, mack[0], mack[1], mack[2], mack[3]];
        feed(place / 15, 1, 2 * (place % 15) as u32, &page);
    }
    // a page that is not used: all counts are zero then, in week 0 and subframe 0
    feed(0, 0, 2, &[0; 5]);
    sides.alike = true;
    sides
}

/// A page's place among the satellites, and its word.
fn place(when: When) -> (usize, usize) {
    (usize::from(when.satellite) - 1, (when.time / 2 % 15) as usize)
}

fn same_state(a: &Sides, b: &Sides) -> bool {
    a.record == b.record && a.rust == b.rust && same_bytes(a, b)
}

fn same_bytes(a: &Sides, b: &Sides) -> bool {
    a.hkroot == b.hkroot && a.mack == b.mack
}

impl Feeding {
    /// From a new state on, after some pages; their answers are not kept.
    pub fn after(sides: Sides, pages: &[Page], lent: Lent) -> Result<Feeding, String> {
        let used = Used { at: (0, 0), words: [0; 36], last: 0 };
        let mut feeding = Feeding { sides, used, answers: BTreeMap::new() };
        let tally = &mut Tally::default();
        pages.iter().try_for_each(|page| feeding.page(page, lent, tally))?;
        feeding.answers.clear();
        Ok(feeding)
    }

    /// How an admitted page is doubled: its word or a higher one of its satellite was used since the last change.
    fn doubled(&self, page: &Page) -> Option<Double> {
        let (satellite, word) = place(page.when);
        let used = self.used.words[satellite] >> word;
        if (page.when.week, page.when.time / 30) != self.used.at || used == 0 {
            return None;
        }
        let (h, m) = (15 * satellite + word, 60 * satellite + 4 * word);
        let same = page.bytes[0] == self.sides.hkroot[h] && page.bytes[1..] == self.sides.mack[m..][..4];
        Some(if used > 1 {
            Double::Lower
        } else if same {
            Double::Same
        } else {
            Double::Other
        })
    }

    fn note_used(&mut self, when: When) {
        let (satellite, word) = place(when);
        let now = (when.week, when.time / 30);
        if self.used.at != now {
            self.used = Used { at: now, words: [0; 36], last: 0 };
        }
        self.used.last = when.satellite;
        if usize::from(self.sides.record.counts[satellite]) == word + 1 {
            self.used.words[satellite] |= 1 << word;
        }
    }

    fn note_answer(&mut self, satellite: u8, told: Told) {
        let handed = if told.kind == 1 { self.sides.out[usize::from(satellite) - 1] } else { None };
        self.answers.entry(satellite).or_default().push((told, handed));
    }

    /// One page at both. A doubled one is answered nothing and changes nothing.
    pub fn page(&mut self, page: &Page, lent: Lent, tally: &mut Tally) -> Result<(), String> {
        let admitted = page_refusal(page, lent) == 0;
        let doubled = if admitted { self.doubled(page) } else { None };
        let (before, between) = (doubled.map(|_| self.sides.clone()), self.used.last != page.when.satellite);
        let told = self.sides.feed(page, lent)?;
        self.sides.compare()?;
        if before.is_some_and(|before| told != Told::NOTHING || !same_state(&before, &self.sides)) {
            return Err(format!("the page is of a word that was used: it is answered {told:?}, or changes something"));
        }
        if admitted {
            self.note_used(page.when);
        }
        self.note_answer(page.when.satellite, told);
        tally.add(told, doubled, between);
        Ok(())
    }

    /// The pages as traces, refused entries walked over. One that has not five bytes cannot be an entry, and is fed by itself.
    fn traces(&mut self, pages: &[Page], lent: Lent) -> Result<(), String> {
        let entry = |page: &Page| page.bytes.len() == 5;
        for part in pages.chunk_by(|a, b| entry(a) == entry(b)) {
            if entry(&part[0]) {
                self.trace(part, lent)?;
            } else {
                part.iter().try_for_each(|page| self.page(page, lent, &mut Tally::default()))?;
            }
        }
        Ok(())
    }

    fn trace(&mut self, mut pages: &[Page], lent: Lent) -> Result<(), String> {
        while !pages.is_empty() {
            let (told, consumed) = self.sides.feed_all(&pages[..pages.len().min(TRACE)], 0, lent)?;
            self.sides.compare()?;
            // the answer is that of the last page that was taken, or of one that was not
            let many = consumed.max(1);
            for (place, page) in pages[..many].iter().enumerate() {
                let told = if place + 1 == many { told } else { Told::NOTHING };
                self.note_answer(page.when.satellite, told);
            }
            pages = &pages[many..];
        }
        Ok(())
    }

    /// What of record, lent bytes and answers is the same.
    pub fn same_parts(&self, other: &Feeding) -> [bool; 3] {
        let (a, b) = (&self.sides, &other.sides);
        [a.record == b.record, same_bytes(a, b), self.answers == other.answers]
    }

    /// What is not the same after another order of the same pages.
    pub fn same(&self, other: &Feeding) -> Result<(), String> {
        let (a, b) = (&self.sides, &other.sides);
        let [record, bytes, answers] = self.same_parts(other);
        if !record {
            return Err(format!("the record ends as {:?} and as {:?}", a.record, b.record));
        }
        if !bytes {
            return Err("the lent bytes end in two ways".to_string());
        }
        if !answers {
            let satellite = (0..=255).find(|n| self.answers.get(n) != other.answers.get(n)).unwrap_or(0);
            let [one, two] = [self, other].map(|end| end.told(satellite));
            return Err(format!("satellite {satellite} is answered {one:?} and {two:?}"));
        }
        if a.rust != b.rust { Err("the Rust ends in two states".to_string()) } else { Ok(()) }
    }

    /// The answers to a satellite's pages.
    pub fn told(&self, satellite: u8) -> Vec<Told> {
        self.answers.get(&satellite).into_iter().flatten().map(|(told, _)| *told).collect()
    }
}

/// The ends of the orders, each from the start. An order that is fed as traces ends as page by page.
pub fn ends(start: &Feeding, orders: &[Vec<Page>], lent: Lent, tally: &mut Tally) -> Result<Vec<Feeding>, String> {
    let end = |(number, pages): (usize, &Vec<Page>)| {
        let mut end = start.clone();
        for (place, page) in pages.iter().enumerate() {
            let fed = end.page(page, lent, tally);
            fed.map_err(|text| format!("order {} at its page {}: {text}", number + 1, place + 1))?;
        }
        let mut traced = start.clone();
        let fed = traced.traces(pages, lent).and_then(|()| end.same(&traced));
        fed.map_err(|text| format!("order {} as a trace: {text}", number + 1))?;
        Ok(end)
    };
    orders.iter().enumerate().map(end).collect()
}
