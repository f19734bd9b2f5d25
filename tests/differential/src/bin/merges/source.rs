//! Recordings of two cards: subframes of some satellites, mostly whole and one after the other, pages that are refused among them,
//! and merges that keep each satellite's own order.
use crate::probe::When;
use crate::recording::{Entry, Recording};
use crate::sides::{Bad, Page};
use differential::inputs::Random;
use std::collections::BTreeMap;

/// A week and a subframe.
pub type Subframe = (u16, u32);

/// The pages of a block by satellite number, each in its own order.
type Own = BTreeMap<u8, Vec<Page>>;

/// The 75 bytes that a satellite sends: zeros, zeros but for one, or any.
fn sent(random: &mut Random) -> Vec<u8> {
    match random.below(4) {
        0 => vec![0; 75],
        1 => {
            let mut sent = vec![0; 75];
            sent[random.below(75) as usize] = 1 << random.below(8);
            sent
        }
        _ => random.bytes(75),
    }
}

pub fn page_at(random: &mut Random, satellite: u8, at: Subframe, word: u32, bytes: &[u8]) -> Page {
    let time = 30 * at.1 + 2 * word + random.below(2) as u32;
    Page { bytes: bytes.to_vec(), when: When { satellite, week: at.0, time } }
}

/// A satellite's words up to a number.
pub fn words(random: &mut Random, satellite: u8, at: Subframe, many: u32) -> Vec<Page> {
    let sent = sent(random);
    (0..many).zip(sent.chunks(5)).map(|(word, bytes)| page_at(random, satellite, at, word, bytes)).collect()
}

/// A loss, a page again with the same bytes or others, or two pages exchanged.
fn disturb(random: &mut Random, pages: &mut Vec<Page>) {
    let any = |random: &mut Random, many: usize| random.below(many as u64) as usize;
    let place = any(random, pages.len());
    match random.below(4) {
        0 if pages.len() > 1 => {
            pages.remove(place);
        }
        0 | 1 => {
            let other = any(random, pages.len());
            pages.swap(place, other);
        }
        _ => {
            let mut again = pages[place].clone();
            if random.below(2) == 0 {
                again.bytes = random.bytes(5);
            }
            let later = place + 1 + any(random, pages.len() - place);
            pages.insert(later, again);
        }
    }
}

/// What a card has of a satellite's whole subframe.
fn heard(random: &mut Random, whole: &[Page]) -> Vec<Page> {
    let mut pages = whole.to_vec();
    for _ in 0..random.pick(&[0, 0, 0, 0, 1, 1, 2, 5]) {
        disturb(random, &mut pages);
    }
    pages
}

/// A page that is refused, mostly by one cause.
fn spoil(random: &mut Random, mut page: Page) -> Page {
    for _ in 0..random.pick(&[1, 1, 1, 2]) {
        match random.below(4) {
            0 => page.bytes = random.bytes_of(&[4, 6]),
            1 => page.when.satellite = random.pick(&[0, 37]),
            2 => page.when.week = 4096,
            _ => page.when.time = 604_800,
        }
    }
    page
}

/// The places of the lists' elements in a random merge: the next of any list, or of one with the fewest taken, or a list goes on
/// for a while, or to its end.
fn merge(random: &mut Random, lengths: &[usize]) -> Vec<Vec<usize>> {
    let (stays, in_turn) = (random.pick(&[0, 0, 0, 230, 256]), random.below(3) == 0);
    let mut places = vec![Vec::new(); lengths.len()];
    let mut list = 0;
    for place in 0..lengths.iter().sum() {
        let mut left: Vec<usize> = (0..lengths.len()).filter(|list| places[*list].len() < lengths[*list]).collect();
        if place == 0 || !left.contains(&list) || random.below(256) >= stays {
            let fewest = left.iter().map(|list| places[*list].len()).min();
            left.retain(|list| !in_turn || Some(places[*list].len()) == fewest);
            list = random.pick(&left);
        }
        places[list].push(place);
    }
    places
}

/// One order of what both cards have of a satellite.
fn woven(random: &mut Random, cards: [Vec<Page>; 2]) -> Vec<Page> {
    let places = merge(random, &[cards[0].len(), cards[1].len()]).concat();
    let mut pages: Vec<(usize, Page)> = places.into_iter().zip(cards.concat()).collect();
    pages.sort_by_key(|(place, _)| *place);
    pages.into_iter().map(|(_, page)| page).collect()
}

/// The pages of a block, and how many satellites both cards have.
fn block(random: &mut Random, at: Subframe) -> (Own, u64) {
    let many = random.pick(&[1, 1, 2, 2, 3, 4]);
    let mut cards = [0, 1].map(|_| (0..many).map(|_| 1 + random.below(36) as u8).collect::<Vec<u8>>());
    if random.below(3) == 0 {
        cards[1][0] = cards[0][0];
    }
    let (mut own, mut on_both) = (Own::new(), 0);
    for satellite in cards.concat() {
        let whole = words(random, satellite, at, 15);
        let mut pages = heard(random, &whole);
        if cards.iter().all(|card| card.contains(&satellite)) {
            let other = heard(random, &whole);
            pages = woven(random, [pages, other]);
            on_both += u64::from(!own.contains_key(&satellite));
        }
        own.insert(satellite, pages);
    }
    for _ in 0..random.pick(&[0, 0, 1, 3]) {
        let satellite = random.pick(&cards[0]);
        let page = random.below(own[&satellite].len() as u64) as usize;
        let page = spoil(random, own[&satellite][page].clone());
        let pages = own.entry(page.when.satellite).or_default();
        pages.insert(random.below(pages.len() as u64 + 1) as usize, page);
    }
    (own, on_both)
}

/// The subframe of the next block: mostly the one that follows, or another of this week or a next one, or one that was there.
fn next(random: &mut Random, seen: &[Subframe]) -> Subframe {
    let (week, subframe) = seen[seen.len() - 1];
    let later = |week, subframe: u32| {
        let over = u16::from(subframe >= 20_160);
        ((week + over) % 4096, subframe % 20_160)
    };
    match random.below(12) {
        0 => (week, subframe.saturating_sub(1)),
        1 => (random.pick(&[week, week + 1, week + 4095, 0, 4095]) % 4096, subframe),
        2 => (week, random.below(20_160) as u32),
        3 | 4 => random.pick(seen),
        5 => later(week, subframe + 2),
        _ => later(week, subframe + 1),
    }
}

pub fn first(random: &mut Random) -> Subframe {
    (random.pick(&[0, 0, 1, 1200, 4094, 4095]), random.pick(&[0, 0, 1, 11_520, 20_158, 20_159]))
}

/// Pages that bring some satellites to some counts in a subframe.
pub fn before(random: &mut Random, at: Subframe, satellites: &[u8]) -> Vec<Page> {
    let mut pages = Vec::new();
    for satellite in satellites {
        let many = random.pick(&[0, 1, 7, 13, 14, 14, 14, 15]);
        pages.extend(words(random, *satellite, at, many));
    }
    pages
}

/// A recording, how many blocks it has, and how many satellites of a block both cards have.
pub fn recording(random: &mut Random) -> (Recording, u64, u64) {
    let mut seen = vec![first(random)];
    let mut recording = Recording::default();
    if random.below(3) > 0 {
        let at = if random.below(2) == 0 { seen[0] } else { next(random, &seen) };
        let satellites: Vec<u8> = (0..random.pick(&[1, 3, 6])).map(|_| 1 + random.below(36) as u8).collect();
        recording.before = before(random, at, &satellites);
    }
    if random.below(16) == 0 {
        let place = random.below(36) as usize;
        recording.bad = Some(random.pick(&[Bad::Count(place, 16), Bad::Week(4096), Bad::Subframe(20_160)]));
    }
    let (merges, blocks) = (random.pick(&[2, 2, 3]), random.pick(&[1, 2, 3, 4]));
    let mut on_both = 0;
    for number in 0..blocks {
        let (own, both) = block(random, seen[seen.len() - 1]);
        on_both += both;
        add(random, &mut recording, number, own, merges);
        seen.push(next(random, &seen));
    }
    (recording, blocks as u64, on_both)
}

/// A block's pages with their places in so many merges.
fn add(random: &mut Random, recording: &mut Recording, block: usize, own: Own, merges: usize) {
    let lengths: Vec<usize> = own.values().map(Vec::len).collect();
    let places: Vec<Vec<usize>> = (0..merges).map(|_| merge(random, &lengths).concat()).collect();
    for (number, page) in own.into_values().flatten().enumerate() {
        let places = places.iter().map(|merge| merge[number]).collect();
        recording.entries.push(Entry { page, block, places });
    }
}
