//! record_sequences FILE: writes recorded sequences of calls to the collectors and the MACK store, in the form of the
//! recorded answers. Each answer is what the published Rust did, also of a silent pair, which is complete there, but for
//! refused calls, which the Rust is not asked: their numbers are document 01's. The same list at each run.
//! crates/vectors/data/sequences.md has the layout.
use differential::answers::write;
use differential::inputs::Random;
use oracle::bitfields::{DsmHeader, DsmType, NmaStatus};
use oracle::dsm::CollectDsm;
use oracle::subframe::CollectSubframe;
use oracle::{FullMackStorage, Gst, Svn};
use std::process::exit;

const NEW: u8 = 89;
const FEED: u8 = 90;
const DSM: u8 = 91;
const STORE: u8 = 92;
const GET: u8 = 93;

struct List {
    random: Random,
    bytes: Vec<u8>,
    records: usize,
    refused: usize,
}

/// An answer: kind 1 with two numbers, or 0 for nothing; a refusal number where refused.
type Answer = Result<[u64; 3], u8>;

impl List {
    fn add(&mut self, function: u8, message: &[u8], args: [u32; 3], answer: Answer, output: &[u8]) {
        self.records += 1;
        self.refused += usize::from(answer.is_err());
        write(&mut self.bytes, function, message, args, answer, output);
    }

    fn new_sequence(&mut self) {
        self.add(NEW, &[], [0; 3], Ok([0; 3]), &[]);
    }
}

/// The first of document 01's numbers whose test holds.
fn refusal(checks: &[(u8, bool)]) -> Option<u8> {
    checks.iter().find(|check| check.1).map(|check| check.0)
}

/// The subframe collector, with what it handed out since the last change.
struct Pages {
    rust: CollectSubframe,
    at: (u16, u32),
    out: Vec<Vec<u8>>,
}

impl Pages {
    fn new() -> Pages {
        Pages { rust: CollectSubframe::new(), at: (0, 0), out: vec![Vec::new(); 36] }
    }

    /// Feeds a page and records the answer and what is then shown of its satellite.
    fn feed(&mut self, list: &mut List, page: &[u8], satellite: u8, week: u16, time: u32) {
        let known = (1..=36).contains(&satellite);
        let number = refusal(&[(1, page.len() != 5), (2, !known), (3, week > 4095), (4, time > 604_799)]);
        let mut answer = Ok([0; 3]);
        if let Some(number) = number {
            answer = Err(number);
        } else {
            if self.at != (week, time / 30) {
                self.at = (week, time / 30);
                self.out.fill(Vec::new());
            }
            let svn = Svn::try_from(satellite).unwrap();
            if let Some((h, m, gst)) = self.rust.feed(page.try_into().unwrap(), svn, Gst::new(week, time)) {
                answer = Ok([1, gst.wn().into(), gst.tow().into()]);
                self.out[usize::from(satellite) - 1] = [&h[..], &m[..]].concat();
            }
        }
        let shown = if known { self.out[usize::from(satellite) - 1].clone() } else { Vec::new() };
        list.add(FEED, page, [satellite.into(), week.into(), time], answer, &shown);
    }
}

/// All words of a subframe for some satellites, from a word on.
fn words(list: &mut List, pages: &mut Pages, satellites: &[u8], week: u16, subframe: u32, from: u32) {
    for word in from..15 {
        for satellite in satellites {
            let page = list.random.bytes(5);
            pages.feed(list, &page, *satellite, week, 30 * subframe + 2 * word + word % 2);
        }
    }
}

/// Whole subframes, losses, repeats, refused pages, jumps of the clock and times that come back.
fn subframes(list: &mut List, pages: &mut Pages) {
    list.new_sequence();
    words(list, pages, &[1, 36], 1200, 2, 0);
    words(list, pages, &[5], 1200, 2, 0);
    // after completion: nothing, and the view stays
    words(list, pages, &[1], 1200, 2, 12);
    // a loss: words 3 to 14 do not complete, then all of them do
    words(list, pages, &[7], 1200, 3, 3);
    words(list, pages, &[7], 1200, 3, 0);
    // the subframe before, the next week, and week 4095 into 0
    for (week, subframe) in [(1200, 2), (1201, 2), (1200, 2), (4095, 20_159), (0, 0)] {
        words(list, pages, &[2], week, subframe, 0);
    }
    // refused pages between the words
    for word in 0..15 {
        let page = list.random.bytes(5);
        pages.feed(list, &page, 9, 1300, 60 + 2 * word);
        let (length, satellite, week, time) = match word % 5 {
            0 => (4, 9, 1300, 62),
            1 => (5, 0, 1301, 62),
            2 => (5, 37, 1301, 604_800),
            3 => (5, 9, 4096, 604_800),
            _ => (6, 9, 1300, 604_800),
        };
        let page = list.random.bytes(length);
        pages.feed(list, &page, satellite, week, time);
    }
    for _ in 0..800 {
        let satellite = list.random.pick(&[3, 3, 4]);
        let word = list.random.pick(&[0, 0, 1, 2, 3, 4, 5, 6, 7, 8, 9, 10, 11, 12, 13, 14]);
        let first = list.random.pick(&[0, 0, 0, 0, 0, 0, 0, 30]);
        let page = list.random.bytes(5);
        pages.feed(list, &page, satellite, 7, first + 2 * word);
    }
}

/// Words of zeros, but for one byte of the subframe's 75, by its word and its place in the page.
fn zeros(list: &mut List, pages: &mut Pages, satellite: u8, subframe: u32, from: u32, loud: Option<(u32, usize)>) {
    for word in from..15 {
        let mut page = [0; 5];
        if let Some((_, place)) = loud.filter(|(of, _)| *of == word) {
            page[place] = 1;
        }
        pages.feed(list, &page, satellite, 8, 30 * subframe + 2 * word);
    }
}

/// Silent pairs, and pairs that are silent but for one byte.
fn silent(list: &mut List, pages: &mut Pages) {
    // over the bytes that others left; after it nothing, and the view stays
    zeros(list, pages, 3, 0, 0, None);
    zeros(list, pages, 3, 0, 13, Some((14, 4)));
    for (satellite, loud) in [(1, (0, 0)), (2, (0, 1)), (3, (7, 2)), (4, (14, 0)), (36, (14, 4))] {
        zeros(list, pages, satellite, 1, 0, Some(loud));
    }
    // silent: the copy that is not zero came before its turn, or after it
    pages.feed(list, &[1; 5], 5, 8, 62);
    zeros(list, pages, 5, 2, 0, None);
    pages.feed(list, &[0; 5], 6, 8, 60);
    pages.feed(list, &[1; 5], 6, 8, 60);
    zeros(list, pages, 6, 2, 1, None);
    // complete: the first copy of word 0 is not zero, the second one is
    pages.feed(list, &[1; 5], 7, 8, 60);
    zeros(list, pages, 7, 2, 0, None);
    // a loss; then silent between two neighbours that are not
    zeros(list, pages, 8, 2, 1, None);
    for word in 0..15 {
        pages.feed(list, &[1; 5], 9, 8, 90 + 2 * word);
        pages.feed(list, &[0; 5], 8, 8, 90 + 2 * word);
        pages.feed(list, &[1; 5], 7, 8, 90 + 2 * word);
    }
}

struct Blocks {
    rust: CollectDsm,
    id: Option<u8>,
    out: Vec<u8>,
}

impl Blocks {
    fn new() -> Blocks {
        Blocks { rust: CollectDsm::new(), id: None, out: Vec::new() }
    }

    /// Feeds a block and records the answer and what is then shown.
    fn feed(&mut self, list: &mut List, header: u8, block: &[u8]) {
        let mut answer = Ok([0; 3]);
        if block.len() != 13 {
            answer = Err(1);
        } else {
            if self.id != Some(header >> 4) {
                self.id = Some(header >> 4);
                self.out.clear();
            }
            if let Some(dsm) = self.rust.feed(DsmHeader(&[header]), block.try_into().unwrap()) {
                let kind = match dsm.dsm_type() {
                    DsmType::Kroot => 0,
                    DsmType::Pkr => 1,
                };
                answer = Ok([1, 2 * u64::from(dsm.id()) + kind, dsm.data().len() as u64]);
                self.out = dsm.data().to_vec();
            }
        }
        list.add(DSM, block, [header.into(), 0, 0], answer, &self.out);
    }
}

/// Sixteen blocks with a count.
fn message(list: &mut List, count: u8) -> Vec<Vec<u8>> {
    let mut blocks: Vec<Vec<u8>> = (0..16).map(|_| list.random.bytes(13)).collect();
    blocks[0][0] = count << 4 | blocks[0][0] & 15;
    blocks
}

/// Every count of both types in order, then blocks at random, repeats that differ, IDs that alternate.
fn dsms(list: &mut List) {
    let mut dsm = Blocks::new();
    list.new_sequence();
    for id in [11, 12] {
        for count in 0..16 {
            // another ID between, so that the next message is not taken for the one before
            let other = list.random.bytes(13);
            dsm.feed(list, 3 << 4 | 5, &other);
            let blocks = message(list, count);
            for n in (0..16).rev() {
                dsm.feed(list, id << 4 | n, &blocks[usize::from(n)]);
            }
        }
    }
    let mut messages: Vec<Vec<Vec<u8>>> = [1, 2, 7].iter().map(|count| message(list, *count)).collect();
    for turn in 0..700 {
        let which = list.random.pick(&[0, 0, 0, 0, 0, 0, 0, 0, 1, 2]);
        let n = list.random.below(16) as usize;
        let id = [2, 3, 13][which];
        let block = match list.random.below(20) {
            0 => list.random.bytes(13),
            1 => list.random.bytes_of(&[0, 12, 14]),
            _ => messages[which][n].clone(),
        };
        dsm.feed(list, id << 4 | n as u8, &block);
        if turn % 150 == 149 {
            messages[0] = message(list, 1 + (turn / 150) as u8);
        }
    }
}

struct Store {
    rust: FullMackStorage,
    /// Messages at the current time.
    at: Option<(u16, u32)>,
    many: usize,
}

const STATUSES: [NmaStatus; 4] = [NmaStatus::Reserved, NmaStatus::Test, NmaStatus::Operational, NmaStatus::DontUse];

impl Store {
    fn store(&mut self, list: &mut List, satellite: u8, week: u16, time: u32, status: u8) {
        let message = list.random.bytes(60);
        let full = self.at == Some((week, time)) && self.many == 36;
        let known = (1..=36).contains(&satellite);
        let checks = [(2, !known), (3, week > 4095), (4, time > 604_799), (7, status > 3), (10, full)];
        let mut answer = Ok([0; 3]);
        if let Some(number) = refusal(&checks) {
            answer = Err(number);
        } else {
            self.many = if self.at == Some((week, time)) { self.many + 1 } else { 1 };
            self.at = Some((week, time));
            let (svn, gst) = (Svn::try_from(satellite).unwrap(), Gst::new(week, time));
            self.rust.store(message[..].try_into().unwrap(), svn, gst, STATUSES[usize::from(status)]);
        }
        let call = [&[status], &message[..]].concat();
        list.add(STORE, &call, [satellite.into(), week.into(), time], answer, &[]);
    }

    /// Asks, and records the status and the 60 bytes.
    fn get(&self, list: &mut List, satellite: u8, week: u16, time: u32) {
        let known = (1..=36).contains(&satellite);
        let args = [satellite.into(), week.into(), time];
        if let Some(number) = refusal(&[(2, !known), (3, week > 4095), (4, time > 604_799)]) {
            return list.add(GET, &[], args, Err(number), &[]);
        }
        match self.rust.get(Svn::try_from(satellite).unwrap(), Gst::new(week, time)) {
            None => list.add(GET, &[], args, Ok([0; 3]), &[]),
            Some((message, status)) => {
                let status = STATUSES.iter().position(|s| *s == status).unwrap() as u64;
                list.add(GET, &[], args, Ok([1, status, 0]), message);
            }
        }
    }
}

/// A place that is filled, times that come back, the ring twice round, refused calls between.
fn store(list: &mut List) {
    let mut store = Store { rust: FullMackStorage::new(), at: None, many: 0 };
    list.new_sequence();
    store.get(list, 1, 0, 0);
    for n in 0..40 {
        store.store(list, n % 36 + 1, 1200, 600, n % 4);
    }
    // the same satellite twice: the first is found
    store.get(list, 1, 1200, 600);
    for turn in 0..30 {
        let time = 630 + 30 * turn;
        store.store(list, 5, 1200, time, 2);
        store.store(list, 6, 1200, time, 4);
        store.store(list, 5, 1200, time, 1);
        // the time of two turns before comes back, and owns a second place
        if turn % 7 == 3 {
            store.store(list, 8, 1200, time - 60, 3);
            store.get(list, 5, 1200, time - 60);
            store.get(list, 8, 1200, time - 60);
        }
        let back = list.random.below(14) as u32;
        store.get(list, 5, 1200, time.saturating_sub(30 * back));
        store.get(list, 6, 1200, time);
        match turn % 4 {
            0 => store.store(list, 0, 1200, time, 1),
            1 => store.store(list, 37, 4096, time, 9),
            2 => store.store(list, 1, 4096, 604_800, 1),
            _ => store.get(list, 1, 1200, 604_800),
        }
    }
    store.get(list, 0, 1200, 630);
    store.get(list, 37, 4096, 630);
    store.get(list, 1, 4096, 604_800);
    store.get(list, 1, 1201, 630);
}

fn main() {
    let Some(path) = std::env::args().nth(1) else {
        eprintln!("usage: record_sequences FILE");
        exit(2)
    };
    let mut list = List { random: Random::new(1), bytes: Vec::new(), records: 0, refused: 0 };
    let mut pages = Pages::new();
    subframes(&mut list, &mut pages);
    silent(&mut list, &mut pages);
    dsms(&mut list);
    store(&mut list);
    if let Err(e) = std::fs::write(&path, &list.bytes) {
        eprintln!("record_sequences: {path}: {e}");
        exit(1)
    }
    println!("{} records, {} of them refused, {} bytes", list.records, list.refused, list.bytes.len());
}
