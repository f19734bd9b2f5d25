//! The subframe collector on both sides: pages at `feed` and `feed_all` of the archive `probe` and at `CollectSubframe`, the record
//! and the lent bytes against the Rust's own fields, and the views against what the Rust handed out.
use crate::probe::{self, Buffers, SubframeRecord, Told, When};
use differential::fields::Fields;
use differential::inputs::Random;
use differential::sequence::{caught, hex, refusal};
use oracle::subframe::CollectSubframe;
use oracle::{Gst, Svn};
use std::fmt;

pub const HKROOT: usize = 540;
pub const MACK: usize = 2160;

#[derive(Clone, PartialEq, Eq)]
pub struct Page {
    pub bytes: Vec<u8>,
    pub when: When,
}

impl fmt::Display for Page {
    fn fmt(&self, f: &mut fmt::Formatter<'_>) -> fmt::Result {
        let When { satellite, week, time } = self.when;
        let word = time / 2 % 15;
        write!(f, "satellite {satellite} week {week} time {time} (word {word}) page {}", hex(&self.bytes))
    }
}

/// What the Rust handed out of a satellite, and the answer that it came to.
#[derive(Clone, Copy, PartialEq, Eq)]
pub struct Handed {
    pub hkroot: [u8; 15],
    pub mack: [u8; 60],
    pub answer: Told,
}

/// What makes a record a bad one.
#[derive(Clone, Copy, Debug)]
pub enum Bad {
    Week(u16),
    Subframe(u16),
    Count(usize, u8),
}

impl Bad {
    fn apply(self, record: &mut SubframeRecord) {
        match self {
            Bad::Week(n) => record.week = n,
            Bad::Subframe(n) => record.subframe = n,
            Bad::Count(place, n) => record.counts[place] = n,
        }
    }
}

/// What is lent to a call: lengths of the buffers, and whether the record is a bad one.
#[derive(Clone, Copy, Debug)]
pub struct Lent {
    pub hkroot: usize,
    pub mack: usize,
    pub bad: Option<Bad>,
}

pub const RIGHT: Lent = Lent { hkroot: HKROOT, mack: MACK, bad: None };

#[derive(Clone)]
pub struct Sides {
    pub rust: CollectSubframe,
    fields: Fields,
    pub record: SubframeRecord,
    /// The lent bytes, and one behind them.
    pub hkroot: Vec<u8>,
    pub mack: Vec<u8>,
    /// Whether the Rust began with the same bytes: all are compared then, else those that a count reaches.
    pub alike: bool,
    /// The Rust's week and subframe, and what it handed out since they changed.
    at: (u64, u64),
    pub out: Vec<Option<Handed>>,
}

impl Sides {
    /// Both as new. `start` says what the lent memory holds: 0 for zeros, else random bytes from that seed.
    pub fn new(start: u64) -> Sides {
        let mut random = Random::new(start);
        let mut lent = |many| if start == 0 { vec![0; many] } else { random.bytes(many) };
        let (mut hkroot, mut mack) = (lent(HKROOT), lent(MACK));
        hkroot.push(0xa5);
        mack.push(0xa5);
        let (rust, record) = (CollectSubframe::new(), probe::subframe_new());
        let (fields, out) = (Fields::default(), vec![None; 36]);
        Sides { rust, fields, record, hkroot, mack, alike: start == 0, at: (0, 0), out }
    }

    /// One admitted page at the Rust: the answer that document 01 makes of it, and request 2 of a pair of zeros.
    fn ask(&mut self, page: &Page) -> Result<Told, String> {
        let When { satellite, week, time } = page.when;
        let bytes: &[u8; 5] = page.bytes[..].try_into().unwrap();
        let rust = &mut self.rust;
        let said = caught(|| {
            let svn = Svn::try_from(satellite).unwrap();
            rust.feed(bytes, svn, Gst::new(week, time)).map(|(h, m, gst)| (*h, *m, gst))
        })?;
        self.fields.read(&self.rust);
        let now = (self.fields.numbers[0], self.fields.numbers[1]);
        if std::mem::replace(&mut self.at, now) != now {
            self.out.fill(None);
        }
        Ok(match said {
            None => Told::NOTHING,
            Some((hkroot, mack, gst)) => {
                let silent = hkroot == [0; 15] && mack == [0; 60];
                let answer = Told::given(gst.wn().into(), gst.tow().into(), silent.into());
                self.out[usize::from(satellite) - 1] = Some(Handed { hkroot, mack, answer });
                answer
            }
        })
    }

    /// The record that goes with what is lent.
    fn record(&self, lent: Lent) -> SubframeRecord {
        let mut record = self.record;
        if let Some(bad) = lent.bad {
            bad.apply(&mut record);
        }
        record
    }

    /// A page at both: the answer, which is the expected one.
    pub fn feed(&mut self, page: &Page, lent: Lent) -> Result<Told, String> {
        let record = self.record(lent);
        let number = page_refusal(page, lent);
        let before = (number != 0).then(|| (record, self.hkroot.clone(), self.mack.clone()));
        let expected = if number == 0 { self.ask(page)? } else { Told::refused(number) };
        let buffers = Buffers { hkroot: &mut self.hkroot[..lent.hkroot], mack: &mut self.mack[..lent.mack] };
        let called = probe::subframe_feed(record, buffers, &page.bytes, page.when);
        if called.answer != expected {
            return Err(format!("the port answers {:?}, expected {expected:?}", called.answer));
        }
        match before {
            None => self.record = called.collector,
            Some(before) => {
                unchanged(before == (called.collector, self.hkroot.clone(), self.mack.clone()))?;
                self.view(record, lent, page.when.satellite)?;
            }
        }
        Ok(expected)
    }

    /// A trace at the Rust, page by page: the answer, and how many pages were taken.
    fn ask_all(&mut self, pages: &[Page]) -> Result<(Told, usize), String> {
        for (consumed, page) in pages.iter().enumerate() {
            let number = page_refusal(page, RIGHT);
            if number != 0 {
                return Ok((if consumed == 0 { Told::refused(number) } else { Told::NOTHING }, consumed));
            }
            let answer = self.ask(page)?;
            if answer.kind == 1 {
                return Ok((answer, consumed + 1));
            }
        }
        Ok((Told::NOTHING, pages.len()))
    }

    /// A trace at both, with so many bytes behind its entries: the answer and how many pages were taken, which are the expected ones.
    pub fn feed_all(&mut self, pages: &[Page], more: usize, lent: Lent) -> Result<(Told, usize), String> {
        let record = self.record(lent);
        let trace = trace(pages, more);
        let number =
            refusal([(1, more != 0), (1, lent.hkroot != HKROOT), (1, lent.mack != MACK), (12, lent.bad.is_some())]);
        let before = (record, self.hkroot.clone(), self.mack.clone());
        let (expected, consumed) = if number == 0 { self.ask_all(pages)? } else { (Told::refused(number), 0) };
        let buffers = Buffers { hkroot: &mut self.hkroot[..lent.hkroot], mack: &mut self.mack[..lent.mack] };
        let traced = probe::subframe_feed_all(record, buffers, &trace);
        if (traced.answer, traced.consumed) != (expected, consumed as u64) {
            let (answer, many) = (traced.answer, traced.consumed);
            return Err(format!("the port answers {answer:?} after {many}, expected {expected:?} after {consumed}"));
        }
        if expected.kind == 2 {
            unchanged(before == (traced.collector, self.hkroot.clone(), self.mack.clone()))?;
        } else {
            self.record = traced.collector;
        }
        Ok((expected, consumed))
    }

    /// The record and the memory against the Rust's own fields.
    pub fn compare(&mut self) -> Result<(), String> {
        self.fields.read(&self.rust);
        let (memory, counts) = self.fields.bytes.split_at(HKROOT + MACK);
        let rust = (self.fields.numbers[0], self.fields.numbers[1], counts);
        let port = (u64::from(self.record.week), u64::from(self.record.subframe), &self.record.counts[..]);
        if rust != port {
            return Err(format!("week, subframe, counts: the port has {port:?}, the Rust {rust:?}"));
        }
        let (hkroot, mack) = memory.split_at(HKROOT);
        let same = |ours: &[u8], theirs: &[u8], size: usize| {
            self.alike && ours == theirs
                || !self.alike
                    && counts.iter().enumerate().all(|(i, n)| {
                        let part = size * 15 * i..size * (15 * i + usize::from(*n));
                        ours[part.clone()] == theirs[part]
                    })
        };
        if !same(&self.hkroot[..HKROOT], hkroot, 1) || !same(&self.mack[..MACK], mack, 4) {
            return Err("the lent bytes are not the Rust's".to_string());
        }
        if self.hkroot[HKROOT..] != [0xa5; 1] || self.mack[MACK..] != [0xa5; 1] {
            return Err("a byte behind the lent ones was written".to_string());
        }
        Ok(())
    }

    /// The views of a satellite, and what is said to have come out, against what the Rust handed out.
    pub fn view(&self, record: SubframeRecord, lent: Lent, satellite: u8) -> Result<(), String> {
        let number = refusal([
            (1, lent.hkroot != HKROOT),
            (1, lent.mack != MACK),
            (12, lent.bad.is_some()),
            (2, !(1..=36).contains(&satellite)),
        ]);
        let held = if number == 0 { self.out[usize::from(satellite) - 1] } else { None };
        let (h, m) = (&self.hkroot[..lent.hkroot], &self.mack[..lent.mack]);
        let out = probe::subframe_came_out(record, h, m, satellite);
        let nothing = if number == 0 { Told::NOTHING } else { Told::refused(number) };
        let answer = held.map_or(nothing, |pair| pair.answer);
        if out != answer {
            return Err(format!("came_out of {satellite}: {out:?}, expected {answer:?}"));
        }
        let shown = self.shown(record, lent, satellite, (number, held), false)?;
        let message = probe::subframe_hkroot_message(record, h, m, satellite);
        if message.answer != shown || message.bytes != held.map_or([0; 15], |pair| pair.hkroot) {
            return Err(format!("hkroot_message of {satellite}: {:?}", message.answer));
        }
        self.shown(record, lent, satellite, (number, held), true).map(|_| ())
    }

    /// The view of HKROOT or MACK, of which the refusal number or what the Rust handed out is known; its answer.
    fn shown(
        &self,
        record: SubframeRecord,
        lent: Lent,
        satellite: u8,
        (number, held): (u64, Option<Handed>),
        of_mack: bool,
    ) -> Result<Told, String> {
        let size = if of_mack { 60 } else { 15 };
        let mut expected = [0x5a; 64];
        let answer = match held {
            _ if number != 0 => Told::refused(number),
            None => Told::NOTHING,
            Some(Handed { hkroot, mack, .. }) => {
                expected[..size].copy_from_slice(if of_mack { &mack } else { &hkroot });
                Told::given(size as u64 * (u64::from(satellite) - 1), size as u64, 0)
            }
        };
        let mut out = [0x5a; 64];
        let (h, m) = (&self.hkroot[..lent.hkroot], &self.mack[..lent.mack]);
        let told = probe::subframe_view(record, h, m, of_mack, satellite, &mut out);
        if told == answer && out == expected {
            return Ok(answer);
        }
        Err(format!("view of {satellite}: {told:?} {}, expected {answer:?}", hex(&out[..size])))
    }
}

fn unchanged(same: bool) -> Result<(), String> {
    if same { Ok(()) } else { Err("a refused call changed the record or the memory".to_string()) }
}

/// "Order: 1, 12, 2, 3, 4".
pub fn page_refusal(page: &Page, lent: Lent) -> u64 {
    let When { satellite, week, time } = page.when;
    refusal([
        (1, page.bytes.len() != 5),
        (1, lent.hkroot != HKROOT),
        (1, lent.mack != MACK),
        (12, lent.bad.is_some()),
        (2, !(1..=36).contains(&satellite)),
        (3, week > 4095),
        (4, time > 604_799),
    ])
}

fn trace(pages: &[Page], more: usize) -> Vec<u8> {
    let mut bytes = Vec::new();
    for page in pages {
        let When { satellite, week, time } = page.when;
        bytes.push(satellite);
        bytes.extend(week.to_be_bytes());
        bytes.extend(time.to_be_bytes());
        bytes.extend(&page.bytes);
    }
    bytes.resize(bytes.len() + more, 0);
    bytes
}

pub fn simpler_pages(page: &Page) -> Vec<Page> {
    let mut pages = Vec::new();
    let When { satellite, week, time } = page.when;
    let whens = [
        When { satellite: 1, ..page.when },
        When { week: 0, ..page.when },
        When { time: time % 30, ..page.when },
        When { time: time - time % 2, ..page.when },
        When { time: time.saturating_sub(30), ..page.when },
    ];
    let smaller = |w: &&When| (w.satellite, w.week, w.time) < (satellite, week, time);
    pages.extend(whens.iter().filter(smaller).map(|when| Page { when: *when, ..page.clone() }));
    for place in 0..page.bytes.len() {
        if page.bytes[place] > 0 {
            let mut zero = page.clone();
            zero.bytes[place] = 0;
            pages.push(zero);
        }
    }
    pages
}
