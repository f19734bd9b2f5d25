//! `walk_complete` behind the subframe collector: pages are fed to `CollectSubframe` and to the port's, and after each the pairs of
//! some satellites are asked about.
use crate::call::Call as Walk;
use crate::judge;
use crate::model;
use crate::probe::{self, Buffers, SubframeRecord, Told, When};
use crate::recorder::{self, Sizes, WalkTold};
use crate::tally::{Answers, Refusals};
use differential::inputs::Random;
use differential::sequence::{Came, Pair, caught, hex, refusal};
use oracle::subframe::CollectSubframe;
use oracle::{Gst, Svn};
use std::fmt;

pub const HKROOT: usize = 540;
pub const MACK: usize = 2160;

#[derive(Clone)]
pub struct Page {
    pub bytes: [u8; 5],
    pub when: When,
}

/// A number of the record that is another one for a question.
#[derive(Clone, Copy, Debug)]
pub enum Change {
    Week(u16),
    Subframe(u16),
    Count(usize, u8),
}

#[derive(Clone)]
pub struct Question {
    pub satellite: u8,
    pub sizes: Sizes,
    pub maclt: u8,
    /// How many bytes are lent of each buffer.
    pub lent: (usize, usize),
    pub changes: Vec<Change>,
}

/// A page, and what is asked after it.
#[derive(Clone)]
pub struct Call {
    pub page: Page,
    pub questions: Vec<Question>,
}

impl fmt::Display for Question {
    fn fmt(&self, f: &mut fmt::Formatter<'_>) -> fmt::Result {
        let Question { satellite, sizes: Sizes { key, tag }, maclt, lent, changes } = self;
        write!(f, "walk_complete of {satellite}, key {key} bytes, tag {tag} bits, table {maclt}")?;
        if *lent != (HKROOT, MACK) {
            write!(f, ", lent {} and {} bytes", lent.0, lent.1)?;
        }
        if changes.is_empty() { Ok(()) } else { write!(f, ", the record with {changes:?}") }
    }
}

impl fmt::Display for Call {
    fn fmt(&self, f: &mut fmt::Formatter<'_>) -> fmt::Result {
        let When { satellite, week, time } = self.page.when;
        write!(f, "feed satellite {satellite} week {week} time {time} page {}", hex(&self.page.bytes))?;
        self.questions.iter().try_for_each(|question| write!(f, "; {question}"))
    }
}

/// What came up in questions.
#[derive(Default)]
pub struct Counts {
    pub pages: u64,
    pub asked: u64,
    /// Pairs that were judged, by message number; the record as the collector has it.
    pub judged: [u64; 2],
    pub answers: Answers,
    pub silent: u64,
    pub incomplete: u64,
    pub refusals: Refusals,
    /// Questions with another record than the collector's, which is none to be refused.
    pub changed: u64,
}

pub struct Recorder {
    rust: CollectSubframe,
    record: SubframeRecord,
    hkroot: Vec<u8>,
    mack: Vec<u8>,
    /// Week and subframe of the last page, and what the Rust handed out since they changed.
    at: (u16, u32),
    out: Vec<Option<([u8; 15], [u8; 60], Gst)>>,
    pub counts: Counts,
}

impl Recorder {
    /// The page at both collectors, which must answer alike.
    fn feed(&mut self, page: &Page) -> Result<(), String> {
        let When { satellite, week, time } = page.when;
        let rust = &mut self.rust;
        let said = caught(|| {
            let svn = Svn::try_from(satellite).expect("a satellite");
            rust.feed(&page.bytes, svn, Gst::new(week, time)).map(|(h, m, gst)| (*h, *m, gst))
        })?;
        let now = (week, time / 30);
        if std::mem::replace(&mut self.at, now) != now {
            self.out.fill(None);
        }
        let mut expected = Told::NOTHING;
        if let Some((h, m, gst)) = said {
            let silent = h == [0; 15] && m == [0; 60];
            expected = Told::given(gst.wn().into(), gst.tow().into(), silent.into());
            self.out[usize::from(satellite) - 1] = said;
        }
        let lent = Buffers { hkroot: &mut self.hkroot[..HKROOT], mack: &mut self.mack[..MACK] };
        let called = probe::subframe_feed(self.record, lent, &page.bytes, page.when);
        self.record = called.collector;
        self.counts.pages += 1;
        if called.answer == expected {
            return Ok(());
        }
        Err(format!("the collector answers {:?}, expected {expected:?}", called.answer))
    }

    /// What the walk of the MACK is that the Rust handed out for the satellite in this subframe, at the time that it handed out.
    fn expected(&self, question: &Question) -> Result<WalkTold, String> {
        let Question { satellite: sender, sizes, maclt, .. } = *question;
        let Some((h, m, gst)) = self.out[usize::from(sender) - 1] else { return Ok(WalkTold::NOTHING) };
        if h == [0; 15] && m == [0; 60] {
            return Ok(WalkTold::NOTHING);
        }
        let msg = (gst.tow() / 30 % 2) as usize;
        judge::walk(&Walk { mack: m.to_vec(), sizes, sender, maclt, msg }, Some(gst)).map(|(told, _)| told)
    }

    fn count(&mut self, question: &Question, record: &SubframeRecord, told: &WalkTold) {
        let counts = &mut self.counts;
        counts.asked += 1;
        match told.slots.kind {
            2 => counts.refusals.add(told.slots.first, &model::complete_checks(record, question)),
            _ if !question.changes.is_empty() => counts.changed += 1,
            1 => {
                counts.judged[usize::from(record.subframe % 2)] += 1;
                counts.answers.add(told, question.sizes);
            }
            _ if record.counts[usize::from(question.satellite) - 1] == 15 => counts.silent += 1,
            _ => counts.incomplete += 1,
        }
    }

    fn ask(&mut self, question: &Question) -> Result<(), String> {
        let mut record = self.record;
        for change in &question.changes {
            match *change {
                Change::Week(week) => record.week = week,
                Change::Subframe(subframe) => record.subframe = subframe,
                Change::Count(place, count) => record.counts[place] = count,
            }
        }
        let (h, m) = (&self.hkroot[..question.lent.0], &self.mack[..question.lent.1]);
        let told = recorder::walk_complete(record, h, m, question.satellite, question.sizes, question.maclt);
        let model = model::complete(&record, h, m, question);
        if told != model {
            return Err(format!("{question}: the port answers {told:?}, document 02 asks for {model:?}"));
        }
        if refusal(model::complete_checks(&record, question)) == 0 && question.changes.is_empty() {
            let expected = self.expected(question)?;
            if told != expected {
                return Err(format!("{question}: the port answers {told:?}, of the Rust's pair {expected:?}"));
            }
        }
        self.count(question, &record, &told);
        Ok(())
    }
}

impl Pair for Recorder {
    type Call = Call;

    fn new(start: u64) -> Recorder {
        let mut random = Random::new(start);
        let mut lent = |many| if start == 0 { vec![0; many] } else { random.bytes(many) };
        Recorder {
            rust: CollectSubframe::new(),
            record: probe::subframe_new(),
            hkroot: lent(HKROOT + 1),
            mack: lent(MACK + 1),
            at: (0, 0),
            out: vec![None; 36],
            counts: Counts::default(),
        }
    }

    fn call(&mut self, call: &Call) -> Result<Came, String> {
        self.feed(&call.page)?;
        call.questions.iter().try_for_each(|question| self.ask(question))?;
        Ok(Came::Answer)
    }

    fn simpler(call: &Call) -> Vec<Call> {
        let mut simpler = Vec::new();
        for place in 0..call.questions.len() {
            let mut fewer = call.clone();
            fewer.questions.remove(place);
            simpler.push(fewer);
            if !call.questions[place].changes.is_empty() {
                let mut plain = call.clone();
                plain.questions[place].changes.pop();
                simpler.push(plain);
            }
        }
        for place in (0..5).filter(|place| call.page.bytes[*place] != 0) {
            let mut zero = call.clone();
            zero.page.bytes[place] = 0;
            simpler.push(zero);
        }
        simpler
    }
}
