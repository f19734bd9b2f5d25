//! Pages of a few satellites, mostly in order, and questions about them. In each subframe a satellite sends a MACK that fits the
//! table of its sequence, one of any bytes, zeros, or zeros but for one byte of the pair.
use crate::complete::{Call, Change, HKROOT, MACK, Page, Question};
use crate::probe::When;
use crate::recorder::Sizes;
use crate::source::{listed_id, other_id, other_satellite, sizes, spoil_sizes};
use differential::inputs::Random;
use differential::slots::{CONSTELLATION, fitted, slots_of};

/// What a satellite sends in a subframe.
type Bytes = ([u8; 15], [u8; 60]);

pub struct Source {
    satellites: Vec<u8>,
    week: u16,
    time: u32,
    next: usize,
    /// The pages that are disturbed, of 256.
    trouble: u64,
    maclt: u8,
    sizes: Sizes,
    subframe: (u16, u32),
    sent: Vec<Bytes>,
    last: Option<Page>,
}

impl Source {
    pub fn new(random: &mut Random) -> Source {
        let maclt = listed_id(random);
        Source {
            satellites: (0..random.pick(&[1, 1, 2, 3, 5])).map(|_| 1 + random.below(36) as u8).collect(),
            week: random.pick(&[0, 1, 1200, 4094, 4095]),
            time: random.pick(&[0, 30, 345_600, 345_630, 604_710, 604_740, 604_770]),
            next: 0,
            trouble: random.pick(&[0, 0, 2, 6, 20]),
            maclt,
            sizes: sizes(random, maclt),
            subframe: (0, u32::MAX),
            sent: Vec::new(),
            last: None,
        }
    }

    /// What that satellite sends in the present subframe.
    fn pair(&self, random: &mut Random, satellite: u8) -> Bytes {
        let (mut hkroot, mut mack) = ([0; 15], [0; 60]);
        match random.below(8) {
            0 => {}
            1 => {
                let (place, byte) = (random.below(75) as usize, 1 << random.below(8));
                hkroot.iter_mut().chain(&mut mack).skip(place).take(1).for_each(|there| *there = byte);
            }
            shape => {
                let slots = slots_of(self.maclt, (self.subframe.1 % 2) as usize);
                // none of the slots: any bytes
                let slots = if shape > 3 { &slots[..] } else { &[] };
                hkroot.copy_from_slice(&random.bytes(15));
                mack.copy_from_slice(&fitted(random, self.sizes.pair(), satellite, CONSTELLATION, slots));
            }
        }
        (hkroot, mack)
    }

    fn page(&mut self, random: &mut Random) -> Page {
        let subframe = (self.week, self.time / 30);
        if std::mem::replace(&mut self.subframe, subframe) != subframe {
            self.sent = self.satellites.iter().map(|satellite| self.pair(random, *satellite)).collect();
        }
        let when = When { satellite: self.satellites[self.next], week: self.week, time: self.time };
        let (hkroot, mack) = &self.sent[self.next];
        let word = (self.time / 2 % 15) as usize;
        let mut bytes = [hkroot[word]; 5];
        bytes[1..].copy_from_slice(&mack[4 * word..][..4]);
        self.next += 1;
        if self.next == self.satellites.len() {
            self.next = 0;
            self.pass(2);
        }
        Page { bytes, when }
    }

    fn pass(&mut self, seconds: i64) {
        let time = i64::from(self.time) + seconds;
        let week = i64::from(self.week) + time.div_euclid(604_800);
        (self.week, self.time) = (week.rem_euclid(4096) as u16, time.rem_euclid(604_800) as u32);
    }

    /// A loss, a jump by a subframe or a week, or to the week's last subframe.
    fn disturb(&mut self, random: &mut Random) {
        match random.below(6) {
            0 | 1 => {
                self.page(random);
            }
            2 => self.pass(30),
            3 => self.pass(-30),
            4 => self.week = (self.week + 1) % 4096,
            _ => self.time = 604_770,
        }
    }

    /// The last page again, with the same bytes, others or zeros.
    fn repeat(&self, random: &mut Random) -> Option<Page> {
        let mut page = self.last.clone()?;
        match random.below(3) {
            0 => page.bytes = [0; 5],
            1 => page.bytes.copy_from_slice(&random.bytes(5)),
            _ => {}
        }
        Some(page)
    }

    /// A legal change of the record, or one that is not.
    fn change(random: &mut Random, satellite: u8) -> Change {
        let place = random.below(36) as usize;
        let own = usize::from(satellite).clamp(1, 36) - 1;
        match random.below(6) {
            0 => Change::Week(random.pick(&[0, 4095, 4096, 65_535])),
            1 => Change::Subframe(random.pick(&[0, 1, 20_158, 20_159, 20_160, 65_535])),
            2 => Change::Count(place, random.pick(&[0, 14, 15, 16, 255])),
            _ => Change::Count(own, random.pick(&[0, 14, 15, 15, 16, 31, 255])),
        }
    }

    /// Makes a question such as is to be refused, or asked of another record, mostly.
    fn spoil(random: &mut Random, question: &mut Question) {
        for _ in 0..random.pick(&[1, 1, 2, 2, 3, 6]) {
            match random.below(7) {
                0 => question.lent.0 = random.pick(&[0, 15, HKROOT - 1, HKROOT + 1]),
                1 => question.lent.1 = random.pick(&[0, 60, MACK - 1, MACK + 1]),
                2 => question.satellite = other_satellite(random),
                3 => spoil_sizes(random, &mut question.sizes),
                4 => question.maclt = other_id(random),
                _ => question.changes.push(Source::change(random, question.satellite)),
            }
        }
    }

    /// About a satellite, mostly one of the sequence, with its table and sizes or with others.
    fn question(&self, random: &mut Random) -> Question {
        let any = 1 + random.below(36) as u8;
        let own = random.pick(&self.satellites);
        let satellite = random.pick(&[own, own, own, own, own, own, own, any]);
        let (mut maclt, mut of) = (self.maclt, self.sizes);
        if random.below(4) == 0 {
            maclt = listed_id(random);
            of = sizes(random, maclt);
        }
        let mut question = Question { satellite, sizes: of, maclt, lent: (HKROOT, MACK), changes: Vec::new() };
        if random.below(6) == 0 {
            Source::spoil(random, &mut question);
        }
        question
    }

    pub fn call(&mut self, random: &mut Random) -> Call {
        let mut repeated = None;
        if random.below(256) < self.trouble {
            match random.below(2) {
                0 => self.disturb(random),
                _ => repeated = self.repeat(random),
            }
        }
        let page = repeated.unwrap_or_else(|| self.page(random));
        self.last = Some(page.clone());
        // most at the last word, when pairs are there
        let many = if page.when.time / 2 % 15 == 14 { 4 } else { 1 };
        let questions = (0..many).map(|_| self.question(random)).collect();
        Call { page, questions }
    }
}
