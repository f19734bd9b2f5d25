//! The subframe collector: `feed`, `feed_all`, the view, the question beside it, `came_out` and `hkroot_message`
//! against `CollectSubframe`.
use crate::probe::{Told, When};
use crate::sides::{Bad, HKROOT, Handed, Lent, MACK, Page, RIGHT, Sides, simpler_pages};
use differential::inputs::Random;
use differential::sequence::{Came, Pair};
use std::fmt;

#[derive(Clone)]
enum What {
    Page(Page),
    /// Entries of a trace, and how many bytes of a further one.
    Trace(Vec<Page>, usize),
}

#[derive(Clone)]
pub struct Call {
    what: What,
    lent: Lent,
}

impl fmt::Display for Call {
    fn fmt(&self, f: &mut fmt::Formatter<'_>) -> fmt::Result {
        match &self.what {
            What::Page(page) => write!(f, "feed {page}")?,
            What::Trace(pages, more) => {
                write!(f, "feed_all")?;
                pages.iter().try_for_each(|page| write!(f, " [{page}]"))?;
                write!(f, " and {more} bytes")?;
            }
        }
        let Lent { hkroot, mack, bad } = self.lent;
        if (hkroot, mack) != (HKROOT, MACK) {
            write!(f, " lent {hkroot} and {mack} bytes")?;
        }
        if let Some(bad) = bad { write!(f, " record with {bad:?}") } else { Ok(()) }
    }
}

pub struct Subframes {
    sides: Sides,
    calls: u64,
}

impl Subframes {
    /// What an answer to a page of that satellite came to.
    fn came(&self, answer: Told, satellite: u8) -> Came {
        match answer {
            Told { kind: 0, .. } => return Came::Nothing,
            Told { kind: 2, first, .. } => return Came::Refusal(first),
            _ => {}
        }
        let Handed { hkroot, mack, .. } = self.sides.out[usize::from(satellite) - 1].expect("a pair");
        let pair = [&hkroot[..], &mack[..]].concat();
        let loud: Vec<usize> = (0..75).filter(|place| pair[*place] != 0).collect();
        match loud[..] {
            [] => Came::Silent,
            [place] => Came::Nearly(place),
            _ => Came::Answer,
        }
    }

    /// What a call came to, and the satellite of its last page.
    fn feed(&mut self, call: &Call) -> Result<(Came, u8), String> {
        let of_last = |pages: &[Page]| pages.last().map_or(0, |page| page.when.satellite);
        match &call.what {
            What::Page(page) => {
                let answer = self.sides.feed(page, call.lent)?;
                Ok((self.came(answer, page.when.satellite), page.when.satellite))
            }
            What::Trace(pages, more) => {
                let (answer, consumed) = self.sides.feed_all(pages, *more, call.lent)?;
                Ok((self.came(answer, of_last(&pages[..consumed])), of_last(pages)))
            }
        }
    }
}

impl Pair for Subframes {
    type Call = Call;

    fn new(start: u64) -> Subframes {
        Subframes { sides: Sides::new(start), calls: 0 }
    }

    fn call(&mut self, call: &Call) -> Result<Came, String> {
        let (came, satellite) = self.feed(call)?;
        self.sides.compare()?;
        self.calls += 1;
        // the satellite of the call, one other, and now and then all, 0 and 37 among them
        let other = (self.calls % 38) as u8;
        let all = if self.calls % 32 == 0 { 0..38 } else { other..other + 1 };
        all.chain([satellite]).try_for_each(|satellite| self.sides.view(self.sides.record, RIGHT, satellite))?;
        Ok(came)
    }

    fn simpler(call: &Call) -> Vec<Call> {
        let mut simpler = Vec::new();
        match &call.what {
            What::Page(page) => {
                let pages = simpler_pages(page);
                simpler.extend(pages.into_iter().map(|page| Call { what: What::Page(page), ..call.clone() }));
            }
            What::Trace(pages, more) => {
                if let [page] = &pages[..] {
                    simpler.push(Call { what: What::Page(page.clone()), ..call.clone() });
                }
                for place in 0..pages.len() {
                    let mut fewer = pages.clone();
                    fewer.remove(place);
                    simpler.push(Call { what: What::Trace(fewer, *more), ..call.clone() });
                    for page in simpler_pages(&pages[place]) {
                        let mut others = pages.clone();
                        others[place] = page;
                        simpler.push(Call { what: What::Trace(others, *more), ..call.clone() });
                    }
                }
            }
        }
        if call.lent.bad.is_some() || call.lent.hkroot != HKROOT || call.lent.mack != MACK {
            simpler.push(Call { lent: RIGHT, ..call.clone() });
        }
        simpler
    }
}

/// Pages of a few satellites, nearly in order, disturbed as often as `trouble` (of 256) says. As often as `quiet` (of 256)
/// says, a satellite sends zeros in a subframe, or zeros but for one byte.
pub struct Source {
    satellites: Vec<u8>,
    week: u16,
    time: u32,
    next: usize,
    trouble: u64,
    quiet: u64,
    /// The present subframe, and what each satellite sends in it: random bytes, or zeros but for that byte of the 75.
    subframe: (u16, u32),
    zeros: [Option<usize>; 36],
    seen: Vec<(u16, u32)>,
    last: Option<Page>,
}

impl Source {
    pub fn new(random: &mut Random) -> Source {
        let many = random.pick(&[1, 1, 2, 3, 4, 36]);
        let satellites =
            if many == 36 { (1..=36).collect() } else { (0..many).map(|_| random.below(36) as u8 + 1).collect() };
        let week = random.pick(&[0, 0, 1, 1200, 4094, 4095]);
        let time = random.pick(&[0, 1, 30, 345_600, 604_740, 604_770, 604_771]);
        let trouble = random.pick(&[0, 1, 2, 5, 12, 40, 120]);
        let quiet = random.pick(&[0, 64, 128, 256]);
        let (subframe, zeros) = ((week, u32::MAX), [None; 36]);
        Source { satellites, week, time, next: 0, trouble, quiet, subframe, zeros, seen: Vec::new(), last: None }
    }

    fn bytes(&mut self, random: &mut Random, when: When) -> Vec<u8> {
        let subframe = (when.week, when.time / 30);
        if std::mem::replace(&mut self.subframe, subframe) != subframe {
            // there is no byte 75: the satellite is silent
            let zeros = |random: &mut Random| if random.below(2) == 0 { 75 } else { random.below(75) as usize };
            self.zeros = [(); 36].map(|()| (random.below(256) < self.quiet).then(|| zeros(random)));
        }
        let Some(loud) = self.zeros[usize::from(when.satellite) - 1] else { return random.bytes(5) };
        let mut bytes = vec![0; 5];
        if loud / 5 == (when.time / 2 % 15) as usize {
            bytes[loud % 5] = 1 << random.below(8);
        }
        bytes
    }

    fn page(&mut self, random: &mut Random) -> Page {
        let when = When { satellite: self.satellites[self.next], week: self.week, time: self.time };
        self.next += 1;
        if self.next == self.satellites.len() {
            self.next = 0;
            self.pass(2);
        }
        Page { bytes: self.bytes(random, when), when }
    }

    /// The page again or another word of its subframe, with the same bytes, others or zeros.
    fn copy(random: &mut Random, page: &Page) -> Page {
        let mut copy = page.clone();
        if random.below(2) == 0 {
            copy.when.time = page.when.time / 30 * 30 + 2 * random.below(15) as u32;
        }
        match random.below(3) {
            0 => copy.bytes = random.bytes(5),
            1 => copy.bytes = vec![0; 5],
            _ => {}
        }
        copy
    }

    fn pass(&mut self, seconds: i64) {
        let time = i64::from(self.time) + seconds;
        let week = i64::from(self.week) + time.div_euclid(604_800);
        (self.week, self.time) = (week.rem_euclid(4096) as u16, time.rem_euclid(604_800) as u32);
    }

    /// The clock jumps: by a word or a subframe, to the start of a subframe, by weeks, or to a time that was there.
    fn jump(&mut self, random: &mut Random) {
        match random.below(9) {
            0 => self.pass(-30),
            1 => self.pass(30),
            2 => self.pass(-2),
            3 => self.pass(2),
            4 => self.pass(1),
            5 => self.time -= self.time % 30,
            6 => self.week = random.pick(&[self.week.wrapping_sub(1), self.week + 1, self.week ^ 1, 0, 4095]) % 4096,
            7 => self.time = random.below(604_800) as u32,
            _ if !self.seen.is_empty() => (self.week, self.time) = random.pick(&self.seen),
            _ => {}
        }
    }

    fn lent(&self, random: &mut Random) -> Lent {
        let week = random.pick(&[4096, 4097, 32_768, 65_535]);
        let subframe = random.pick(&[20_160, 20_161, 65_535]);
        let place = random.below(36) as usize;
        let count = random.pick(&[16, 17, 128, 255]);
        let bad = random.pick(&[Bad::Week(week), Bad::Subframe(subframe), Bad::Count(place, count)]);
        match random.below(5) {
            0 => Lent { hkroot: random.pick(&[0, 15, 539, 541]), ..RIGHT },
            1 => Lent { mack: random.pick(&[0, 60, 2159, 2161]), ..RIGHT },
            2 => Lent { hkroot: 539, mack: 0, bad: Some(bad) },
            _ => Lent { bad: Some(bad), ..RIGHT },
        }
    }

    /// A page that is refused, by itself or by what is lent.
    fn refused(&mut self, random: &mut Random) -> (Page, Lent) {
        let mut page = self
            .last
            .clone()
            .unwrap_or(Page { bytes: random.bytes(5), when: When { satellite: 1, week: self.week, time: self.time } });
        let mut lent = RIGHT;
        for _ in 0..random.pick(&[1, 1, 1, 2, 3]) {
            match random.below(5) {
                0 => page.when.satellite = random.pick(&[0, 37, 38, 255]),
                1 => page.when.week = random.pick(&[4096, 5000, 65_535]),
                2 => page.when.time = random.pick(&[604_800, 604_801, 1 << 31, u32::MAX]),
                3 => page.bytes = random.bytes_of(&[0, 1, 4, 6, 30]),
                _ => lent = self.lent(random),
            }
        }
        (page, lent)
    }

    fn trace(&mut self, random: &mut Random) -> Call {
        let many = random.pick(&[0, 1, 2, 5, 14, 15, 40, 100]);
        let mut pages: Vec<Page> = (0..many).map(|_| self.page(random)).collect();
        if random.below(4) == 0 && !pages.is_empty() {
            let place = random.below(pages.len() as u64) as usize;
            pages.insert(place, Source::copy(random, &pages[place]));
        }
        if random.below(4) == 0 && !pages.is_empty() {
            let place = random.below(pages.len() as u64) as usize;
            let (mut page, _) = self.refused(random);
            page.bytes.resize(5, 0);
            pages[place] = page;
        }
        let more = if random.below(16) == 0 { random.pick(&[1, 11]) } else { 0 };
        let lent = if random.below(16) == 0 { self.lent(random) } else { RIGHT };
        Call { what: What::Trace(pages, more), lent }
    }

    pub fn call(&mut self, random: &mut Random) -> Call {
        if self.seen.len() < 8 && random.below(20) == 0 {
            self.seen.push((self.week, self.time));
        }
        if random.below(64) == 0 {
            return self.trace(random);
        }
        if random.below(256) < self.trouble {
            match random.below(4) {
                0 => self.jump(random),
                1 => {
                    // a loss
                    self.page(random);
                }
                2 => {
                    let (page, lent) = self.refused(random);
                    return Call { what: What::Page(page), lent };
                }
                _ => {
                    if let Some(page) = &self.last {
                        return Call { what: What::Page(Source::copy(random, page)), lent: RIGHT };
                    }
                }
            }
        }
        let page = self.page(random);
        self.last = Some(page.clone());
        Call { what: What::Page(page), lent: RIGHT }
    }
}
