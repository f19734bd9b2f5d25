//! The MACK store: `store` and `get` against `MackStorage`.
use crate::probe::{self, StoreRecord, Told, When};
use crate::{caught, hex, refusal};
use differential::fields::Fields;
use differential::inputs::Random;
use differential::sequence::{Came, Pair};
use oracle::bitfields::NmaStatus;
use oracle::{FullMackStorage, Gst, Svn};
use std::fmt;

const MEMORY: usize = 25_920;
const STATUSES: [NmaStatus; 4] = [NmaStatus::Reserved, NmaStatus::Test, NmaStatus::Operational, NmaStatus::DontUse];

/// What makes a record a bad one, at a place: a place that has messages, where one is needed.
#[derive(Clone, Copy, Debug)]
enum Bad {
    Current(u8),
    Count(usize, u8),
    NoTime(usize),
    Week(usize, u16),
    Time(usize, u32),
    Satellite(usize, u8),
    Status(usize, u8),
}

impl Bad {
    /// The record with this fault, if the place has a message for it.
    fn of(self, from: &StoreRecord) -> Option<StoreRecord> {
        let mut record = *from;
        match self {
            Bad::Current(n) => record.current = n,
            Bad::Count(p, n) => record.counts[p] = n,
            Bad::NoTime(p) => {
                record.timed[p] = false;
                record.counts[p] = record.counts[p].max(1);
            }
            Bad::Week(p, n) if record.timed[p] => record.weeks[p] = n,
            Bad::Time(p, n) if record.timed[p] => record.tows[p] = n,
            Bad::Satellite(p, n) if record.counts[p] > 0 => {
                record.satellites[36 * p + usize::from(record.counts[p]) - 1] = n
            }
            Bad::Status(p, n) if record.counts[p] > 0 => record.statuses[36 * p] = n,
            _ => return None,
        }
        Some(record)
    }
}

#[derive(Clone)]
enum What {
    Store { message: Vec<u8>, status: u8, lent: usize },
    Get,
}

#[derive(Clone)]
pub struct Call {
    what: What,
    when: When,
    bad: Option<Bad>,
}

impl fmt::Display for Call {
    fn fmt(&self, f: &mut fmt::Formatter<'_>) -> fmt::Result {
        let When { satellite, week, time } = self.when;
        match &self.what {
            What::Get => write!(f, "get satellite {satellite} week {week} time {time}")?,
            What::Store { message, status, lent } => {
                write!(f, "store satellite {satellite} week {week} time {time} status {status} {}", hex(message))?;
                if *lent != MEMORY {
                    write!(f, " lent {lent} bytes")?;
                }
            }
        }
        if let Some(bad) = self.bad { write!(f, " record with {bad:?}") } else { Ok(()) }
    }
}

pub struct Stores {
    rust: FullMackStorage,
    fields: Fields,
    record: StoreRecord,
    memory: Vec<u8>,
    /// Some of the times and satellites that were stored.
    known: Vec<When>,
    calls: usize,
}

impl Stores {
    /// Whether the current place has this time and 36 messages, by the Rust's own fields.
    fn full(&mut self, when: When) -> bool {
        self.fields.read(&self.rust);
        let places = places(&self.fields);
        let place = &places[*self.fields.lengths.last().unwrap()];
        place.time == Some((when.week.into(), when.time.into())) && place.messages.len() == 36
    }

    fn store(&mut self, message: &[u8], status: u8, lent: usize, call: &Call) -> Result<Came, String> {
        let record = call.bad.and_then(|bad| bad.of(&self.record));
        let when = call.when;
        let mut number = refusal([
            (1, lent != MEMORY),
            (1, message.len() != 60),
            (12, record.is_some()),
            (2, !(1..=36).contains(&when.satellite)),
            (3, when.week > 4095),
            (4, when.time > 604_799),
            (7, status > 3),
        ]);
        if number == 0 && self.full(when) {
            number = 10;
        }
        let record = record.unwrap_or(self.record);
        let before = if number == 0 { Vec::new() } else { self.memory.clone() };
        let stored = probe::store_store(record, &mut self.memory[..lent], message, when, status);
        let expected = if number == 0 { Told::given(0, 0, 0) } else { Told::refused(number) };
        if stored.answer != expected {
            return Err(format!("the port answers {:?}, expected {expected:?}", stored.answer));
        }
        if number != 0 {
            if before != self.memory || stored.storage != record {
                return Err("a refused call changed the record or the memory".to_string());
            }
            return Ok(Came::Refusal(number));
        }
        self.record = stored.storage;
        let message: &[u8; 60] = message.try_into().unwrap();
        let rust = &mut self.rust;
        caught(|| rust.store(message, svn(when), Gst::new(when.week, when.time), STATUSES[usize::from(status)]))?;
        let place = self.calls % 64;
        if place < self.known.len() {
            self.known[place] = when;
        } else {
            self.known.push(when);
        }
        Ok(Came::Answer)
    }

    fn get(&self, when: When, bad: Option<Bad>) -> Result<Came, String> {
        let record = bad.and_then(|bad| bad.of(&self.record));
        let number = refusal([
            (12, record.is_some()),
            (2, !(1..=36).contains(&when.satellite)),
            (3, when.week > 4095),
            (4, when.time > 604_799),
        ]);
        let told = probe::store_get(record.unwrap_or(self.record), when.satellite, when.week, when.time);
        if number != 0 {
            return if told == Told::refused(number) {
                Ok(Came::Refusal(number))
            } else {
                Err(format!("get: the port answers {told:?}, expected the refusal {number}"))
            };
        }
        let said = caught(|| self.rust.get(svn(when), Gst::new(when.week, when.time)))?;
        let found = (told.kind == 1).then(|| (&self.memory[told.first as usize..][..60], told.second));
        let said = said.map(|(message, status)| (&message[..], status_number(status)));
        if told.kind > 1 || found != said {
            return Err(format!("get of {when:?}: the port answers {told:?}, the Rust {said:?}"));
        }
        Ok(if told.kind == 1 { Came::Answer } else { Came::Nothing })
    }

    /// The record and the memory against the Rust's own fields.
    fn compare(&mut self) -> Result<(), String> {
        self.fields.read(&self.rust);
        let current = *self.fields.lengths.last().unwrap();
        if current != usize::from(self.record.current) {
            return Err(format!("current place: the port has {}, the Rust {current}", self.record.current));
        }
        for (p, place) in places(&self.fields).iter().enumerate() {
            let record = &self.record;
            let time = record.timed[p].then(|| (record.weeks[p].into(), record.tows[p].into()));
            let many = usize::from(record.counts[p]);
            let ours = (0..many).map(|j| (record.satellites[36 * p + j].into(), record.statuses[36 * p + j].into()));
            let same = ours.eq(place.messages.iter().map(|m| (m.satellite, m.status)))
                && (0..many).all(|j| self.memory[60 * (36 * p + j)..][..60] == *place.messages[j].bytes);
            if time != place.time || !same {
                return Err(format!("place {p}: the port has time {time:?} and {many} messages, the Rust others"));
            }
        }
        Ok(())
    }
}

struct Message<'a> {
    satellite: u64,
    status: u64,
    bytes: &'a [u8],
}

struct Place<'a> {
    time: Option<(u64, u64)>,
    messages: Vec<Message<'a>>,
}

/// The twelve places of the Rust: 432 messages, each none or a satellite and a status, then twelve times.
fn places(fields: &Fields) -> Vec<Place<'_>> {
    let mut numbers = fields.numbers.iter().copied();
    let mut number = || numbers.next().unwrap();
    let mut bytes = fields.bytes.chunks(60);
    let mut places: Vec<Place> = (0..12).map(|_| Place { time: None, messages: Vec::new() }).collect();
    for slot in 0..432 {
        if number() == 1 {
            let (satellite, status) = (number(), number());
            places[slot / 36].messages.push(Message { satellite, status, bytes: bytes.next().unwrap() });
        }
    }
    for place in &mut places {
        if number() == 1 {
            place.time = Some((number(), number()));
        }
    }
    places
}

fn svn(when: When) -> Svn {
    Svn::try_from(when.satellite).unwrap()
}

fn status_number(status: NmaStatus) -> u64 {
    STATUSES.iter().position(|s| *s == status).unwrap() as u64
}

impl Pair for Stores {
    type Call = Call;

    fn new(start: u64) -> Stores {
        let memory = if start == 0 { vec![0; MEMORY + 1] } else { Random::new(start).bytes(MEMORY + 1) };
        let (rust, record) = (FullMackStorage::new(), probe::store_new());
        Stores { rust, fields: Fields::default(), record, memory, known: Vec::new(), calls: 0 }
    }

    fn call(&mut self, call: &Call) -> Result<Came, String> {
        let behind = self.memory[MEMORY];
        let came = match &call.what {
            What::Get => self.get(call.when, call.bad)?,
            What::Store { message, status, lent } => self.store(message, *status, *lent, call)?,
        };
        self.compare()?;
        if self.memory[MEMORY] != behind {
            return Err("a byte behind the lent ones was written".to_string());
        }
        self.calls += 1;
        // what was just stored, and one that was stored before
        self.get(call.when, None)?;
        if let Some(when) = self.known.get(self.calls * 7 % 64) {
            self.get(*when, None)?;
            self.get(When { satellite: call.when.satellite, ..*when }, None)?;
        }
        Ok(came)
    }

    fn simpler(call: &Call) -> Vec<Call> {
        let mut simpler = Vec::new();
        let When { satellite, week, time } = call.when;
        for when in
            [When { satellite: 1, ..call.when }, When { week: 0, ..call.when }, When { time: time % 30, ..call.when }]
        {
            if (when.satellite, when.week, when.time) < (satellite, week, time) {
                simpler.push(Call { when, ..call.clone() });
            }
        }
        if let What::Store { message, status, lent } = &call.what {
            if message.iter().any(|byte| *byte != 0) {
                let what = What::Store { message: vec![0; message.len()], status: *status, lent: *lent };
                simpler.push(Call { what, ..call.clone() });
            }
            if *status > 0 {
                let what = What::Store { message: message.clone(), status: 0, lent: *lent };
                simpler.push(Call { what, ..call.clone() });
            }
        }
        if call.bad.is_some() {
            simpler.push(Call { bad: None, ..call.clone() });
        }
        simpler
    }
}

/// Messages of a few times and satellites; a place is filled where `stay` (of 64) is high.
pub struct Source {
    times: Vec<(u16, u32)>,
    now: usize,
    stay: u64,
    satellites: u64,
    trouble: u64,
}

impl Source {
    pub fn new(random: &mut Random) -> Source {
        let many = random.pick(&[1, 2, 3, 11, 12, 13, 14, 20]);
        let week = random.pick(&[0, 1200, 4094]);
        let step = random.pick(&[1, 30, 30, 300]);
        let first = random.pick(&[0, 60, 604_700]);
        let times = (0..many)
            .map(|n| {
                let time = first + step * n;
                (week + (time / 604_800) as u16, time % 604_800)
            })
            .collect();
        let stay = random.pick(&[0, 16, 48, 62, 63]);
        let satellites = random.pick(&[1, 3, 36]);
        Source { times, now: 0, stay, satellites, trouble: random.pick(&[0, 2, 10, 60]) }
    }

    fn bad(random: &mut Random) -> Bad {
        let p = random.below(12) as usize;
        match random.below(7) {
            0 => Bad::Current(random.pick(&[12, 13, 255])),
            1 => Bad::Count(p, random.pick(&[37, 64, 255])),
            2 => Bad::NoTime(p),
            3 => Bad::Week(p, random.pick(&[4096, 65_535])),
            4 => Bad::Time(p, random.pick(&[604_800, u32::MAX])),
            5 => Bad::Satellite(p, random.pick(&[0, 37, 255])),
            _ => Bad::Status(p, random.pick(&[4, 128, 255])),
        }
    }

    pub fn call(&mut self, random: &mut Random) -> Call {
        let (week, time) = self.times[self.now];
        let satellite = 1 + random.below(self.satellites) as u8;
        let when = When { satellite, week, time };
        if random.below(64) >= self.stay {
            // mostly the next time, else any: one that comes back
            let any = random.below(self.times.len() as u64) as usize;
            self.now = if random.below(8) == 0 { any } else { (self.now + 1) % self.times.len() };
        }
        let status = random.below(4) as u8;
        let what = What::Store { message: random.bytes(60), status, lent: MEMORY };
        let mut call = Call { what, when, bad: None };
        if random.below(6) == 0 {
            let (week, time) = random.pick(&self.times);
            return Call { what: What::Get, when: When { satellite, week, time }, bad: None };
        }
        if random.below(256) < self.trouble {
            match random.below(8) {
                0 => call.when.satellite = random.pick(&[0, 37, 255]),
                1 => call.when.week = random.pick(&[4096, 65_535]),
                2 => call.when.time = random.pick(&[604_800, u32::MAX]),
                3 => call.bad = Some(Source::bad(random)),
                4 => call = Call { what: What::Get, bad: Some(Source::bad(random)), ..call },
                5 => {
                    call.what =
                        What::Store { message: random.bytes(60), status: random.pick(&[4, 5, 255]), lent: MEMORY }
                }
                6 => call.what = What::Store { message: random.bytes_of(&[0, 59, 61]), status, lent: MEMORY },
                _ => {
                    call.what =
                        What::Store { message: random.bytes(60), status, lent: random.pick(&[0, 25_919, 25_921]) }
                }
            }
        }
        call
    }
}
