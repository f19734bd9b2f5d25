//! The DSM collector: `feed`, the view and the question beside it against `CollectDsm`.
use crate::probe::{self, DsmRecord, Told};
use crate::{caught, hex, refusal};
use differential::fields::Fields;
use differential::inputs::Random;
use differential::sequence::{Came, Pair};
use oracle::bitfields::{DsmHeader, DsmType};
use oracle::dsm::CollectDsm;
use std::fmt;

const DSM: usize = 208;

#[derive(Clone)]
pub struct Call {
    header: u8,
    block: Vec<u8>,
    /// How many bytes are lent, and the ID of a bad record.
    lent: usize,
    bad: Option<u8>,
}

impl fmt::Display for Call {
    fn fmt(&self, f: &mut fmt::Formatter<'_>) -> fmt::Result {
        let (id, n) = (self.header >> 4, self.header & 15);
        write!(f, "feed ID {id} block {n}: {}", hex(&self.block))?;
        if self.lent != DSM {
            write!(f, " lent {} bytes", self.lent)?;
        }
        if let Some(id) = self.bad { write!(f, " record with ID {id}") } else { Ok(()) }
    }
}

pub struct Dsms {
    rust: CollectDsm,
    fields: Fields,
    record: DsmRecord,
    dsm: Vec<u8>,
    zeros: bool,
    /// The DSM that the Rust handed out, its name and its bytes, while its DSM is the same.
    out: Option<(Told, Vec<u8>)>,
}

impl Dsms {
    /// A block at the Rust: the answer that document 01 makes of it.
    fn ask(&mut self, call: &Call) -> Result<Told, String> {
        let block: &[u8; 13] = call.block[..].try_into().unwrap();
        let rust = &mut self.rust;
        let said = caught(|| {
            rust.feed(DsmHeader(&[call.header]), block).map(|dsm| (dsm.id(), dsm.dsm_type(), dsm.data().to_vec()))
        })?;
        Ok(match said {
            None => Told::NOTHING,
            Some((id, kind, data)) => {
                let kind = match kind {
                    DsmType::Kroot => 0,
                    DsmType::Pkr => 1,
                };
                let told = Told::given(id.into(), kind, data.len() as u64);
                self.out = Some((told, data));
                told
            }
        })
    }

    /// The record and the memory against the Rust's own fields.
    fn compare(&mut self) -> Result<(), String> {
        self.fields.read(&self.rust);
        let numbers = &self.fields.numbers;
        let (held, done) = (&numbers[..16], numbers[16]);
        let (came, id) = (numbers[17], numbers[numbers.len() - 1]);
        let port = &self.record;
        let same_held = port.held.iter().zip(held).all(|(ours, theirs)| u64::from(*ours) == *theirs);
        let flags = (u64::from(port.done), u64::from(port.came), u64::from(port.id)) == (done, came, id);
        if !same_held || !flags {
            return Err(format!("the port has {port:?}, the Rust held {held:?} done {done} came {came} ID {id}"));
        }
        let rust = &self.fields.bytes;
        let blocks = self.dsm[..DSM].chunks(13).zip(rust.chunks(13));
        let same = blocks.zip(held).all(|((ours, theirs), held)| !self.zeros && *held == 0 || ours == theirs);
        if !same || self.dsm[DSM..] != [0xa5; 1] {
            return Err(format!("the lent bytes are {}, the Rust's {}", hex(&self.dsm), hex(rust)));
        }
        if done == 0 {
            self.out = None;
        }
        Ok(())
    }

    fn view(&self, record: DsmRecord, lent: usize) -> Result<(), String> {
        let number = refusal([(1, lent != DSM), (12, record.id > 15)]);
        let mut out = [0x5a; DSM + 1];
        let told = probe::dsm_view(record, &self.dsm[..lent], &mut out);
        let named = probe::dsm_view_answer(record, &self.dsm[..lent]);
        let mut expected = [0x5a; DSM + 1];
        let (answer, name) = match &self.out {
            _ if number != 0 => (Told::refused(number), Told::refused(number)),
            None => (Told::NOTHING, Told::NOTHING),
            Some((name, data)) => {
                expected[..data.len()].copy_from_slice(data);
                (Told::given(0, data.len() as u64, 0), *name)
            }
        };
        if told != answer || out != expected {
            return Err(format!("view: {told:?} {}, expected {answer:?}", hex(&out)));
        }
        if named != name {
            return Err(format!("view_answer: {named:?}, expected {name:?}"));
        }
        Ok(())
    }
}

impl Pair for Dsms {
    type Call = Call;

    fn new(start: u64) -> Dsms {
        let mut dsm = if start == 0 { vec![0; DSM] } else { Random::new(start).bytes(DSM) };
        dsm.push(0xa5);
        let (rust, record) = (CollectDsm::new(), probe::dsm_new());
        Dsms { rust, fields: Fields::default(), record, dsm, zeros: start == 0, out: None }
    }

    fn call(&mut self, call: &Call) -> Result<Came, String> {
        let mut record = self.record;
        record.id = call.bad.unwrap_or(record.id);
        let number = refusal([(1, call.lent != DSM), (1, call.block.len() != 13), (12, record.id > 15)]);
        let before = (record, self.dsm.clone());
        let expected = if number == 0 { self.ask(call)? } else { Told::refused(number) };
        let called = probe::dsm_feed(record, &mut self.dsm[..call.lent], call.header, &call.block);
        if called.answer != expected {
            return Err(format!("the port answers {:?}, expected {expected:?}", called.answer));
        }
        if number != 0 {
            if before != (called.collector, self.dsm.clone()) {
                return Err("a refused call changed the record or the memory".to_string());
            }
            self.compare()?;
            self.view(record, call.lent)?;
            self.view(self.record, DSM)?;
            return Ok(Came::Refusal(number));
        }
        self.record = called.collector;
        self.compare()?;
        self.view(self.record, DSM)?;
        Ok(if expected.kind == 1 { Came::Answer } else { Came::Nothing })
    }

    fn simpler(call: &Call) -> Vec<Call> {
        let mut simpler = Vec::new();
        for header in [0, call.header & 0xf0, call.header & 0x0f, call.header & 0xcf] {
            if header < call.header {
                simpler.push(Call { header, ..call.clone() });
            }
        }
        for place in 0..call.block.len() {
            if call.block[place] > 0 {
                let mut zero = call.clone();
                zero.block[place] = 0;
                simpler.push(zero);
            }
        }
        if call.bad.is_some() || call.lent != DSM {
            simpler.push(Call { bad: None, lent: DSM, ..call.clone() });
        }
        simpler
    }
}

/// Blocks of a few messages, disturbed as often as `trouble` (of 256) says.
pub struct Source {
    /// ID and 16 blocks.
    messages: Vec<(u8, Vec<Vec<u8>>)>,
    now: usize,
    next: u8,
    shuffled: bool,
    trouble: u64,
}

impl Source {
    pub fn new(random: &mut Random) -> Source {
        let many = random.pick(&[1, 1, 2, 3]);
        let messages = (0..many).map(|_| Source::message(random)).collect();
        let trouble = random.pick(&[0, 1, 4, 16, 64]);
        Source { messages, now: 0, next: 0, shuffled: random.below(2) == 0, trouble }
    }

    /// A message whose count is legal, mostly.
    fn message(random: &mut Random) -> (u8, Vec<Vec<u8>>) {
        let id = random.pick(&[0, 1, 5, 11, 12, 13, 15]);
        let mut blocks: Vec<Vec<u8>> = (0..16).map(|_| random.bytes(13)).collect();
        let count = match random.below(4) {
            0 => random.below(16) as u8,
            _ if id >= 12 => 7 + random.below(4) as u8,
            _ => 1 + random.below(8) as u8,
        };
        blocks[0][0] = count << 4 | blocks[0][0] & 15;
        (id, blocks)
    }

    pub fn call(&mut self, random: &mut Random) -> Call {
        if random.below(100) == 0 {
            // the message is another one, of the same ID or not
            self.messages[self.now] = Source::message(random);
        }
        if random.below(if self.trouble > 10 { 12 } else { 40 }) == 0 {
            self.now = random.below(self.messages.len() as u64) as usize;
        }
        let n = if self.shuffled { random.below(16) as u8 } else { self.next };
        self.next = (self.next + 1) % 16;
        let (id, blocks) = &self.messages[self.now];
        let header = id << 4 | n;
        let mut call = Call { header, block: blocks[usize::from(n)].clone(), lent: DSM, bad: None };
        if random.below(256) >= self.trouble {
            return call;
        }
        match random.below(6) {
            // other bytes under the same number, the count among them
            0 => call.block = random.bytes(13),
            1 => call.block = random.bytes_of(&[0, 1, 12, 14, 26]),
            2 => call.lent = random.pick(&[0, 13, 207, 209]),
            3 => call.bad = Some(random.pick(&[16, 17, 128, 255])),
            4 => call.header = random.number() as u8,
            _ => self.next = random.below(16) as u8,
        }
        call
    }
}
