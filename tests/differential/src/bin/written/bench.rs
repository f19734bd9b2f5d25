//! The bench: a message is written, read by the Rust, cut into blocks and fed to the collectors of both sides.
use crate::call::Call;
use crate::model::{self, Kind, LENT};
use crate::probe::{self, DsmRecord, Told};
use crate::read::read;
use crate::writers::{self, Values};
use differential::inputs::Random;
use differential::sequence::{Came, Pair, caught, hex, refusal};
use oracle::bitfields::{DsmHeader, DsmType};
use oracle::dsm::CollectDsm;

/// More bytes than are ever lent: those behind must stay as they are.
pub const MEMORY: usize = 240;

#[derive(Default)]
pub struct Counts {
    pub cuts: u64,
    /// By number.
    pub cuts_refused: [u64; 8],
    pub fed: u64,
    pub completed: u64,
    pub numbers: u64,
    pub numbers_refused: u64,
}

pub struct Bench {
    /// Where the lent bytes have their contents from; none: zeros.
    random: Option<Random>,
    memory: [u8; MEMORY],
    rust: CollectDsm,
    record: DsmRecord,
    collected: [u8; LENT],
    pub counts: Counts,
}

/// Random bytes, eight from a number.
pub fn fill(random: &mut Random, bytes: &mut [u8]) {
    for eight in bytes.chunks_mut(8) {
        eight.copy_from_slice(&random.number().to_le_bytes()[..eight.len()]);
    }
}

impl Bench {
    pub fn lent(&self) -> &[u8] {
        &self.memory[..LENT]
    }

    /// The write: answer and all bytes.
    fn write(&mut self, call: &Call) -> Result<Told, String> {
        let mut expected = self.memory;
        let number = refusal(model::checks(call));
        let answer = if number == 0 {
            let message = model::message(call);
            expected[..message.len()].copy_from_slice(&message);
            Told::given(call.id, call.kind.number(), message.len() as u64)
        } else {
            Told::refused(number)
        };
        let (dsm, parts) = (&mut self.memory[..call.lent], call.parts.each_ref().map(|part| &part[..]));
        let told = match call.kind {
            Kind::Kroot => writers::write_kroot(dsm, call.id, Values(call.values[..].try_into().unwrap()), parts),
            Kind::Pkr => writers::write_pkr(dsm, call.id, Values(call.values[..].try_into().unwrap()), parts),
        };
        if told != answer {
            return Err(format!("the port answers {told:?}, expected {answer:?}"));
        }
        if self.memory != expected {
            let at = (0..MEMORY).find(|at| self.memory[*at] != expected[*at]).unwrap();
            return Err(format!("byte {at} is {:02x} then, expected {:02x}", self.memory[at], expected[at]));
        }
        Ok(told)
    }

    /// One block: its header byte and its bytes, where it is not refused.
    fn cut(&mut self, lent: usize, id: u64, n: u64) -> Result<(u8, [u8; 13]), String> {
        let dsm = &self.memory[..lent];
        let (answer, bytes) = model::block(dsm, id, n);
        let called = writers::block(dsm, id, n);
        if (called.answer, called.bytes) != (answer, bytes) {
            let (told, cut) = (called.answer, hex(&called.bytes));
            return Err(format!("block {n} for ID {id} is {told:?} {cut}, expected {answer:?} {}", hex(&bytes)));
        }
        match answer.kind {
            1 => self.counts.cuts += 1,
            _ => self.counts.cuts_refused[answer.first as usize] += 1,
        }
        Ok((called.answer.first as u8, called.bytes))
    }

    /// The raw numbers of a message.
    fn numbers(&mut self, kind: Kind, message: &[u8], expected: Option<&[u64]>) -> Result<(), String> {
        let told = match kind {
            Kind::Kroot => writers::kroot_values(message).told(),
            Kind::Pkr => writers::pkr_values(message).told(),
        };
        if told != expected.map(<[u64]>::to_vec).ok_or(5) {
            return Err(format!("the values of {kind:?} {}: {told:?}, expected {expected:?}", hex(message)));
        }
        self.counts.numbers += u64::from(told.is_ok());
        self.counts.numbers_refused += u64::from(told.is_err());
        Ok(())
    }

    /// A block at both collectors, which must say the same; the bytes of a DSM that it completes.
    fn feed(&mut self, header: u8, block: &[u8; 13]) -> Result<Option<Vec<u8>>, String> {
        let rust = &mut self.rust;
        let said = caught(|| {
            let dsm = rust.feed(DsmHeader(&[header]), block);
            dsm.map(|dsm| (dsm.id(), dsm.dsm_type() == DsmType::Pkr, dsm.data().to_vec()))
        })?;
        let called = probe::dsm_feed(self.record, &mut self.collected, header, block);
        self.record = called.collector;
        self.counts.fed += 1;
        let answer = said
            .as_ref()
            .map_or(Told::NOTHING, |(id, pkr, data)| Told::given((*id).into(), (*pkr).into(), data.len() as u64));
        if called.answer != answer {
            return Err(format!("the collector answers {:?} to {header:02x}, the Rust {answer:?}", called.answer));
        }
        match said {
            Some((_, _, data)) if self.collected[..data.len()] != data => {
                Err(format!("the collector has {}, the Rust {}", hex(&self.collected), hex(&data)))
            }
            said => Ok(said.map(|(_, _, data)| data)),
        }
    }

    /// The blocks in an order with repeats: complete at the last that was missing, and not before or behind it.
    fn feed_all(
        &mut self,
        id: u64,
        order: Vec<usize>,
        message: &[u8],
        blocks: &[(u8, [u8; 13])],
    ) -> Result<(), String> {
        if self.record.came && u64::from(self.record.id) == id {
            // a run of this ID is going on
            (self.rust, self.record) = (CollectDsm::new(), probe::dsm_new());
        }
        let mut missing = blocks.len();
        let mut held = [false; 16];
        for n in order {
            let last = missing == 1 && !held[n];
            missing -= usize::from(!held[n]);
            held[n] = true;
            let (header, block) = &blocks[n];
            let completed = self.feed(*header, block)?;
            if completed.as_deref() != last.then_some(message) {
                let completed = completed.map(|data| hex(&data));
                return Err(format!("block {n}, {missing} missing: the collectors complete {completed:?}"));
            }
            self.counts.completed += u64::from(last);
        }
        Ok(())
    }

    /// What stands in so many of the lent bytes: read, cut and fed.
    fn written(&mut self, call: &Call, bytes: usize) -> Result<(), String> {
        let message = self.memory[..bytes].to_vec();
        caught(|| read(call, &message))??;
        self.numbers(call.kind, &message, Some(&call.values))?;
        let many = bytes as u64 / 13;
        let blocks: Result<Vec<_>, _> = (0..many).map(|n| self.cut(LENT, call.id, n)).collect();
        self.cut(LENT, call.id, many)?;
        call.order.map_or(Ok(()), |seed| self.feed_all(call.id, order(seed, many as usize), &message, &blocks?))
    }
}

/// Block numbers below `many`, each at least once but for a few orders that end early.
fn order(seed: u64, many: usize) -> Vec<usize> {
    let mut order: Vec<usize> = (0..many).collect();
    if seed == 0 {
        return order;
    }
    let random = &mut Random::new(seed);
    for place in (1..many).rev() {
        order.swap(place, random.below(place as u64 + 1) as usize);
    }
    for _ in 0..random.below(4) {
        let again = random.below(many as u64) as usize;
        order.insert(random.below(many as u64) as usize, again);
    }
    if random.below(16) == 0 {
        order.truncate(random.below(many as u64) as usize);
    }
    order
}

impl Pair for Bench {
    type Call = Call;

    fn new(start: u64) -> Bench {
        Bench {
            random: (start != 0).then(|| Random::new(start)),
            memory: [0; MEMORY],
            rust: CollectDsm::new(),
            record: probe::dsm_new(),
            collected: [0; LENT],
            counts: Counts::default(),
        }
    }

    fn call(&mut self, call: &Call) -> Result<Came, String> {
        match &mut self.random {
            Some(random) => fill(random, &mut self.memory),
            None => self.memory.fill(0),
        }
        let told = self.write(call)?;
        if told.kind == 1 {
            self.written(call, told.third as usize)?;
        }
        let (lent, id, n) = call.cut;
        self.cut(lent, id, n)?;
        if let Some(message) = &call.read {
            let front = self.memory[..message.len()].to_vec();
            for (kind, message) in [(Kind::Kroot, message), (Kind::Pkr, message), (call.kind, &front)] {
                self.numbers(kind, message, model::numbers(kind, message).as_deref())?;
            }
        }
        Ok(if told.kind == 1 { Came::Answer } else { Came::Refusal(told.first) })
    }

    fn simpler(call: &Call) -> Vec<Call> {
        call.simpler()
    }
}
