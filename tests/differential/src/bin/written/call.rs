//! What a message is written from, and what else is asked beside it; simpler ones of the kind.
use crate::model::{Kind, LENT};
use differential::sequence::hex;
use std::fmt;

#[derive(Clone)]
pub struct Call {
    pub kind: Kind,
    pub id: u64,
    /// Raw, in the order of the kind's rows.
    pub values: Vec<u64>,
    /// KROOT: key, signature, padding. PKR: nodes, key, padding.
    pub parts: [Vec<u8>; 3],
    /// How many bytes are lent.
    pub lent: usize,
    /// The order in which the blocks are fed, with repeats, from that seed; 0: ascending, each once. None: they are not fed.
    pub order: Option<u64>,
    /// One more block that is asked for: of how many bytes, for which ID, its number.
    pub cut: (usize, u64, u64),
    /// Another message, whose raw numbers are asked for, and those of as many of the lent bytes.
    pub read: Option<Vec<u8>>,
}

impl fmt::Display for Call {
    fn fmt(&self, f: &mut fmt::Formatter<'_>) -> fmt::Result {
        let names = match self.kind {
            Kind::Kroot => ["key", "signature", "padding"],
            Kind::Pkr => ["nodes", "key", "padding"],
        };
        write!(f, "write {:?} ID {} values {:?}", self.kind, self.id, self.values)?;
        for (name, part) in names.iter().zip(&self.parts) {
            write!(f, " {name} of {}: {}", part.len(), hex(part))?;
        }
        let (lent, id, n) = self.cut;
        write!(f, ", lent {} bytes", self.lent)?;
        if let Some(order) = self.order {
            write!(f, ", fed in order {order}")?;
        }
        write!(f, "; block {n} for ID {id} of {lent} bytes")?;
        if let Some(message) = &self.read { write!(f, "; values of: {}", hex(message)) } else { Ok(()) }
    }
}

impl Call {
    /// Calls that are simpler than this one; each makes a number smaller, a part shorter or a byte zero.
    pub fn simpler(&self) -> Vec<Call> {
        let mut simpler = Vec::new();
        let mut change = |to: &dyn Fn(&mut Call)| {
            let mut call = self.clone();
            to(&mut call);
            simpler.push(call);
        };
        if let Some(order) = self.order {
            change(&|call| call.order = None);
            if order != 0 {
                change(&|call| call.order = Some(0));
            }
        }
        if let Some(message) = &self.read {
            change(&|call| call.read = None);
            (0..message.len()).for_each(|many| change(&|call| call.read = Some(message[..many].to_vec())));
        }
        if self.cut != (LENT, 0, 0) {
            change(&|call| call.cut = (LENT, 0, 0));
        }
        if self.lent != LENT {
            change(&|call| call.lent = LENT);
        }
        for id in [0, 12, self.id % 16, self.id / 2].into_iter().filter(|id| *id < self.id) {
            change(&|call| call.id = id);
        }
        for (place, value) in self.values.iter().enumerate() {
            for less in (0..64).rev().map(|shift| value >> shift).filter(|less| less < value) {
                change(&|call| call.values[place] = less);
            }
        }
        for (place, part) in self.parts.iter().enumerate() {
            if !part.is_empty() {
                change(&|call| call.parts[place].clear());
                change(&|call| call.parts[place].truncate(part.len() - 1));
            }
            if part.iter().any(|byte| *byte != 0) {
                change(&|call| call.parts[place].fill(0));
            }
            for at in (0..part.len()).filter(|at| part[*at] != 0) {
                change(&|call| call.parts[place][at] = 0);
            }
        }
        simpler
    }
}
