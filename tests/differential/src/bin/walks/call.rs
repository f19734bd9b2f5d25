//! A walk that is asked for, and simpler ones.
use crate::recorder::Sizes;
use differential::sequence::hex;
use std::fmt;

#[derive(Clone)]
pub struct Call {
    pub mack: Vec<u8>,
    pub sizes: Sizes,
    pub sender: u8,
    pub maclt: u8,
    pub msg: usize,
}

impl fmt::Display for Call {
    fn fmt(&self, f: &mut fmt::Formatter<'_>) -> fmt::Result {
        let Call { mack, sizes: Sizes { key, tag }, sender, maclt, msg } = self;
        write!(f, "walk key {key} bytes, tag {tag} bits, sender {sender}, table {maclt}, message {msg}, ")?;
        write!(f, "MACK of {}: {}", mack.len(), hex(mack))
    }
}

impl Call {
    /// Calls that are simpler than this one; each makes a number smaller or a part of the message zero.
    pub fn simpler(&self) -> Vec<Call> {
        let mut simpler = Vec::new();
        let mut change = |to: &dyn Fn(&mut Call)| {
            let mut call = self.clone();
            to(&mut call);
            simpler.push(call);
        };
        for sender in (1..self.sender).take(2) {
            change(&|call| call.sender = sender);
        }
        if self.msg > 0 {
            change(&|call| call.msg = 0);
        }
        for many in [60, 30, 15, 8, 4, 2, 1] {
            for (place, part) in self.mack.chunks(many).enumerate() {
                if part.iter().any(|byte| *byte != 0) {
                    change(&|call| call.mack[many * place..][..part.len()].fill(0));
                }
            }
        }
        for at in (0..self.mack.len()).filter(|at| self.mack[*at] != 0) {
            let byte = self.mack[at];
            for less in [byte & 0xf0, byte & 0x0f].into_iter().filter(|less| *less < byte) {
                change(&|call| call.mack[at] = less);
            }
        }
        simpler
    }
}
