//! The keys of MACK messages that were copied, by the pair of sizes: how many of them start on a whole byte, and how many
//! half a byte in. Each listed pair has to be among them.
use crate::check::Check;
use differential::call::{Call, Function};
use differential::inputs::sizes;
use differential::model::num_tags;
use differential::published::Said;
use std::collections::BTreeMap;

#[derive(Default)]
pub struct Keys(BTreeMap<(u64, u64), u64>);

impl Keys {
    /// Counts the call where it is one for a key that the Rust and document 01 both give.
    pub fn count(&mut self, call: &Call, check: &Check) {
        if call.function == Function::mack_key && check.model.is_ok() && matches!(check.said, Some(Said::Good(_))) {
            *self.0.entry((call.args[0], call.args[1])).or_default() += 1;
        }
    }

    /// How many keys start at that bit of a byte, and how many pairs of sizes they are of.
    fn that_start_at(&self, bit: u64) -> (u64, usize) {
        let these = self.0.iter().filter(|((key, tag), _)| num_tags(*key, *tag).unwrap() * (tag + 16) % 8 == bit);
        these.fold((0, 0), |(keys, pairs), (_, more)| (keys + more, pairs + 1))
    }

    pub fn print(&self) {
        let (whole, whole_pairs) = self.that_start_at(0);
        let (half, half_pairs) = self.that_start_at(4);
        println!(
            "keys copied as by the Rust: {whole} that start on a whole byte ({whole_pairs} pairs of sizes), \
             {half} that start half a byte in ({half_pairs} pairs)"
        );
    }

    /// The listed pairs of sizes of which no key was copied.
    pub fn missing(&self) -> Vec<(u64, u64)> {
        sizes().filter(|pair| !self.0.contains_key(pair)).collect()
    }
}
