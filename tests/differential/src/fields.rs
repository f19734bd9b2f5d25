//! The private fields of a struct of the Rust, by its derived `Hash`: what is hashed is kept, in the order of the
//! fields. Bytes of arrays, single numbers (flags and the numbers of enum cases among them), and lengths.
use std::hash::{Hash, Hasher};

#[derive(Clone, Default)]
pub struct Fields {
    pub bytes: Vec<u8>,
    pub numbers: Vec<u64>,
    pub lengths: Vec<usize>,
}

impl Fields {
    pub fn read(&mut self, of: &impl Hash) {
        self.bytes.clear();
        self.numbers.clear();
        self.lengths.clear();
        of.hash(self);
    }
}

impl Hasher for Fields {
    fn write(&mut self, bytes: &[u8]) {
        self.bytes.extend_from_slice(bytes);
    }
    fn write_u8(&mut self, n: u8) {
        self.numbers.push(n.into());
    }
    fn write_u16(&mut self, n: u16) {
        self.numbers.push(n.into());
    }
    fn write_u32(&mut self, n: u32) {
        self.numbers.push(n.into());
    }
    fn write_isize(&mut self, n: isize) {
        self.numbers.push(n as u64);
    }
    fn write_usize(&mut self, n: usize) {
        self.lengths.push(n);
    }
    fn finish(&self) -> u64 {
        0
    }
}
