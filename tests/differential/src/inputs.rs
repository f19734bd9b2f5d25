//! Inputs: random numbers from a seed, and messages whose lengths lie around every boundary.
use crate::model::{KEY_SIZES, TAG_SIZES};

/// SplitMix64.
pub struct Random(u64);

impl Random {
    pub fn new(seed: u64) -> Random {
        Random(seed)
    }

    pub fn number(&mut self) -> u64 {
        self.0 = self.0.wrapping_add(0x9e37_79b9_7f4a_7c15);
        let mut z = self.0;
        z = (z ^ z >> 30).wrapping_mul(0xbf58_476d_1ce4_e5b9);
        z = (z ^ z >> 27).wrapping_mul(0x94d0_49bb_1331_11eb);
        z ^ z >> 31
    }

    pub fn below(&mut self, end: u64) -> u64 {
        self.number() % end
    }

    pub fn pick<T: Copy>(&mut self, of: &[T]) -> T {
        of[self.below(of.len() as u64) as usize]
    }

    pub fn bytes(&mut self, many: usize) -> Vec<u8> {
        (0..many).map(|_| self.number() as u8).collect()
    }

    /// Bytes, as many as one of the lengths.
    pub fn bytes_of(&mut self, lengths: &[usize]) -> Vec<u8> {
        let length = self.pick(lengths);
        self.bytes(length)
    }

    /// One of the lengths, mostly, or next to one, or any.
    fn length_around(&mut self, lengths: &[usize]) -> usize {
        let length = self.pick(lengths);
        match self.below(8) {
            0 => length + 1,
            1 => length.saturating_sub(1),
            2 => self.below(261) as usize,
            _ => length,
        }
    }

    /// A DSM-KROOT, mostly of a legal key size and a length that fits it.
    pub fn kroot(&mut self) -> Vec<u8> {
        let code = if self.below(8) == 0 { self.below(16) } else { self.below(9) } as u8;
        let lengths = kroot_lengths(key_bytes(code));
        let whole = &lengths[lengths.len() - 2..];
        let length = if self.below(2) == 0 { self.pick(whole) } else { self.length_around(&lengths) };
        let mut message = self.bytes(length);
        let low = self.half_byte();
        set(&mut message, 2, code << 4 | low);
        message
    }

    /// A DSM-PKR, mostly of a legal count and type and a length that fits them.
    pub fn pkr(&mut self) -> Vec<u8> {
        let count = if self.below(4) == 0 { self.half_byte() } else { 7 + self.below(4) as u8 };
        let kind = if self.below(4) == 0 { self.half_byte() } else { self.pick(&[1, 3, 4]) };
        let lengths = pkr_lengths();
        let whole = 13 * (usize::from(count) + 6);
        let length = if self.below(2) == 0 { whole } else { self.length_around(&lengths) };
        let mut message = self.bytes(length);
        let low = self.half_byte();
        set(&mut message, 0, count << 4 | low);
        set(&mut message, 129, kind << 4 | low);
        message
    }

    fn half_byte(&mut self) -> u8 {
        self.below(16) as u8
    }
}

/// Numbers that become small ones where only their low 8, 16, 32 or 61 bits are kept.
pub fn wide(small: u64) -> [u64; 6] {
    [1 << 8, 1 << 16, 1 << 32, 1 << 61, 1 << 63, u64::MAX << 8].map(|high: u64| high.wrapping_add(small))
}

pub fn set(message: &mut [u8], place: usize, byte: u8) {
    if let Some(there) = message.get_mut(place) {
        *there = byte;
    }
}

/// The key bytes of a key size's code; 16 for a reserved one.
pub fn key_bytes(code: u8) -> usize {
    KEY_SIZES.get(usize::from(code)).map_or(16, |bytes| *bytes as usize)
}

/// The lengths at which an answer of KROOT changes, ascending; the last two fit P-256 and P-521.
pub fn kroot_lengths(key: usize) -> Vec<usize> {
    let mut lengths = vec![0, 1, 2, 3, 4, 6, 7, 13, 13 + key];
    lengths.extend([64, 132].map(|signature| (13 + key + signature).next_multiple_of(13)));
    lengths
}

/// The lengths at which an answer of PKR changes, ascending.
pub fn pkr_lengths() -> Vec<usize> {
    vec![0, 1, 33, 65, 97, 129, 130, 163, 169, 182, 195, 197, 208]
}

/// Every pair of a key size and a tag size.
pub fn sizes() -> impl Iterator<Item = (u64, u64)> {
    KEY_SIZES.iter().flat_map(|key| TAG_SIZES.iter().map(|tag| (*key, *tag)))
}
