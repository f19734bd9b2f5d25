//! The functions of the archive `probe` over the recorder: verdict and list as numbers.
use crate::probe::{SubframeRecord, Told};

/// The verdict on the slots, and how many tags hold ADKD 4, with their numbers.
#[repr(C)]
#[derive(Clone, Copy, PartialEq, Eq, Debug)]
pub struct WalkTold {
    pub slots: Told,
    pub timing: Told,
    pub tags: [u8; 9],
}

impl WalkTold {
    pub const NOTHING: WalkTold = WalkTold { slots: Told::NOTHING, timing: Told::NOTHING, tags: [0; 9] };

    pub fn refused(number: u64) -> WalkTold {
        WalkTold { slots: Told::refused(number), timing: Told::refused(number), tags: [0; 9] }
    }
}

/// The list alone.
#[repr(C)]
#[derive(Clone, Copy, PartialEq, Eq, Debug)]
pub struct TimingTold {
    pub timing: Told,
    pub tags: [u8; 9],
}

impl TimingTold {
    pub fn refused(number: u64) -> TimingTold {
        TimingTold { timing: Told::refused(number), tags: [0; 9] }
    }

    /// Of tag numbers, ascending.
    pub fn of(numbers: impl Iterator<Item = usize>) -> TimingTold {
        let (mut tags, mut count) = ([0; 9], 0);
        for number in numbers {
            tags[count] = number as u8;
            count += 1;
        }
        TimingTold { timing: Told::given(count as u64, 0, 0), tags }
    }
}

/// What a question is asked with, beside the message or the collector's record.
#[derive(Clone, Copy, PartialEq, Eq, Debug)]
pub struct Sizes {
    /// In bytes.
    pub key: usize,
    /// In bits.
    pub tag: usize,
}

impl Sizes {
    pub fn of((key, tag): (u64, u64)) -> Sizes {
        Sizes { key: key as usize, tag: tag as usize }
    }

    pub fn pair(self) -> (u64, u64) {
        (self.key as u64, self.tag as u64)
    }
}

mod c {
    use super::*;

    unsafe extern "C" {
        pub fn probe_walk(
            mack: *const u8,
            mack_len: usize,
            key_size: usize,
            tag_size: usize,
            sender: u8,
            maclt: u8,
            msg: usize,
        ) -> WalkTold;
        pub fn probe_timing_tags(mack: *const u8, mack_len: usize, key_size: usize, tag_size: usize) -> TimingTold;
        pub fn probe_walk_complete(
            collector: SubframeRecord,
            hkroot: *const u8,
            hkroot_len: usize,
            mack: *const u8,
            mack_len: usize,
            satellite: u8,
            key_size: usize,
            tag_size: usize,
            maclt: u8,
        ) -> WalkTold;
    }
}

// In all calls the pointers are good for the lengths that go with them.

pub fn walk(mack: &[u8], sizes: Sizes, sender: u8, maclt: u8, msg: usize) -> WalkTold {
    unsafe { c::probe_walk(mack.as_ptr(), mack.len(), sizes.key, sizes.tag, sender, maclt, msg) }
}

pub fn timing_tags(mack: &[u8], sizes: Sizes) -> TimingTold {
    unsafe { c::probe_timing_tags(mack.as_ptr(), mack.len(), sizes.key, sizes.tag) }
}

pub fn walk_complete(
    collector: SubframeRecord,
    h: &[u8],
    m: &[u8],
    satellite: u8,
    sizes: Sizes,
    maclt: u8,
) -> WalkTold {
    let (h, hl, m, ml) = (h.as_ptr(), h.len(), m.as_ptr(), m.len());
    unsafe { c::probe_walk_complete(collector, h, hl, m, ml, satellite, sizes.key, sizes.tag, maclt) }
}
