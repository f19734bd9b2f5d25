//! The functions of the archive `probe`: the collectors, with their records by value and their answers as numbers.

/// An answer: kind 0 nothing, 1 with numbers, 2 refused with its number first.
#[repr(C)]
#[derive(Clone, Copy, PartialEq, Eq, Debug)]
pub struct Told {
    pub kind: u64,
    pub first: u64,
    pub second: u64,
    pub third: u64,
}

impl Told {
    pub const NOTHING: Told = Told { kind: 0, first: 0, second: 0, third: 0 };

    pub fn given(first: u64, second: u64, third: u64) -> Told {
        Told { kind: 1, first, second, third }
    }

    pub fn refused(number: u64) -> Told {
        Told { kind: 2, first: number, second: 0, third: 0 }
    }
}

#[repr(C)]
#[derive(Clone, Copy, PartialEq, Eq, Debug)]
pub struct SubframeRecord {
    pub week: u16,
    pub subframe: u16,
    pub counts: [u8; 36],
}

#[repr(C)]
pub struct SubframeCalled {
    pub collector: SubframeRecord,
    pub answer: Told,
}

#[repr(C)]
pub struct SubframeTraced {
    pub collector: SubframeRecord,
    pub answer: Told,
    pub consumed: u64,
}

#[repr(C)]
pub struct HkrootTold {
    pub answer: Told,
    pub bytes: [u8; 15],
}

#[repr(C)]
pub struct WordTold {
    pub next: u64,
    pub answer: Told,
}

#[repr(C)]
#[derive(Clone, Copy, PartialEq, Eq, Debug)]
pub struct DsmRecord {
    pub id: u8,
    pub came: bool,
    pub held: [bool; 16],
    pub done: bool,
}

#[repr(C)]
pub struct DsmCalled {
    pub collector: DsmRecord,
    pub answer: Told,
}

#[repr(C)]
#[derive(Clone, Copy, PartialEq, Eq, Debug)]
pub struct StoreRecord {
    pub current: u8,
    pub timed: [bool; 12],
    pub weeks: [u16; 12],
    pub tows: [u32; 12],
    pub counts: [u8; 12],
    pub satellites: [u8; 432],
    pub statuses: [u8; 432],
}

#[repr(C)]
pub struct StoreCalled {
    pub storage: StoreRecord,
    pub answer: Told,
}

mod c {
    use super::*;

    unsafe extern "C" {
        pub safe fn probe_subframe_new() -> SubframeRecord;
        pub fn probe_subframe_feed(
            collector: SubframeRecord,
            hkroot: *mut u8,
            hkroot_len: usize,
            mack: *mut u8,
            mack_len: usize,
            page: *const u8,
            page_len: usize,
            satellite: u8,
            week: u16,
            time: u32,
        ) -> SubframeCalled;
        pub fn probe_subframe_feed_all(
            collector: SubframeRecord,
            hkroot: *mut u8,
            hkroot_len: usize,
            mack: *mut u8,
            mack_len: usize,
            trace: *const u8,
            trace_len: usize,
        ) -> SubframeTraced;
        pub fn probe_subframe_view(
            collector: SubframeRecord,
            hkroot: *const u8,
            hkroot_len: usize,
            mack: *const u8,
            mack_len: usize,
            of_mack: bool,
            satellite: u8,
            out: *mut u8,
            out_len: usize,
        ) -> Told;
        pub fn probe_subframe_came_out(
            collector: SubframeRecord,
            hkroot: *const u8,
            hkroot_len: usize,
            mack: *const u8,
            mack_len: usize,
            satellite: u8,
        ) -> Told;
        pub fn probe_subframe_hkroot_message(
            collector: SubframeRecord,
            hkroot: *const u8,
            hkroot_len: usize,
            mack: *const u8,
            mack_len: usize,
            satellite: u8,
        ) -> HkrootTold;
        pub safe fn probe_word_take(words: u8, word: u8) -> WordTold;
        pub safe fn probe_dsm_new() -> DsmRecord;
        pub fn probe_dsm_feed(
            collector: DsmRecord,
            dsm: *mut u8,
            dsm_len: usize,
            header: u8,
            block: *const u8,
            block_len: usize,
        ) -> DsmCalled;
        pub fn probe_dsm_view(
            collector: DsmRecord,
            dsm: *const u8,
            dsm_len: usize,
            out: *mut u8,
            out_len: usize,
        ) -> Told;
        pub fn probe_dsm_view_answer(collector: DsmRecord, dsm: *const u8, dsm_len: usize) -> Told;
        pub safe fn probe_store_new() -> StoreRecord;
        pub fn probe_store_store(
            storage: StoreRecord,
            memory: *mut u8,
            memory_len: usize,
            message: *const u8,
            message_len: usize,
            satellite: u8,
            week: u16,
            time: u32,
            status: u8,
        ) -> StoreCalled;
        pub safe fn probe_store_get(storage: StoreRecord, satellite: u8, week: u16, time: u32) -> Told;
    }
}

pub use c::{probe_dsm_new as dsm_new, probe_store_get as store_get, probe_store_new as store_new};
pub use c::{probe_subframe_new as subframe_new, probe_word_take as word_take};

/// A page's satellite, week and time of week.
#[derive(Clone, Copy, PartialEq, Eq, Debug)]
pub struct When {
    pub satellite: u8,
    pub week: u16,
    pub time: u32,
}

/// The two buffers of the subframe collector, as they are lent.
pub struct Buffers<'a> {
    pub hkroot: &'a mut [u8],
    pub mack: &'a mut [u8],
}

// In all calls the pointers are good for the lengths that go with them.

pub fn subframe_feed(collector: SubframeRecord, lent: Buffers, page: &[u8], when: When) -> SubframeCalled {
    let Buffers { hkroot: h, mack: m } = lent;
    let When { satellite, week, time } = when;
    unsafe {
        c::probe_subframe_feed(
            collector,
            h.as_mut_ptr(),
            h.len(),
            m.as_mut_ptr(),
            m.len(),
            page.as_ptr(),
            page.len(),
            satellite,
            week,
            time,
        )
    }
}

pub fn subframe_feed_all(collector: SubframeRecord, lent: Buffers, trace: &[u8]) -> SubframeTraced {
    let Buffers { hkroot: h, mack: m } = lent;
    let (h, hl, m, ml) = (h.as_mut_ptr(), h.len(), m.as_mut_ptr(), m.len());
    unsafe { c::probe_subframe_feed_all(collector, h, hl, m, ml, trace.as_ptr(), trace.len()) }
}

pub fn subframe_view(
    collector: SubframeRecord,
    h: &[u8],
    m: &[u8],
    of_mack: bool,
    satellite: u8,
    out: &mut [u8],
) -> Told {
    let (h, hl, m, ml) = (h.as_ptr(), h.len(), m.as_ptr(), m.len());
    unsafe { c::probe_subframe_view(collector, h, hl, m, ml, of_mack, satellite, out.as_mut_ptr(), out.len()) }
}

pub fn subframe_came_out(collector: SubframeRecord, h: &[u8], m: &[u8], satellite: u8) -> Told {
    unsafe { c::probe_subframe_came_out(collector, h.as_ptr(), h.len(), m.as_ptr(), m.len(), satellite) }
}

pub fn subframe_hkroot_message(collector: SubframeRecord, h: &[u8], m: &[u8], satellite: u8) -> HkrootTold {
    unsafe { c::probe_subframe_hkroot_message(collector, h.as_ptr(), h.len(), m.as_ptr(), m.len(), satellite) }
}

pub fn dsm_feed(collector: DsmRecord, dsm: &mut [u8], header: u8, block: &[u8]) -> DsmCalled {
    unsafe { c::probe_dsm_feed(collector, dsm.as_mut_ptr(), dsm.len(), header, block.as_ptr(), block.len()) }
}

pub fn dsm_view_answer(collector: DsmRecord, dsm: &[u8]) -> Told {
    unsafe { c::probe_dsm_view_answer(collector, dsm.as_ptr(), dsm.len()) }
}

pub fn dsm_view(collector: DsmRecord, dsm: &[u8], out: &mut [u8]) -> Told {
    unsafe { c::probe_dsm_view(collector, dsm.as_ptr(), dsm.len(), out.as_mut_ptr(), out.len()) }
}

pub fn store_store(storage: StoreRecord, memory: &mut [u8], message: &[u8], when: When, status: u8) -> StoreCalled {
    let When { satellite, week, time } = when;
    let (o, ol) = (memory.as_mut_ptr(), memory.len());
    unsafe { c::probe_store_store(storage, o, ol, message.as_ptr(), message.len(), satellite, week, time, status) }
}
