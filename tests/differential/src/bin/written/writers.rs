//! The functions of the archive `probe` over the writers: values as records, answers as numbers.
use crate::probe::Told;

/// The raw values of a KROOT message, in the order of their rows.
pub type KrootRecord = Values<11>;

/// The raw values of a PKR message, in the order of their rows.
pub type PkrRecord = Values<4>;

/// A record of numbers: in C it is laid out as an array of them.
#[repr(C)]
#[derive(Clone, Copy, PartialEq, Eq, Debug)]
pub struct Values<const N: usize>(pub [u64; N]);

#[repr(C)]
pub struct BlockCalled {
    pub bytes: [u8; 13],
    pub answer: Told,
}

#[repr(C)]
pub struct ValuesCalled<const N: usize> {
    pub values: Values<N>,
    pub answer: Told,
}

impl<const N: usize> ValuesCalled<N> {
    /// The values or the number of the refusal; u64::MAX where answer and values do not go together.
    pub fn told(&self) -> Result<Vec<u64>, u64> {
        match self.answer {
            answer if answer == Told::given(0, 0, 0) => Ok(self.values.0.to_vec()),
            answer if answer == Told::refused(answer.first) && self.values.0 == [0; N] => Err(answer.first),
            _ => Err(u64::MAX),
        }
    }
}

mod c {
    use super::*;

    unsafe extern "C" {
        pub fn probe_write_kroot(
            dsm: *mut u8,
            dsm_len: usize,
            id: u64,
            values: KrootRecord,
            key: *const u8,
            key_len: usize,
            signature: *const u8,
            signature_len: usize,
            padding: *const u8,
            padding_len: usize,
        ) -> Told;
        pub fn probe_write_pkr(
            dsm: *mut u8,
            dsm_len: usize,
            id: u64,
            values: PkrRecord,
            nodes: *const u8,
            nodes_len: usize,
            key: *const u8,
            key_len: usize,
            padding: *const u8,
            padding_len: usize,
        ) -> Told;
        pub fn probe_block(dsm: *const u8, dsm_len: usize, id: u64, n: u64) -> BlockCalled;
        pub fn probe_kroot_values(msg: *const u8, msg_len: usize) -> ValuesCalled<11>;
        pub fn probe_pkr_values(msg: *const u8, msg_len: usize) -> ValuesCalled<4>;
    }
}

// In all calls the pointers are good for the lengths that go with them.

pub fn write_kroot(dsm: &mut [u8], id: u64, values: KrootRecord, parts: [&[u8]; 3]) -> Told {
    let [(k, kl), (s, sl), (p, pl)] = parts.map(|part| (part.as_ptr(), part.len()));
    unsafe { c::probe_write_kroot(dsm.as_mut_ptr(), dsm.len(), id, values, k, kl, s, sl, p, pl) }
}

pub fn write_pkr(dsm: &mut [u8], id: u64, values: PkrRecord, parts: [&[u8]; 3]) -> Told {
    let [(n, nl), (k, kl), (p, pl)] = parts.map(|part| (part.as_ptr(), part.len()));
    unsafe { c::probe_write_pkr(dsm.as_mut_ptr(), dsm.len(), id, values, n, nl, k, kl, p, pl) }
}

pub fn block(dsm: &[u8], id: u64, n: u64) -> BlockCalled {
    unsafe { c::probe_block(dsm.as_ptr(), dsm.len(), id, n) }
}

pub fn kroot_values(msg: &[u8]) -> ValuesCalled<11> {
    unsafe { c::probe_kroot_values(msg.as_ptr(), msg.len()) }
}

pub fn pkr_values(msg: &[u8]) -> ValuesCalled<4> {
    unsafe { c::probe_pkr_values(msg.as_ptr(), msg.len()) }
}
