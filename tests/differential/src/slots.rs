//! The slots of a MACK message's tags: messages that are made to fit them, and the chain that the Rust judges them with. A pair
//! of sizes is the key's in bytes and the tag's in bits.
use crate::inputs::{Random, sizes};
use crate::model::{KEY_SIZES, TABLE, TAG_SIZES, num_tags};
use oracle::bitfields::DsmKroot;
use oracle::tesla::Chain;

/// PRND of what belongs to the constellation.
pub const CONSTELLATION: u8 = 255;

/// Writes half bytes from one on; all fields of a message start on half bytes.
fn half_bytes(mack: &mut [u8], first: usize, halves: &[u8]) {
    for (place, half) in (first..).zip(halves) {
        let byte = &mut mack[place / 2];
        *byte = if place % 2 == 0 { half << 4 | *byte & 0x0f } else { *byte & 0xf0 | half };
    }
}

/// The first half byte of the info of tag n.
fn info(tag_size: usize, n: usize) -> usize {
    (n * (tag_size + 16) + tag_size) / 4
}

pub fn put_prnd(mack: &mut [u8], tag_size: usize, n: usize, prnd: u8) {
    half_bytes(mack, info(tag_size, n), &[prnd >> 4, prnd & 15]);
}

pub fn put_adkd(mack: &mut [u8], tag_size: usize, n: usize, adkd: u8) {
    half_bytes(mack, info(tag_size, n) + 2, &[adkd]);
}

/// The pairs of listed sizes whose messages have nt tags.
pub fn sizes_of(nt: u64) -> Vec<(u64, u64)> {
    sizes().filter(|(key, tag)| num_tags(*key, *tag) == Ok(nt)).collect()
}

/// The slots of tags 1 to nt - 1 of a listed ID.
pub fn slots_of(maclt: u8, msg: usize) -> Vec<&'static str> {
    let row = TABLE.iter().find(|row| row.0 == u64::from(maclt)).expect("a listed ID");
    [row.2, row.3][msg].split(' ').collect()
}

/// PRND and ADKD that fit a slot, where 04S asks for `timing` in PRND; any at FLX.
fn fitting(random: &mut Random, slot: &str, sender: u8, timing: u8) -> (u8, u8) {
    match slot {
        "00S" => (sender, 0),
        "12S" => (sender, 12),
        "04S" => (timing, 4),
        "00E" => (1 + random.below(36) as u8, 0),
        "12E" => (1 + random.below(36) as u8, 12),
        _ => (random.number() as u8, random.below(16) as u8),
    }
}

/// Any bytes, as a MACK message whose tags fit the slots, as many of them as it has; 04S asks for `timing` in PRND.
pub fn fitted(random: &mut Random, sizes: (u64, u64), sender: u8, timing: u8, slots: &[&str]) -> Vec<u8> {
    let mut mack = random.bytes(60);
    let nt = num_tags(sizes.0, sizes.1).expect("listed sizes") as usize;
    for (n, slot) in (1..nt).zip(slots) {
        let (prnd, adkd) = fitting(random, slot, sender, timing);
        put_prnd(&mut mack, sizes.1 as usize, n, prnd);
        put_adkd(&mut mack, sizes.1 as usize, n, adkd);
    }
    mack
}

/// The Rust's chain of that table ID and those listed sizes, read from the front of a KROOT.
pub fn chain(maclt: u8, (key, tag): (u64, u64)) -> Chain {
    let place = |of: &[u64], size: u64| of.iter().position(|listed| *listed == size).expect("a listed size") as u8;
    let codes = place(&KEY_SIZES, key) << 4 | (place(&TAG_SIZES, tag) + 5);
    let kroot = [0x10, 0, codes, maclt, 0, 0, 0, 0, 0, 0, 0, 0, 0];
    let chain = Chain::from_dsm_kroot(DsmKroot(&kroot)).expect("listed sizes");
    let read = (chain.key_size_bytes() as u64, chain.tag_size_bits() as u64, chain.mac_lookup_table());
    assert_eq!(read, (key, tag, maclt));
    chain
}
