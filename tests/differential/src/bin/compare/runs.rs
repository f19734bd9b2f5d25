//! Which calls are made: everything where there is little of it, else random ones from a seed.
use crate::Tally;
use differential::call::{Call, Function, Takes};
use differential::inputs::{Random, key_bytes, kroot_lengths as boundaries, set, sizes, wide};
use differential::model::{self, KEY_SIZES, TABLE, TAG_SIZES};
use differential::units::bits as bits_of;

/// Every byte, and numbers that are none.
pub fn headers(tally: &mut Tally) {
    for function in Function::ALL.iter().copied().filter(|f| f.takes() == Takes::Header) {
        for byte in 0..256 {
            tally.compare(&Call::new(function, &[], [byte, 0, 0]));
        }
        for byte in [0, 0x1b, 0xc5, 0xff].into_iter().flat_map(wide).chain([u64::MAX]) {
            tally.compare(&Call::new(function, &[], [byte, 0, 0]));
        }
    }
}

/// Every ID with messages 0 to 3 and tags 0 to 12, and numbers that look like a small one from below.
pub fn table(tally: &mut Tally) {
    let ids: Vec<u64> = TABLE.iter().flat_map(|row| wide(row.0)).chain(0..256).collect();
    let messages: Vec<u64> = [0, 1].into_iter().flat_map(wide).chain(0..4).collect();
    let tags: Vec<u64> = [0, 1, 4].into_iter().flat_map(wide).chain(0..13).collect();
    for id in ids {
        tally.compare(&Call::new(Function::maclt_nt, &[], [id, 0, 0]));
        for message in &messages {
            for room in [4, 0, 1, 3, 5, 64] {
                let call = Call::new(Function::get_flx_indices, &[], [id, *message, 0]);
                tally.compare(&Call { room, ..call });
            }
            for tag in &tags {
                tally.compare(&Call::new(Function::get_maclt_entry, &[], [id, *message, *tag]));
            }
        }
    }
}

pub fn num_tags(tally: &mut Tally) {
    let mut compare = |key, tag| tally.compare(&Call::new(Function::mack_num_tags, &[], [key, tag, 0]));
    for key in 0..=600 {
        for tag in 0..=64 {
            compare(key, tag);
        }
    }
    for key in KEY_SIZES {
        TAG_SIZES.into_iter().flat_map(wide).for_each(|tag| compare(key, tag));
    }
    for tag in TAG_SIZES {
        KEY_SIZES.into_iter().flat_map(wide).for_each(|key| compare(key, tag));
    }
}

/// Every length to 210 with every count and key size, and with every key size and tag size.
pub fn kroot_lengths(tally: &mut Tally, random: &mut Random) {
    for length in 0..=210 {
        let mut message = random.bytes(length);
        for high in 0..16 {
            for low in 0..16 {
                set(&mut message, 0, high << 4 | low);
                set(&mut message, 2, low << 4 | random.below(16) as u8);
                kroot(tally, &message);
                set(&mut message, 2, high << 4 | low);
                kroot(tally, &message);
            }
        }
    }
}

/// Every key size at the lengths where an answer changes, one beside each, and one and ten blocks on.
pub fn kroot_signatures(tally: &mut Tally, random: &mut Random) {
    for code in 0..16 {
        for length in boundaries(key_bytes(code)) {
            for length in [length.saturating_sub(1), length, length + 1, length + 13, length + 130] {
                let mut message = random.bytes(length);
                set(&mut message, 2, code << 4 | 9);
                kroot(tally, &message);
            }
        }
    }
}

/// Every length to 210 with every count and key type.
pub fn pkr_lengths(tally: &mut Tally, random: &mut Random) {
    for length in 0..=210 {
        let mut message = random.bytes(length);
        for count in 0..16 {
            for kind in 0..16 {
                set(&mut message, 0, count << 4 | random.below(16) as u8);
                set(&mut message, 129, kind << 4 | random.below(16) as u8);
                pkr(tally, &message);
                if length < 130 {
                    break;
                }
            }
        }
    }
}

/// Every single bit of a message set alone, and cleared alone: which bits a field is made of.
pub fn single_bits(tally: &mut Tally) {
    for ground in [0x00, 0xff] {
        for bit in 0..480 {
            let mut message = [ground; 60];
            message[bit / 8] ^= 0x80 >> (bit % 8);
            for (key, tag) in sizes() {
                mack(tally, &message, key, tag, 1..tags(key, tag));
            }
        }
        for bit in 0..8 * 14 {
            let mut message = [ground; 110];
            message[bit / 8] ^= 0x80 >> (bit % 8);
            kroot(tally, &message);
        }
        for bit in (0..8).chain(8 * 129..8 * 130) {
            let mut message = [ground; 208];
            message[bit / 8] ^= 0x80 >> (bit % 8);
            pkr(tally, &message);
        }
    }
}

/// Every start and width around a short message, and far ones.
pub fn bits(tally: &mut Tally, random: &mut Random) {
    for length in 0..=18 {
        let message = random.bytes(length);
        let mut compare = |start, width| tally.compare(&Call::new(Function::read_bits, &message, [start, width, 0]));
        for width in 0..=66 {
            (0..=8 * length as u64 + 2).for_each(|start| compare(start, width));
            (0..16).for_each(|before| compare(u64::MAX - before, width));
            [0, 1, 8].into_iter().flat_map(wide).for_each(|start| compare(start, width));
        }
        for width in [0, 1, 8, 64].into_iter().flat_map(wide).chain([u64::MAX]) {
            [0, 1, 8, u64::MAX].into_iter().for_each(|start| compare(start, width));
        }
    }
}

/// MACK: other lengths, sizes next to the lists and in bits, every tag number, and outputs that do not fit.
pub fn mack_refusals(tally: &mut Tally, random: &mut Random) {
    let message = random.bytes(130);
    for length in (0..=130).filter(|length| *length != 60) {
        mack(tally, &message[..length], 16, 40, 0..8);
        mack(tally, &message[..length], 17, 40, 0..8);
    }
    let near = |lists: &[u64]| -> Vec<u64> {
        let around =
            lists.iter().flat_map(|size| [size - 1, size + 1, size * 2, bits_of(*size)].into_iter().chain(wide(*size)));
        around.chain([0, 1, 479, 480, 481, u64::MAX]).collect()
    };
    for key in near(&KEY_SIZES) {
        TAG_SIZES.into_iter().for_each(|tag| mack(tally, &message[..60], key, tag, 0..12));
    }
    for tag in near(&TAG_SIZES) {
        KEY_SIZES.into_iter().for_each(|key| mack(tally, &message[..60], key, tag, 0..12));
    }
    for (key, tag) in sizes() {
        mack(tally, &message[..60], key, tag, 0..tags(key, tag) + 3);
        for n in [0, 1, tags(key, tag)].into_iter().flat_map(wide).chain([u64::MAX]) {
            for function in Function::of("mack_").filter(|f| f.takes() == Takes::MackTag) {
                tally.compare(&Call::new(function, &message[..60], [key, tag, n]));
            }
        }
        for room in 0..=64 {
            for length in [59, 60] {
                let call = Call::new(Function::mack_key, &message[..length], [key, tag, 0]);
                tally.compare(&Call { room, ..call });
                let call = Call::new(Function::mack_key, &message[..length], [bits_of(key), tag, 0]);
                tally.compare(&Call { room, ..call });
            }
        }
    }
}

pub fn random_round(tally: &mut Tally, random: &mut Random) {
    for _ in 0..2 {
        let message = random.kroot();
        kroot(tally, &message);
    }
    let message = random.pkr();
    pkr(tally, &message);
    let message = random.bytes(60);
    let (key, tag) = (random.pick(&KEY_SIZES), random.pick(&TAG_SIZES));
    mack(tally, &message, key, tag, 1..tags(key, tag));
    let outside = random.pick(&[0, tags(key, tag), tags(key, tag) + 1]);
    mack(tally, &message, key, tag, outside..outside + 1);
    for _ in 0..8 {
        let length = random.below(64);
        let message = random.bytes(length as usize);
        let width = 1 + random.below(64);
        let end = (8 * length).saturating_sub(random.below(8 * length + 1));
        let start = end.saturating_sub(width) + u64::from(random.below(16) == 0);
        tally.compare(&Call::new(Function::read_bits, &message, [start, width, 0]));
    }
    let id = random.pick(&TABLE).0;
    let args = [id, random.below(2), 1 + random.below(10)];
    tally.compare(&Call::new(Function::get_maclt_entry, &[], args));
}

/// The tags of listed sizes.
fn tags(key: u64, tag: u64) -> u64 {
    model::num_tags(key, tag).unwrap()
}

fn kroot(tally: &mut Tally, message: &[u8]) {
    for function in Function::of("kroot_") {
        tally.compare(&Call::new(function, message, [0; 3]));
    }
}

fn pkr(tally: &mut Tally, message: &[u8]) {
    for function in Function::of("pkr_") {
        if function.takes() == Takes::Node {
            for node in [0, 1, 2, 3, 4, 1 << 32 | 1] {
                tally.compare(&Call::new(function, message, [node, 0, 0]));
            }
        } else {
            tally.compare(&Call::new(function, message, [0; 3]));
        }
    }
}

fn mack(tally: &mut Tally, message: &[u8], key: u64, tag: u64, numbers: std::ops::Range<u64>) {
    for function in Function::of("mack_") {
        match function.takes() {
            Takes::Sizes => tally.compare(&Call::new(function, &[], [key, tag, 0])),
            Takes::MackTag => {
                for n in numbers.clone() {
                    tally.compare(&Call::new(function, message, [key, tag, n]));
                }
            }
            _ => tally.compare(&Call::new(function, message, [key, tag, 0])),
        }
    }
}
