//! Walks at random: messages of any bytes, such as fit, and such as nearly do; among them calls that are to be refused, for one
//! cause or for several.
use crate::call::Call;
use crate::recorder::Sizes;
use differential::inputs::{Random, wide};
use differential::model::{KEY_SIZES, TABLE, TAG_SIZES, num_tags};
use differential::slots::{CONSTELLATION, fitted, put_adkd, put_prnd, sizes_of, slots_of};

/// Sizes of a listed pair, mostly such that the message has as many tags as the ID.
pub fn sizes(random: &mut Random, maclt: u8) -> Sizes {
    let nt = TABLE.iter().find(|row| row.0 == u64::from(maclt)).expect("a listed ID").1;
    if random.below(4) != 0 {
        return Sizes::of(random.pick(&sizes_of(nt)));
    }
    Sizes::of((random.pick(&KEY_SIZES), random.pick(&TAG_SIZES)))
}

pub fn listed_id(random: &mut Random) -> u8 {
    random.pick(&TABLE).0 as u8
}

/// A PRND, mostly one of those at which an answer changes.
fn prnd(random: &mut Random, sender: u8) -> u8 {
    let any = random.number() as u8;
    random.pick(&[0, 1, 36, 37, CONSTELLATION, CONSTELLATION, sender, sender, any, any])
}

fn adkd(random: &mut Random) -> u8 {
    let any = random.below(16) as u8;
    random.pick(&[0, 4, 4, 12, any])
}

/// Changes some tags of a message.
fn alter(random: &mut Random, call: &mut Call, nt: u64) {
    for _ in 0..random.pick(&[1, 1, 2, 3]) {
        let n = 1 + random.below(nt - 1) as usize;
        let (prnd, adkd) = (prnd(random, call.sender), adkd(random));
        if random.below(2) == 0 {
            put_prnd(&mut call.mack, call.sizes.tag, n, prnd);
        }
        if random.below(2) == 0 {
            put_adkd(&mut call.mack, call.sizes.tag, n, adkd);
        }
    }
}

/// Sets ADKD 4 as often as `many` (of 4) says, another or the same where it does not.
fn timing(random: &mut Random, call: &mut Call, nt: u64, many: u64) {
    for n in 1..nt as usize {
        let adkd = if random.below(4) < many { 4 } else { adkd(random) };
        put_adkd(&mut call.mack, call.sizes.tag, n, adkd);
    }
}

/// A call that nothing is to be refused of.
fn whole(random: &mut Random) -> Call {
    let maclt = listed_id(random);
    let (sizes, sender, msg) = (sizes(random, maclt), 1 + random.below(36) as u8, random.below(2) as usize);
    let nt = num_tags(sizes.pair().0, sizes.pair().1).expect("listed sizes");
    let mut call = Call { mack: random.bytes(60), sizes, sender, maclt, msg };
    match random.below(8) {
        0 => {}
        1 => {
            let many = random.pick(&[1, 2, 3, 4, 4]);
            timing(random, &mut call, nt, many);
        }
        shape => {
            call.mack = fitted(random, sizes.pair(), sender, CONSTELLATION, &slots_of(maclt, msg));
            if shape > 2 {
                alter(random, &mut call, nt);
            }
        }
    }
    call
}

/// A size that is not listed: in another unit, beside a listed one, or wide.
fn other_size(random: &mut Random, listed: &[u64]) -> usize {
    let size = random.pick(listed);
    let high = random.pick(&wide(size));
    let any = random.below(300);
    random.pick(&[8 * size, size / 4, size + 1, size - 1, 0, 1, 96, any, high, high, u64::MAX]) as usize
}

/// Sizes of which one or the other is mostly not listed.
pub fn spoil_sizes(random: &mut Random, sizes: &mut Sizes) {
    if random.below(2) == 0 {
        sizes.key = other_size(random, &KEY_SIZES);
    } else {
        sizes.tag = other_size(random, &TAG_SIZES);
    }
}

/// Not a satellite's number, or any.
pub fn other_satellite(random: &mut Random) -> u8 {
    let any = random.number() as u8;
    random.pick(&[0, 0, 37, 37, 38, 128, 255, any])
}

/// An ID of no table, mostly.
pub fn other_id(random: &mut Random) -> u8 {
    let any = random.number() as u8;
    random.pick(&[0, 26, 29, 30, 32, 42, 255, any])
}

/// One cause more to refuse the call, mostly.
fn spoil(random: &mut Random, call: &mut Call) {
    match random.below(5) {
        0 => call.mack = random.bytes_of(&[0, 1, 15, 59, 61, 120, 255]),
        1 => call.sender = other_satellite(random),
        2 => spoil_sizes(random, &mut call.sizes),
        3 => {
            let high = random.pick(&wide(call.msg as u64)) as usize;
            call.msg = random.pick(&[2, 3, usize::MAX, high, high]);
        }
        _ => call.maclt = other_id(random),
    }
}

/// The next call; one of four is spoilt.
pub fn call(random: &mut Random) -> Call {
    let mut call = whole(random);
    if random.below(4) == 0 {
        for _ in 0..random.pick(&[1, 1, 2, 2, 3, 5]) {
            spoil(random, &mut call);
        }
    }
    call
}
