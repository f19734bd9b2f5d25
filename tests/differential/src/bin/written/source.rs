//! Messages of every shape with random values, and among them such as are to be refused, for one cause or for several.
use crate::bench::fill;
use crate::call::Call;
use crate::model::{Kind, LENT, kroot_key, pkr_key};
use differential::inputs::{Random, wide};

/// KROOT: the key size and the signature's length. PKR: the key type and the count.
pub type Shape = (Kind, u64, u64);

/// The shapes that fill their blocks: for KROOT each key size with each signature, for PKR type 3 in 16 blocks alone.
pub fn shapes() -> Vec<Shape> {
    let kroot = (0..9).flat_map(|size| [64, 132].map(|signature| (Kind::Kroot, size, signature)));
    let pkr = [1, 3, 4].into_iter().flat_map(|of_type| (7..11).map(move |count| (Kind::Pkr, of_type, count)));
    kroot.chain(pkr.filter(|(_, of_type, count)| *of_type != 3 || *count == 10)).collect()
}

pub fn shape(call: &Call) -> Shape {
    match call.kind {
        Kind::Kroot => (Kind::Kroot, call.values[5], call.parts[1].len() as u64),
        Kind::Pkr => (Kind::Pkr, call.values[2], call.values[0]),
    }
}

fn bytes(random: &mut Random, many: usize) -> Vec<u8> {
    let mut bytes = vec![0; many];
    fill(random, &mut bytes);
    bytes
}

/// A message of that shape, nothing of it to be refused.
fn whole(random: &mut Random, shape: Shape) -> Call {
    let (kind, code, other) = shape;
    let mut values: Vec<u64> = kind.rows().iter().map(|(_, width)| random.below(1 << width)).collect();
    let (id, lengths) = match kind {
        Kind::Kroot => {
            let (key, signature) = (kroot_key(code).unwrap(), other as usize);
            let blocks = (13 + key + signature).div_ceil(13);
            (values[0], values[5], values[6]) = (blocks as u64 - 6, code, 5 + random.below(5));
            (random.below(12), [key, signature, 13 * blocks - 13 - key - signature])
        }
        Kind::Pkr => {
            let key = pkr_key(code, other + 6).unwrap();
            (values[0], values[2]) = (other, code);
            (12 + random.below(4), [128, key, 13 * (other as usize + 6) - 130 - key])
        }
    };
    let parts = lengths.map(|many| bytes(random, many));
    Call { kind, id, values, parts, lent: LENT, order: None, cut: (LENT, 0, 0), read: None }
}

fn around(random: &mut Random, part: &mut Vec<u8>) {
    if random.below(2) == 0 {
        part.push(random.number() as u8);
    } else {
        part.pop();
    }
}

/// One cause more to refuse the message, mostly.
fn spoil(random: &mut Random, call: &mut Call) {
    let place = random.below(call.values.len() as u64) as usize;
    let width = call.kind.rows()[place].1;
    let [key, other] = match call.kind {
        Kind::Kroot => [0, 1],
        Kind::Pkr => [1, 0],
    };
    match random.below(12) {
        0 => call.values[place] = 1 << width,
        1 => call.values[place] |= 1 << width,
        2 => call.values[place] |= 1 << random.pick(&[width + 1, 48, 52, 56, 60, 63]),
        3 => {
            let id = random.below(20);
            let high = random.pick(&wide(id % 16));
            call.id = random.pick(&[id, id, 11, 12, 15, 16, high]);
        }
        4 => call.values[0] = random.below(16),
        5 if call.kind == Kind::Kroot => call.values[random.pick(&[5, 6])] = random.below(16),
        5 => call.values[2] = random.below(16),
        6 => around(random, &mut call.parts[key]),
        7 => around(random, &mut call.parts[2]),
        // the blocks are filled, by padding
        8 => {
            let more = 1 + random.below(7);
            call.values[0] += more;
            call.parts[2].extend(bytes(random, 13 * more as usize));
        }
        // the blocks are filled, but bytes went from one part to the other
        9 => {
            let (from, to) = random.pick(&[(key, 2), (2, key)]);
            let moved = call.parts[from].len().min(1 + random.below(12) as usize);
            let left = call.parts[from].len() - moved;
            let bytes = call.parts[from].split_off(left);
            call.parts[to].extend(bytes);
        }
        10 => call.lent = random.pick(&[0, 1, 13, 130, 207, 209, 221]),
        _ => call.parts[other] = random.bytes_of(&[0, 1, 63, 64, 65, 127, 128, 129, 131, 132, 133]),
    }
}

/// The next message; one of eight is spoilt.
pub fn call(random: &mut Random, shapes: &[Shape]) -> Call {
    let shape = random.pick(shapes);
    let mut call = whole(random, shape);
    if random.below(8) == 0 {
        for _ in 0..random.pick(&[1, 1, 2, 3]) {
            spoil(random, &mut call);
        }
    }
    if random.below(2) == 0 {
        call.order = Some(random.below(1 << 32));
    }
    let (any, n) = (random.below(20), random.below(20));
    let high = random.pick(&wide(n % 16));
    call.cut = (
        random.pick(&[LENT, LENT, LENT, LENT, LENT, LENT, 0, 1, 207, 209]),
        random.pick(&[call.id, call.id, call.id, any, any, high]),
        random.pick(&[n, n, n, n, n, high]),
    );
    if random.below(8) == 0 {
        let any = random.below(230) as usize;
        let many = random.pick(&[0, 1, 2, 6, 12, 13, 14, 129, 130, 131, any, any]);
        call.read = Some(bytes(random, many));
    }
    call
}
