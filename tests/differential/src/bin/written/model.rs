//! Request 1 of document 02 as a program: what is refused, the bytes of a message, its blocks and its raw numbers. It shares
//! no code with the port. Where the paper can be read two ways it follows the project's readings, as the port does.
use crate::call::Call;
use crate::probe::Told;
use differential::model::KEY_SIZES;
use differential::sequence::refusal;
use oracle::bitvec::field::BitField;
use oracle::types::BitSlice;

/// "write the DSM into 208 lent bytes"
pub const LENT: usize = 208;

#[derive(Clone, Copy, PartialEq, Eq, Debug)]
pub enum Kind {
    Kroot,
    Pkr,
}

impl Kind {
    /// "ID 12..15 is PKR, 0..11 KROOT."
    pub fn of(id: u64) -> Kind {
        if id < 12 { Kind::Kroot } else { Kind::Pkr }
    }

    /// First bit and width of each value, as document 01 lists them.
    pub fn rows(self) -> &'static [(usize, usize)] {
        match self {
            Kind::Kroot => {
                &[(0, 4), (4, 4), (8, 2), (12, 2), (14, 2), (16, 4), (20, 4), (24, 8), (36, 12), (48, 8), (56, 48)]
            }
            Kind::Pkr => &[(0, 4), (4, 4), (1032, 4), (1036, 4)],
        }
    }

    /// "KROOT 1..8 gives 7..14, PKR 7..10 gives 13..16"
    pub fn blocks(self, code: u64) -> Option<u64> {
        let legal = match self {
            Kind::Kroot => 1..=8,
            Kind::Pkr => 7..=10,
        };
        legal.contains(&code).then(|| code + 6)
    }

    /// As the collector answers it.
    pub fn number(self) -> u64 {
        match self {
            Kind::Kroot => 0,
            Kind::Pkr => 1,
        }
    }
}

/// How long a key is, of that KROOT size.
pub fn kroot_key(size: u64) -> Option<usize> {
    KEY_SIZES.get(usize::try_from(size).ok()?).map(|bytes| *bytes as usize)
}

/// How long a key is, of that PKR type in so many blocks.
pub fn pkr_key(of_type: u64, blocks: u64) -> Option<usize> {
    match of_type {
        1 => Some(33),
        3 => Some(67),
        4 => Some(13 * blocks as usize - 130),
        _ => None,
    }
}

/// What can be refused, in the paper's order: the number, and whether the call is to be refused with it.
pub fn checks(call: &Call) -> [(u64, bool); 10] {
    let v = &call.values;
    let wide = v.iter().zip(call.kind.rows()).any(|(value, (_, width))| value >> width != 0);
    let [first, second, third] = call.parts.each_ref().map(Vec::len);
    let blocks = call.kind.blocks(v[0]);
    // lengths that nothing is said about cannot be wrong
    let not = |length: usize, said: Option<usize>| said.is_some_and(|said| said != length);
    let whole = blocks.map(|blocks| 13 * blocks as usize);
    match call.kind {
        Kind::Kroot => [
            (1, call.lent != LENT),
            (1, second != 64 && second != 132),
            (7, wide),
            (7, call.id > 11),
            (6, blocks.is_none()),
            (6, kroot_key(v[5]).is_none()),
            (6, !(5..=9).contains(&v[6])),
            (11, not(first, kroot_key(v[5]))),
            (11, third > 12),
            (11, not(13 + first + second + third, whole)),
        ],
        Kind::Pkr => [
            (1, call.lent != LENT),
            (1, first != 128),
            (7, wide),
            (7, call.id < 12),
            (7, call.id > 15),
            (6, blocks.is_none()),
            (6, ![1, 3, 4].contains(&v[2])),
            (11, blocks.is_some_and(|blocks| not(second, pkr_key(v[2], blocks)))),
            (11, not(130 + second + third, whole)),
            (11, false),
        ],
    }
}

/// The bytes of a message that is not refused; reserved bits are zero.
pub fn message(call: &Call) -> Vec<u8> {
    let v = &call.values;
    let [first, second, third] = &call.parts;
    match call.kind {
        Kind::Kroot => {
            let rows = call.kind.rows().iter().zip(v);
            let head: u128 = rows.map(|((start, width), value)| u128::from(*value) << (104 - start - width)).sum();
            [&head.to_be_bytes()[3..], first, second, third].concat()
        }
        Kind::Pkr => {
            let byte = |high: u64, low: u64| [(16 * high + low) as u8];
            [&byte(v[0], v[1]), &first[..], &byte(v[2], v[3]), second, third].concat()
        }
    }
}

/// Block n of what stands in the bytes: "high half DSM ID, low half block number", and 13 bytes; zeros where refused.
pub fn block(dsm: &[u8], id: u64, n: u64) -> (Told, [u8; 13]) {
    let blocks = dsm.first().and_then(|byte| Kind::of(id).blocks((byte >> 4).into()));
    let number = refusal([
        (1, dsm.len() != LENT),
        (7, id > 15),
        (7, n > 15),
        (6, blocks.is_none()),
        (7, blocks.is_some_and(|blocks| n >= blocks)),
    ]);
    if number != 0 {
        return (Told::refused(number), [0; 13]);
    }
    let at = 13 * n as usize;
    (Told::given(16 * id + n, 0, 0), dsm[at..at + 13].try_into().unwrap())
}

/// The raw numbers that stand in a message, by bitvec; none where it ends before one of them does.
pub fn numbers(kind: Kind, message: &[u8]) -> Option<Vec<u64>> {
    let bits = BitSlice::from_slice(message);
    kind.rows().iter().map(|(start, width)| bits.get(*start..start + width).map(|field| field.load_be())).collect()
}
