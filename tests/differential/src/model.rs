//! Document 01 as a program, with a key's size in bytes as request 9 has it: what each function has to answer,
//! refusal numbers included. It shares no code with the Rust or the port. Where the paper can be read two ways (the order of PKR's checks above all) it
//! follows the project's readings, as the port does: such a reading is tested here, and not judged.
use crate::call::{Answer, Call, Function as F, Good};

const LENGTH: u32 = 1;
const PAST_THE_END: u32 = 5;
const RESERVED: u32 = 6;
const RANGE: u32 = 7;
const UNKNOWN_TABLE: u32 = 8;
const TAG_NUMBER: u32 = 9;
const CONTRADICTION: u32 = 11;

/// In bytes (request 9).
pub const KEY_SIZES: [u64; 9] = [12, 13, 14, 15, 16, 20, 24, 28, 32];
/// In bits.
pub const TAG_SIZES: [u64; 5] = [20, 24, 28, 32, 40];

/// "Look-up table": ID, nt, message 0, message 1.
pub const TABLE: [(u64, u64, &str, &str); 12] = [
    (27, 6, "00E 00E 00E 12S 00E", "00E 00E 04S 12S 00E"),
    (28, 10, "00E 00E 00E 00S 00E 00E 12S 00E 00E", "00E 00E 00S 00E 00E 04S 12S 00E 00E"),
    (31, 5, "00E 00E 12S 00E", "00E 00E 12S 04S"),
    (33, 6, "00E 04S 00E 12S 00E", "00E 00E 12S 00E 12E"),
    (34, 6, "F 04S F 12S 00E", "F 00E 12S 00E 12E"),
    (35, 6, "F 04S F 12S F", "F F 12S F F"),
    (36, 5, "F 04S F 12S", "F 00E 12S 12E"),
    (37, 5, "00E 04S 00E 12S", "00E 00E 12S 12E"),
    (38, 5, "F 04S F 12S", "F F 12S F"),
    (39, 4, "F 04S F", "F 00E 12S"),
    (40, 4, "00E 04S 12S", "00E 00E 12E"),
    (41, 4, "F 04S F", "F F 12S"),
];

pub fn answer(call: &Call) -> Answer {
    let m = call.message;
    let [a, b, c] = call.args;
    match call.function {
        F::nma_status => header(a, 0, 2).map(Good::value),
        F::chain_id => header(a, 2, 2).map(Good::value),
        F::chain_and_pubkey_status => header(a, 4, 3).map(Good::value),
        F::dsm_id => header(a, 0, 4).map(Good::value),
        F::dsm_block_id => header(a, 4, 4).map(Good::value),
        F::dsm_type => Ok(Good::value(if header(a, 0, 4)? >= 12 { 1 } else { 0 })),

        F::kroot_number_of_blocks => code(m, 0, 1, &[7, 8, 9, 10, 11, 12, 13, 14]).map(Good::value),
        F::kroot_public_key_id => field(m, 4, 4).map(Good::value),
        F::kroot_chain_id => field(m, 8, 2).map(Good::value),
        F::kroot_hash_function => field(m, 12, 2).map(Good::value),
        F::kroot_mac_function => field(m, 14, 2).map(Good::value),
        F::kroot_key_size_bytes => code(m, 16, 0, &KEY_SIZES).map(Good::value),
        F::kroot_tag_size => code(m, 20, 5, &TAG_SIZES).map(Good::value),
        F::kroot_mac_lookup_table => field(m, 24, 8).map(Good::value),
        F::kroot_wn => field(m, 36, 12).map(Good::value),
        F::kroot_towh => field(m, 48, 8).map(Good::value),
        F::kroot_alpha => field(m, 56, 48).map(Good::value),
        F::kroot_ecdsa_function => {
            let (_, many) = signature(m)?;
            Ok(Good::value(if many == 64 { 256 } else { 521 }))
        }
        F::kroot_kroot => part(m, 13, code(m, 16, 0, &KEY_SIZES)?),
        F::kroot_digital_signature => {
            let (first, many) = signature(m)?;
            part(m, first, many)
        }
        F::kroot_padding => {
            let (first, many) = signature(m)?;
            part(m, first + many, m.len() as u64 - first - many)
        }

        F::pkr_number_of_blocks => pkr_blocks(m).map(Good::value),
        F::pkr_message_id => field(m, 4, 4).map(Good::value),
        F::pkr_new_public_key_type => field(m, 1032, 4).map(Good::value),
        F::pkr_new_public_key_id => field(m, 1036, 4).map(Good::value),
        F::pkr_key_size => new_key_size(m).map(Good::value),
        F::pkr_intermediate_tree_node => {
            if a > 3 {
                return Err(RANGE);
            }
            part(m, 1 + 32 * a, 32)
        }
        F::pkr_new_public_key => part(m, 130, new_key_size(m)?),
        F::pkr_padding => {
            let key_end = 130 + new_key_size(m)?;
            let end = 13 * pkr_blocks(m)?;
            if key_end > end {
                return Err(CONTRADICTION);
            }
            part(m, key_end, end - key_end)
        }
        F::pkr_merkle_tree_leaf => part(m, 129, 1 + new_key_size(m)?),

        F::mack_num_tags => num_tags(a, b).map(Good::value),
        F::mack_tag0 => mack(call).and_then(|_| field(m, 0, b)).map(Good::value),
        F::mack_macseq => mack(call).and_then(|_| field(m, b, 12)).map(Good::value),
        F::mack_cop => mack(call).and_then(|_| field(m, b + 12, 4)).map(Good::value),
        F::mack_tag => tag(call).and_then(|start| field(m, start, b)).map(Good::value),
        F::mack_tag_info => tag(call).and_then(|start| field(m, start + b, 16)).map(Good::value),
        F::mack_prnd => tag(call).and_then(|start| field(m, start + b, 8)).map(Good::value),
        F::mack_adkd => tag(call).and_then(|start| field(m, start + b + 8, 4)).map(Good::value),
        F::mack_tag_cop => tag(call).and_then(|start| field(m, start + b + 12, 4)).map(Good::value),
        F::mack_key => {
            let start = mack(call)? * (b + 16);
            if call.room as u64 != a {
                return Err(LENGTH);
            }
            let mut key = [0; 32];
            for i in 0..a {
                key[i as usize] = field(m, start + 8 * i, 8)? as u8;
            }
            Ok(Good::default().with_output(&key[..call.room]))
        }

        F::get_maclt_entry => {
            if b > 1 || c == 0 {
                return Err(RANGE);
            }
            let (_, nt, slots) = entry(a, b)?;
            if c >= nt {
                return Err(TAG_NUMBER);
            }
            let slot = slots.split(' ').nth(c as usize - 1).unwrap();
            let values = match slot {
                "F" => [1, 0, 0],
                _ => [0, slot[..2].parse().unwrap(), if slot.ends_with('E') { 1 } else { 0 }],
            };
            Ok(Good { values, ..Good::default() })
        }
        F::get_flx_indices => {
            if call.room != 4 {
                return Err(LENGTH);
            }
            if b > 1 {
                return Err(RANGE);
            }
            let (_, _, slots) = entry(a, b)?;
            let mut positions = [0; 4];
            let mut count = 0;
            for (i, slot) in slots.split(' ').enumerate() {
                if slot == "F" {
                    positions[count] = i as u8 + 1;
                    count += 1;
                }
            }
            Ok(Good::value(count as u64).with_output(&positions))
        }
        F::maclt_nt => entry(a, 0).map(|(_, nt, _)| Good::value(nt)),

        F::read_bits => {
            if !(1..=64).contains(&b) {
                return Err(RANGE);
            }
            field(m, a, b).map(Good::value)
        }
    }
}

/// The number that bits make, numbered from the high bit of byte 0; 5 where the message ends before.
fn field(message: &[u8], start: u64, width: u64) -> Result<u64, u32> {
    if u128::from(start) + u128::from(width) > 8 * message.len() as u128 {
        return Err(PAST_THE_END);
    }
    let bit = |i: u64| u64::from(message[i as usize / 8] >> (7 - i % 8) & 1);
    Ok((start..start + width).fold(0, |number, i| number << 1 | bit(i)))
}

/// The bits of a header byte; 7 for a number that is no byte.
fn header(number: u64, start: u64, width: u64) -> Result<u64, u32> {
    let byte = u8::try_from(number).map_err(|_| RANGE)?;
    field(&[byte], start, width)
}

/// What a half byte stands for, by a list that begins with code `first`; 6 for another code.
fn code(message: &[u8], start: u64, first: u64, sizes: &[u64]) -> Result<u64, u32> {
    let code = field(message, start, 4)?;
    let place = code.checked_sub(first).ok_or(RESERVED)?;
    sizes.get(place as usize).copied().ok_or(RESERVED)
}

fn part(message: &[u8], first: u64, many: u64) -> Answer {
    if first + many > message.len() as u64 {
        return Err(PAST_THE_END);
    }
    Ok(Good::part(first, many))
}

/// KROOT, the signature's first byte and length: "With k key bytes, r = length - 13 - k (5 if below
/// zero): P-256 if r = 64 + ((13 - (k+64) mod 13) mod 13), P-521 if the same holds with 132 for 64,
/// else 11."
fn signature(message: &[u8]) -> Result<(u64, u64), u32> {
    let k = code(message, 16, 0, &KEY_SIZES)?;
    let r = (message.len() as u64).checked_sub(13 + k).ok_or(PAST_THE_END)?;
    for many in [64, 132] {
        if r == many + (13 - (k + many) % 13) % 13 {
            return Ok((13 + k, many));
        }
    }
    Err(CONTRADICTION)
}

fn pkr_blocks(message: &[u8]) -> Result<u64, u32> {
    code(message, 0, 7, &[13, 14, 15, 16])
}

/// "Type 1: 33 bytes; 3: 67; 4: 13 x count - 130; for others .. 6". Byte 129 is needed first.
fn new_key_size(message: &[u8]) -> Result<u64, u32> {
    match field(message, 1032, 4)? {
        1 => Ok(33),
        3 => Ok(67),
        4 => Ok(13 * pkr_blocks(message)? - 130),
        _ => Err(RESERVED),
    }
}

/// "the number of tags is (480 - 8 x key bytes) / (T + 16), and a size of 96 is then refused with 7"
pub fn num_tags(key_size_bytes: u64, tag_size_bits: u64) -> Result<u64, u32> {
    if !KEY_SIZES.contains(&key_size_bytes) || !TAG_SIZES.contains(&tag_size_bits) {
        return Err(RANGE);
    }
    Ok((480 - 8 * key_size_bytes) / (tag_size_bits + 16))
}

/// The number of tags of a MACK message that is not refused.
fn mack(call: &Call) -> Result<u64, u32> {
    if call.message.len() != 60 {
        return Err(LENGTH);
    }
    num_tags(call.args[0], call.args[1])
}

/// The first bit of tag n, 1 to nt - 1.
fn tag(call: &Call) -> Result<u64, u32> {
    let nt = mack(call)?;
    let [_, tag_size_bits, n] = call.args;
    if n < 1 || n >= nt {
        return Err(RANGE);
    }
    Ok(n * (tag_size_bits + 16))
}

/// ID, nt and the slots of a message number 0 or 1.
fn entry(id: u64, message: u64) -> Result<(u64, u64, &'static str), u32> {
    let row = TABLE.iter().find(|row| row.0 == id).ok_or(UNKNOWN_TABLE)?;
    Ok((row.0, row.1, if message == 0 { row.2 } else { row.3 }))
}
