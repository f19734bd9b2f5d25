//! record FILE: writes the list of recorded answers, a key's size in bits. Each answer is what the published Rust did; only
//! the number of a refusal is document 01's, where the Rust panics. The same list at each run.
use differential::answers::{Record, TIMING_TAGS, VALIDATE_ADKD, write};
use differential::call::{Call, Function as F, Takes};
use differential::inputs::{Random, key_bytes, kroot_lengths, set, sizes};
use differential::model::{self, TABLE};
use differential::published::{self, Said};
use differential::slots::{CONSTELLATION, chain, fitted, put_adkd, put_prnd, sizes_of, slots_of};
use differential::units::{bits as in_bits, call_in_bits};
use oracle::bitfields::{Adkd, Mack};
use oracle::maclt::MacLTError;
use oracle::tesla::AdkdCheckError;
use oracle::{Gst, Svn};
use std::collections::HashSet;
use std::process::exit;

struct List {
    random: Random,
    seen: HashSet<Vec<u8>>,
    /// By their function's number.
    records: Vec<(u8, Vec<u8>)>,
}

impl List {
    fn add(&mut self, function: F, message: &[u8], args: [u64; 3]) {
        let call = Call::new(function, message, args);
        let model = model::answer(&call);
        let said = published::ask(&call).unwrap_or_else(|| fail(&format!("{call}: the Rust is no judge of it")));
        if !said.agrees(function, model) {
            fail(&format!("{call}: the Rust and document 01 differ: {said:?}, {model:?}"));
        }
        let answer = match said {
            Said::Good(good) => Ok(good),
            _ => model,
        };
        let record =
            Record::new(&call_in_bits(&call), answer).unwrap_or_else(|| fail(&format!("{call}: fits no record")));
        let mut bytes = Vec::new();
        record.write(&mut bytes);
        self.push(function.number(), bytes);
    }

    fn push(&mut self, number: u8, bytes: Vec<u8>) {
        if self.seen.insert(bytes.clone()) {
            self.records.push((number, bytes));
        }
    }

    fn random_message(&mut self, length: usize) -> Vec<u8> {
        self.random.bytes(length)
    }
}

fn fail(why: &str) -> ! {
    eprintln!("record: {why}");
    exit(1)
}

fn main() {
    let Some(path) = std::env::args().nth(1) else {
        eprintln!("usage: record FILE");
        exit(2)
    };
    published::silence_panics();
    let mut list = List { random: Random::new(1), seen: HashSet::new(), records: Vec::new() };
    headers(&mut list);
    kroot_fields(&mut list);
    kroot_parts(&mut list);
    pkr_fields(&mut list);
    pkr_parts(&mut list);
    mack(&mut list);
    table(&mut list);
    bits(&mut list);
    slots(&mut list);
    timing(&mut list);
    list.records.sort_by_key(|(number, _)| *number);
    let bytes: Vec<u8> = list.records.iter().flat_map(|(_, bytes)| bytes.clone()).collect();
    std::fs::write(&path, &bytes).unwrap_or_else(|e| fail(&format!("{path}: {e}")));
    let functions = F::ALL.iter().map(|function| (function.number(), function.name()));
    for (number, name) in functions.chain([(VALIDATE_ADKD, "validate_adkd"), (TIMING_TAGS, "timing_tags")]) {
        let records = list.records.iter().filter(|(of, _)| *of == number);
        let refused = records.clone().filter(|(_, bytes)| bytes[3] != 0).count();
        println!("{number:>3} {name:<28}{:>6} records, {refused:>4} refused", records.count());
    }
    println!("{} records, {} bytes", list.records.len(), bytes.len());
}

/// None and all of the bits, each bit alone set and cleared, and both sides of the PKR's first ID.
fn headers(list: &mut List) {
    let single = (0..8).flat_map(|bit| [1 << bit, 255 - (1 << bit)]);
    let bytes: Vec<u64> = single.chain([0, 255, 0xbf, 0xc0, 0x52, 0xad]).collect();
    for function in F::ALL.iter().filter(|f| f.takes() == Takes::Header) {
        bytes.iter().for_each(|byte| list.add(*function, &[], [*byte, 0, 0]));
    }
}

/// The plain fields: every length to one past the need, every bit of the field and its neighbours
/// alone, every code of a half byte.
fn kroot_fields(list: &mut List) {
    let fields: [(F, usize, usize); 11] = [
        (F::kroot_number_of_blocks, 0, 4),
        (F::kroot_public_key_id, 4, 4),
        (F::kroot_chain_id, 8, 2),
        (F::kroot_hash_function, 12, 2),
        (F::kroot_mac_function, 14, 2),
        (F::kroot_key_size_bytes, 16, 4),
        (F::kroot_tag_size, 20, 4),
        (F::kroot_mac_lookup_table, 24, 8),
        (F::kroot_wn, 36, 12),
        (F::kroot_towh, 48, 8),
        (F::kroot_alpha, 56, 48),
    ];
    for (function, start, width) in fields {
        let need = (start + width).div_ceil(8);
        for length in 0..=need + 1 {
            let message = list.random_message(length);
            list.add(function, &message, [0; 3]);
            list.add(function, &vec![0xff; length], [0; 3]);
        }
        for bit in (start.max(1) - 1..=start + width).filter(|bit| *bit < 8 * need) {
            let mut message = vec![0; need];
            message[bit / 8] = 0x80 >> (bit % 8);
            list.add(function, &message, [0; 3]);
        }
        if width <= 4 {
            for code in 0..16u8 {
                let mut message = list.random_message(need);
                let shift = if start % 8 == 0 { 4 } else { 0 };
                let other = message[need - 1] & 0xf0 >> shift;
                message[need - 1] = code << shift | other;
                list.add(function, &message, [0; 3]);
            }
        }
    }
}

/// Every code of the key size, at the lengths where an answer changes and on both sides of each.
fn kroot_parts(list: &mut List) {
    for code in 0..16 {
        let reserved = code > 8;
        let lengths = kroot_lengths(key_bytes(code));
        let around: Vec<usize> = match reserved {
            true => vec![2, 3, 29, 104],
            false => {
                lengths[8..].iter().flat_map(|length| [length - 1, *length, length + 1]).chain([0, 2, 3]).collect()
            }
        };
        for length in around {
            let mut message = list.random_message(length);
            set(&mut message, 2, code << 4 | 9);
            for function in [F::kroot_kroot, F::kroot_ecdsa_function, F::kroot_digital_signature, F::kroot_padding] {
                if function != F::kroot_kroot || length <= 13 + key_bytes(code) + 1 {
                    list.add(function, &message, [0; 3]);
                }
            }
        }
    }
}

fn pkr_message(list: &mut List, length: usize, count: u8, kind: u8) -> Vec<u8> {
    let mut message = list.random_message(length);
    let low = list.random.below(256) as u8;
    set(&mut message, 0, count << 4 | low & 15);
    set(&mut message, 129, kind << 4 | low >> 4);
    message
}

fn pkr_fields(list: &mut List) {
    for function in [F::pkr_number_of_blocks, F::pkr_message_id] {
        list.add(function, &[], [0; 3]);
        for code in 0..16 {
            for byte in [code << 4 | 5, code * 17] {
                list.add(function, &[byte], [0; 3]);
            }
        }
        list.add(function, &[0x7a, 0xff], [0; 3]);
    }
    for function in [F::pkr_new_public_key_type, F::pkr_new_public_key_id, F::pkr_key_size] {
        for length in [0, 1, 128, 129, 131] {
            let message = pkr_message(list, length, 7, 1);
            list.add(function, &message, [0; 3]);
        }
        for kind in 0..16 {
            let message = pkr_message(list, 130, 7, kind);
            list.add(function, &message, [0; 3]);
        }
        for bit in 0..8 {
            let mut message = vec![0; 130];
            message[129] = 1 << bit;
            list.add(function, &message, [0; 3]);
        }
    }
    for kind in [1, 3, 4, 5] {
        for count in 0..16 {
            let message = pkr_message(list, 130, count, kind);
            list.add(F::pkr_key_size, &message, [0; 3]);
        }
    }
    for node in [0, 1, 2, 3, 4, 5, 256, u64::from(u32::MAX)] {
        let end = 33 + 32 * node.min(3) as usize;
        for length in [0, 1, end - 1, end, end + 1] {
            let message = list.random_message(length);
            list.add(F::pkr_intermediate_tree_node, &message, [node, 0, 0]);
        }
    }
}

/// Types 1, 3 and 4 with counts on both sides of the legal ones, at the lengths where an answer changes.
fn pkr_parts(list: &mut List) {
    for kind in 0..16 {
        let counts: &[u8] = match kind {
            1 | 3 | 4 => &[6, 7, 8, 9, 10, 11],
            _ => &[7],
        };
        for count in counts {
            let end = 13 * (usize::from(*count) + 6);
            let key_end = match kind {
                1 => 163,
                3 => 197,
                _ => end,
            };
            for length in [129, 130, key_end - 1, key_end, key_end + 1, end - 1, end, end + 1] {
                let good_kind = matches!(kind, 1 | 3 | 4);
                if length > 208 + 1 || !good_kind && !matches!(length, 129 | 130 | 169) {
                    continue;
                }
                let message = pkr_message(list, length, *count, kind);
                list.add(F::pkr_padding, &message, [0; 3]);
                // key and leaf look at the count for type 4 only
                if kind == 4 || *count == 7 || *count == 11 && length >= key_end {
                    list.add(F::pkr_new_public_key, &message, [0; 3]);
                    list.add(F::pkr_merkle_tree_leaf, &message, [0; 3]);
                }
            }
        }
    }
}

/// Every pair of sizes: the first, the last and one other tag, and the numbers beside them.
fn mack(list: &mut List) {
    for (key, tag) in sizes() {
        list.add(F::mack_num_tags, &[], [key, tag, 0]);
        let nt = model::num_tags(key, tag).unwrap();
        let message = list.random_message(60);
        for function in [F::mack_tag0, F::mack_macseq, F::mack_cop, F::mack_key] {
            list.add(function, &message, [key, tag, 0]);
        }
        let other = 1 + list.random.below(nt - 1);
        for function in F::of("mack_").filter(|f| f.takes() == Takes::MackTag) {
            [1, other, nt - 1].into_iter().for_each(|n| list.add(function, &message, [key, tag, n]));
        }
        for n in [0, nt, 257, 65537, u64::from(u32::MAX)] {
            let function =
                list.random.pick(&[F::mack_tag, F::mack_tag_info, F::mack_prnd, F::mack_adkd, F::mack_tag_cop]);
            list.add(function, &message, [key, tag, n]);
        }
        // a message in which all bits but those of the key are set: its edges
        let mut message = [0xff; 60];
        for bit in (nt * (tag + 16)) as usize..(nt * (tag + 16) + in_bits(key)) as usize {
            message[bit / 8] &= !(0x80 >> (bit % 8));
        }
        list.add(F::mack_key, &message, [key, tag, 0]);
    }
    for function in F::of("mack_").filter(|f| f.takes() == Takes::MackTag) {
        for n in [0, 1, 5, 6, 7] {
            list.add(function, &[0xff; 60], [16, 40, n]);
        }
    }
    // tag 1 of sizes 16 and 40: PRND in byte 12, ADKD and COP in byte 13
    for prnd in [0, 1, 2, 35, 36, 37, 127, 128, 254, 255] {
        let mut message = [0; 60];
        message[12] = prnd;
        list.add(F::mack_prnd, &message, [16, 40, 1]);
    }
    for code in 0..16 {
        let mut message = [0; 60];
        message[13] = code << 4 | 15 - code;
        for function in [F::mack_adkd, F::mack_tag_cop, F::mack_tag_info] {
            list.add(function, &message, [16, 40, 1]);
        }
    }
}

/// Every slot, the tag number behind the last, and IDs that are none.
fn table(list: &mut List) {
    let far = u64::from(u32::MAX);
    for id in TABLE.iter().map(|row| row.0) {
        list.add(F::maclt_nt, &[], [id, 0, 0]);
        let nt = TABLE.iter().find(|row| row.0 == id).unwrap().1;
        for message in 0..=2 {
            list.add(F::get_flx_indices, &[], [id, message, 0]);
        }
        for message in 0..=1 {
            for tag in (0..=nt + 1).chain([10]) {
                list.add(F::get_maclt_entry, &[], [id, message, tag]);
            }
        }
    }
    for id in [0, 1, 26, 29, 30, 32, 42, 128, 254, 255] {
        list.add(F::maclt_nt, &[], [id, 0, 0]);
        for message in [0, 1, 2, far] {
            list.add(F::get_flx_indices, &[], [id, message, 0]);
        }
        for (message, tag) in [(0, 1), (1, 1), (0, 10), (0, 0), (2, 1), (2, 0)] {
            list.add(F::get_maclt_entry, &[], [id, message, tag]);
        }
    }
    for (message, tag) in [(0, 257), (1, far), (2, 1), (256, 1), (257, 1), (far, 1), (far, 0), (1, 65537)] {
        list.add(F::get_maclt_entry, &[], [28, message, tag]);
    }
}

/// Every start in a byte with widths on both sides of whole bytes, in a message that just holds the
/// field and in one a byte shorter; widths that are none; starts past the end.
fn bits(list: &mut List) {
    for start in 0..8 {
        for width in [1, 2, 7, 8, 9, 15, 16, 17, 31, 32, 33, 55, 56, 57, 58, 63, 64] {
            let need = (start + width as usize).div_ceil(8);
            let message = list.random_message(need);
            list.add(F::read_bits, &message, [start as u64, width, 0]);
            list.add(F::read_bits, &message[..need - 1], [start as u64, width, 0]);
        }
    }
    let message = list.random_message(12);
    for width in [0, 65, 66, 72, 96, 97, 256, 264, u64::from(u32::MAX)] {
        for start in [0, 7, 96, 97] {
            list.add(F::read_bits, &message, [start, width, 0]);
        }
    }
    for start in [32, 33, 88, 95, 96, 97, 104, u64::from(u32::MAX)] {
        for width in [1, 8, 63, 64] {
            list.add(F::read_bits, &message, [start, width, 0]);
        }
    }
}

/// A tag that the Rust is asked about: the sender, the table ID and the message's number stand before the MACK message.
struct Tag {
    sizes: (u64, u64),
    sender: u8,
    maclt: u8,
    msg: u8,
    n: u64,
}

impl List {
    fn slot(&mut self, tag: &Tag, mack: &[u8]) {
        let Tag { sizes, sender, maclt, msg, n } = *tag;
        let read = Mack::new(mack.try_into().unwrap(), in_bits(sizes.0) as usize, sizes.1 as usize);
        let (svn, gst) = (Svn::try_from(sender).unwrap(), Gst::new(0, 30 * u32::from(msg)));
        let answer = match chain(maclt, sizes).validate_adkd(n as usize, read.tag_and_info(n as usize), svn, gst) {
            Ok(()) => Ok([0; 3]),
            Err(AdkdCheckError::WrongAdkd) => Ok([1, 0, 0]),
            Err(AdkdCheckError::WrongPrnd) => Ok([2, 0, 0]),
            Err(AdkdCheckError::MacLTError(MacLTError::InvalidMaclt)) => Err(8),
            Err(error) => fail(&format!("tag {n} of ID {maclt}: {error:?}")),
        };
        let message = [&[sender, maclt, msg], mack].concat();
        let mut bytes = Vec::new();
        write(&mut bytes, VALIDATE_ADKD, &message, [in_bits(sizes.0), sizes.1, n].map(|x| x as u32), answer, &[]);
        self.push(VALIDATE_ADKD, bytes);
    }

    /// The tag with that PRND and ADKD, where they are given.
    fn altered(&mut self, tag: &Tag, mack: &[u8], prnd: Option<u8>, adkd: Option<u8>) {
        let (mut mack, tag_size, n) = (mack.to_vec(), tag.sizes.1 as usize, tag.n as usize);
        prnd.into_iter().for_each(|prnd| put_prnd(&mut mack, tag_size, n, prnd));
        adkd.into_iter().for_each(|adkd| put_adkd(&mut mack, tag_size, n, adkd));
        self.slot(tag, &mack);
    }
}

/// Every slot, in messages whose other tags fit as the Rust has it: the tag fits too, its ADKD is another one, its PRND is none
/// of a satellite, its PRND is another satellite's, the sender's or 255. The pairs of sizes in turn. IDs of no table.
fn slots(list: &mut List) {
    let mut turn = 0;
    for (id, nt, ..) in TABLE {
        let (maclt, pairs) = (id as u8, sizes_of(nt));
        for (msg, n) in [0, 1].into_iter().flat_map(|msg| (1..nt).map(move |n| (msg, n))) {
            turn += 1;
            let sender = 1 + list.random.below(36) as u8;
            let tag = Tag { sizes: pairs[turn % pairs.len()], sender, maclt, msg, n };
            let slots = slots_of(maclt, msg.into());
            let mack = fitted(&mut list.random, tag.sizes, sender, sender, &slots);
            let adkd = Some(list.random.pick(&[1, 2, 4, 8, 12, 15]));
            let prnd = Some([0, 37, 128, 254][turn % 4]);
            list.slot(&tag, &mack);
            list.altered(&tag, &mack, None, adkd);
            list.altered(&tag, &mack, prnd, None);
            match slots[n as usize - 1] {
                "04S" => [CONSTELLATION, 1 + sender % 36].map(|prnd| list.altered(&tag, &mack, Some(prnd), None)),
                _ => [sender, CONSTELLATION].map(|prnd| list.altered(&tag, &mack, Some(prnd), None)),
            };
        }
    }
    for maclt in [0, 1, 26, 29, 30, 32, 42, 128, 254, 255] {
        let mack = list.random_message(60);
        list.slot(&Tag { sizes: (16, 40), sender: 2, maclt, msg: maclt % 2, n: 1 }, &mack);
    }
}

/// Every pair of sizes: the tags of a message that hold ADKD 4, ascending, nine bytes with zeros behind. Of the sizes with most tags
/// all do.
fn timing(list: &mut List) {
    for (key, tag) in sizes() {
        let mut mack = list.random_message(60);
        for n in 0..model::num_tags(key, tag).unwrap() as usize {
            let any = list.random.pick(&[0, 4, 4, 12, 5]);
            let adkd = if (key, tag) == (12, 20) { 4 } else { any };
            put_adkd(&mut mack, tag as usize, n, adkd);
        }
        let read = Mack::new(mack[..].try_into().unwrap(), in_bits(key) as usize, tag as usize);
        let tags = (1..read.num_tags()).filter(|n| read.tag_and_info(*n).adkd() == Adkd::InavTiming);
        let mut numbers: Vec<u8> = tags.map(|n| n as u8).collect();
        let count = numbers.len() as u64;
        numbers.resize(9, 0);
        let mut bytes = Vec::new();
        write(&mut bytes, TIMING_TAGS, &mack, [in_bits(key), tag, 0].map(|x| x as u32), Ok([count, 0, 0]), &numbers);
        list.push(TIMING_TAGS, bytes);
    }
}
