//! Request 4 of document 02 as a program: what is refused, the verdict on the slots and the list of ADKD 4 tags. It shares no code
//! with the Rust or the port. Where the paper can be read two ways it follows the project's readings, as the port does.
use crate::call::Call;
use crate::complete::Question;
use crate::probe::{SubframeRecord, Told};
use crate::recorder::{Sizes, TimingTold, WalkTold};
use differential::model::{KEY_SIZES, TABLE, TAG_SIZES};
use differential::sequence::refusal;

/// What can be refused, in the paper's order ("document 01's 1, 2, 7, 8"): the number, and whether it is to be refused with it.
pub fn checks(call: &Call) -> [(u64, bool); 6] {
    let [key, tag] = size_checks(call.sizes);
    let sender = !(1..=36).contains(&call.sender);
    [(1, call.mack.len() != 60), (2, sender), key, tag, (7, call.msg > 1), (8, row(call.maclt).is_none())]
}

/// The same of the list alone: it asks for no sender and no table.
pub fn timing_checks(mack: &[u8], sizes: Sizes) -> [(u64, bool); 3] {
    let [key, tag] = size_checks(sizes);
    [(1, mack.len() != 60), key, tag]
}

/// The same of a satellite whose pair stands in the collector's memory.
pub fn complete_checks(record: &SubframeRecord, question: &Question) -> [(u64, bool); 9] {
    let [key, tag] = size_checks(question.sizes);
    [
        (1, question.lent.0 != 540),
        (1, question.lent.1 != 2160),
        (12, record.week > 4095),
        (12, record.subframe > 20_159),
        (12, record.counts.iter().any(|count| *count > 15)),
        (2, !(1..=36).contains(&question.satellite)),
        key,
        tag,
        (8, row(question.maclt).is_none()),
    ]
}

fn size_checks(sizes: Sizes) -> [(u64, bool); 2] {
    [(7, !KEY_SIZES.contains(&(sizes.key as u64))), (7, !TAG_SIZES.contains(&(sizes.tag as u64)))]
}

/// nt and the slots of both messages.
fn row(maclt: u8) -> Option<(usize, [&'static str; 2])> {
    let row = TABLE.iter().find(|row| row.0 == u64::from(maclt))?;
    Some((row.1 as usize, [row.2, row.3]))
}

/// Tags of a message: "(480 - 8 x key bytes) / (T + 16)".
fn message_nt(sizes: Sizes) -> usize {
    (480 - 8 * sizes.key) / (sizes.tag + 16)
}

/// PRND and ADKD of tag n: "Tag n .. starts at bit n(T+16): T bits, PRND 8 .., ADKD 4". The key's bytes stand behind.
fn info(mack: &[u8], sizes: Sizes, n: usize) -> (u64, u64) {
    let first = n * (sizes.tag + 16) + sizes.tag;
    let bytes = mack[first / 8..][..3].iter().fold(0, |number, byte| 256 * number + u64::from(*byte));
    let twelve = bytes >> (12 - first % 8);
    (twelve / 16 % 256, twelve % 16)
}

/// "A fixed slot asks for the same ADKD; S asks for the sender's number in PRND, but 255 for ADKD 4; E asks for a number 1 to
/// 36. FLX is not judged here." 0: it fits, 1: ADKD breaks it, 2: PRND does.
fn broken(slot: &str, sender: u8, (prnd, adkd): (u64, u64)) -> u64 {
    let fits = match slot {
        "F" => return 0,
        "04S" => prnd == 255,
        _ if slot.ends_with('S') => prnd == u64::from(sender),
        _ => (1..=36).contains(&prnd),
    };
    let asked: u64 = slot[..2].parse().expect("an ADKD");
    if adkd != asked { 1 } else { 2 * u64::from(!fits) }
}

/// "the first that breaks its slot, or that all fit", and before it whether "the table's nt and the message's differ"
fn verdict(call: &Call) -> Told {
    let (nt, slots) = row(call.maclt).expect("a listed ID");
    let tags = message_nt(call.sizes);
    if nt != tags {
        return Told::given(2, nt as u64, tags as u64);
    }
    for (n, slot) in (1..).zip(slots[call.msg].split(' ')) {
        let field = broken(slot, call.sender, info(&call.mack, call.sizes, n));
        if field != 0 {
            return Told::given(1, n as u64, field);
        }
    }
    Told::given(0, 0, 0)
}

/// "the message's tag numbers holding ADKD 4, ascending, whether or not the slots fit"
pub fn timing(mack: &[u8], sizes: Sizes) -> TimingTold {
    match refusal(timing_checks(mack, sizes)) {
        0 => TimingTold::of((1..message_nt(sizes)).filter(|n| info(mack, sizes, *n).1 == 4)),
        number => TimingTold::refused(number),
    }
}

pub fn walk(call: &Call) -> WalkTold {
    let number = refusal(checks(call));
    if number != 0 {
        return WalkTold::refused(number);
    }
    let TimingTold { timing, tags } = timing(&call.mack, call.sizes);
    WalkTold { slots: verdict(call), timing, tags }
}

/// The satellite's MACK where all its words are there and it is not silent (request 2), judged with its own number as the
/// sender's, and the record's subframe modulo 2 as the message's number.
pub fn complete(record: &SubframeRecord, hkroot: &[u8], mack: &[u8], question: &Question) -> WalkTold {
    let number = refusal(complete_checks(record, question));
    if number != 0 {
        return WalkTold::refused(number);
    }
    let Question { satellite: sender, sizes, maclt, .. } = *question;
    let place = usize::from(sender) - 1;
    let (hkroot, mack) = (&hkroot[15 * place..][..15], &mack[60 * place..][..60]);
    let silent = hkroot.iter().chain(mack).all(|byte| *byte == 0);
    if record.counts[place] != 15 || silent {
        return WalkTold::NOTHING;
    }
    walk(&Call { mack: mack.to_vec(), sizes, sender, maclt, msg: usize::from(record.subframe % 2) })
}
