//! The published Rust: `Chain::validate_adkd` over the tags of a message, in order, as `Mack::validate` walks them, and its ADKDs.
use crate::call::Call;
use crate::probe::Told;
use crate::recorder::{Sizes, TimingTold, WalkTold};
use differential::slots::{CONSTELLATION, put_prnd};
use differential::units::bits;
use differential::{inputs, slots};
use oracle::bitfields::{Adkd, Mack};
use oracle::bitvec::field::BitField;
use oracle::maclt::{AuthObject, MacLTError, MacLTSlot, get_maclt_entry};
use oracle::tesla::{AdkdCheckError, Chain};
use oracle::validation::NotValidated;
use oracle::{Gst, Svn};
use std::sync::OnceLock;

/// The chain of an ID and a listed pair of sizes; all are made once.
fn chain(maclt: u8, sizes: Sizes) -> &'static Chain {
    static CHAINS: OnceLock<Vec<Chain>> = OnceLock::new();
    let all = || inputs::sizes().flat_map(|pair| (0..=255).map(move |maclt| slots::chain(maclt, pair))).collect();
    let pair = inputs::sizes().position(|pair| pair == sizes.pair()).expect("listed sizes");
    &CHAINS.get_or_init(all)[256 * pair + usize::from(maclt)]
}

fn read(mack: &[u8; 60], sizes: Sizes) -> Mack<'_, NotValidated> {
    Mack::new(mack, bits(sizes.key as u64) as usize, sizes.tag)
}

/// nt of a table, which the Rust keeps to itself: the first tag number that it refuses as one. None for an ID of no table.
pub fn table_nt(maclt: u8, msg: usize) -> Option<usize> {
    (1..).find_map(|n| match get_maclt_entry(maclt, msg, n) {
        Ok(_) => None,
        Err(MacLTError::InvalidTagNumber) => Some(Some(n)),
        Err(MacLTError::InvalidMaclt) => Some(None),
    })?
}

/// The message that the Rust is asked about. At 04S document 02 wants 255 in PRND and the Rust the sender's number, and each calls
/// the other's value wrong: there, and nowhere else, the two are exchanged. Any other PRND stays, and is wrong to both.
fn exchanged(call: &Call) -> [u8; 60] {
    const F04S: MacLTSlot = MacLTSlot::Fixed { adkd: Adkd::InavTiming, object: AuthObject::SelfAuth };
    let mut asked: [u8; 60] = call.mack[..].try_into().expect("60 bytes");
    let given = asked;
    let given = read(&given, call.sizes);
    for n in (1..given.num_tags()).filter(|n| get_maclt_entry(call.maclt, call.msg, *n) == Ok(F04S)) {
        let prnd = match given.tag_and_info(n).tag_info()[..8].load_be::<u8>() {
            CONSTELLATION => call.sender,
            prnd if prnd == call.sender => CONSTELLATION,
            prnd => prnd,
        };
        put_prnd(&mut asked, call.sizes.tag, n, prnd);
    }
    asked
}

/// The first error over the tags of a message.
fn first_error(call: &Call, asked: &[u8; 60], gst: Gst) -> Option<(usize, AdkdCheckError)> {
    let chain = chain(call.maclt, call.sizes);
    let sender = Svn::try_from(call.sender).expect("a satellite");
    let mack = read(asked, call.sizes);
    (1..mack.num_tags()).find_map(|n| {
        let error = chain.validate_adkd(n, mack.tag_and_info(n), sender, gst).err()?;
        Some((n, error))
    })
}

/// What the Rust says of the message with nothing exchanged.
pub fn as_it_stands(call: &Call) -> Option<(usize, AdkdCheckError)> {
    first_error(call, call.mack[..].try_into().expect("60 bytes"), Gst::new(0, 30 * call.msg as u32))
}

/// The verdict and the list that the Rust has of a call that is not refused with 1, 2 or 7, at a time of that message number.
pub fn walk(call: &Call, gst: Gst) -> WalkTold {
    let error = first_error(call, &exchanged(call), gst);
    let Some(table_nt) = table_nt(call.maclt, call.msg) else {
        assert_eq!(error, Some((1, AdkdCheckError::MacLTError(MacLTError::InvalidMaclt))));
        return WalkTold::refused(8);
    };
    let bytes = call.mack[..].try_into().expect("60 bytes");
    let mack = read(bytes, call.sizes);
    let nt = mack.num_tags();
    let slots = match error {
        // the Rust compares no nt: it walks the message's tags, and says where the table ends
        _ if nt != table_nt => Told::given(2, table_nt as u64, nt as u64),
        None => Told::given(0, 0, 0),
        Some((n, AdkdCheckError::WrongAdkd)) => Told::given(1, n as u64, 1),
        Some((n, AdkdCheckError::WrongPrnd)) => Told::given(1, n as u64, 2),
        Some((n, error)) => panic!("tag {n}: {error:?}"),
    };
    let TimingTold { timing, tags } = self::timing(bytes, call.sizes);
    WalkTold { slots, timing, tags }
}

/// The tags whose ADKD is the timing parameters'.
pub fn timing(mack: &[u8; 60], sizes: Sizes) -> TimingTold {
    let mack = read(mack, sizes);
    TimingTold::of((1..mack.num_tags()).filter(|n| mack.tag_and_info(*n).adkd() == Adkd::InavTiming))
}
