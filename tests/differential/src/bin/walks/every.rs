//! Everything where there is little of it: every slot with every PRND and ADKD, every ID, every pair of sizes.
use crate::call::Call;
use crate::judge::Walks;
use crate::probe::Told;
use crate::recorder::{Sizes, WalkTold};
use crate::rust::{as_it_stands, table_nt};
use differential::inputs::{Random, sizes, wide};
use differential::model::TABLE;
use differential::sequence::caught;
use differential::slots::{CONSTELLATION, fitted, put_adkd, put_prnd, sizes_of, slots_of};
use oracle::tesla::AdkdCheckError;

/// Hands on what a check found, with the call that it was found at.
pub type Found = Result<(), (Call, String)>;

fn check(walks: &mut Walks, call: Call) -> Result<WalkTold, (Call, String)> {
    walks.check_both(&call).map_err(|text| (call, text))
}

/// A message of each pair of sizes that has as many tags as the ID, all of which fit.
fn bases(random: &mut Random, maclt: u8, nt: u64, msg: usize, sender: u8) -> Vec<Call> {
    let slots = slots_of(maclt, msg);
    let base = |pair: (u64, u64)| {
        let mack = fitted(random, pair, sender, CONSTELLATION, &slots);
        Call { mack, sizes: Sizes::of(pair), sender, maclt, msg }
    };
    sizes_of(nt).into_iter().map(base).collect()
}

/// The senders for which all ADKDs are tried; for the others those that have a name.
const SENDERS: [u8; 4] = [1, 2, 18, 36];

/// Tag n with every PRND and ADKD, the sizes in turn: that tag alone can break its slot.
fn tag(walks: &mut Walks, bases: &[Call], n: usize) -> Found {
    let sender = bases[0].sender;
    for adkd in (0..16).filter(|adkd| SENDERS.contains(&sender) || [0, 4, 12].contains(adkd)) {
        for prnd in 0..=255 {
            let mut call = bases[(usize::from(sender) + usize::from(adkd) + usize::from(prnd)) % bases.len()].clone();
            put_prnd(&mut call.mack, call.sizes.tag, n, prnd);
            put_adkd(&mut call.mack, call.sizes.tag, n, adkd);
            let told = walks.check(&call).map_err(|text| (call.clone(), text))?.slots;
            if told.first != 0 && (told.first, told.second) != (1, n as u64) {
                return Err((call, format!("{told:?}, and the tags but {n} fit")));
            }
        }
    }
    Ok(())
}

/// A message whose tags all fit. Asked as it stands, with nothing exchanged, the Rust calls PRND wrong at 04S, and nothing else;
/// whether it does.
fn fits(walks: &mut Walks, base: &Call) -> Result<bool, (Call, String)> {
    let told = check(walks, base.clone())?.slots;
    if told != Told::given(0, 0, 0) {
        return Err((base.clone(), format!("{told:?}, and all tags fit")));
    }
    let timing = slots_of(base.maclt, base.msg).iter().position(|slot| *slot == "04S");
    let error = caught(|| as_it_stands(base)).map_err(|text| (base.clone(), text))?;
    if error != timing.map(|place| (place + 1, AdkdCheckError::WrongPrnd)) {
        return Err((base.clone(), format!("asked as it stands the Rust says {error:?}")));
    }
    Ok(timing.is_some())
}

/// Every slot of the table, for every sender. How many of the messages that fit have a tag at 04S, and how many there are.
pub fn slots(walks: &mut Walks, random: &mut Random) -> Result<(u64, u64), (Call, String)> {
    let (mut timing, mut all) = (0, 0);
    for (id, nt, ..) in TABLE {
        for msg in 0..2 {
            for sender in 1..=36 {
                let bases = bases(random, id as u8, nt, msg, sender);
                for base in &bases {
                    timing += u64::from(fits(walks, base)?);
                    all += 1;
                }
                (1..nt as usize).try_for_each(|n| tag(walks, &bases, n))?;
            }
        }
    }
    Ok((timing, all))
}

/// Every ID, listed or not, with every pair of sizes and both message numbers: 8 for those that the Rust does not know, and both
/// nt where they differ.
pub fn ids(walks: &mut Walks, random: &mut Random) -> Found {
    for maclt in 0..=255 {
        for pair in sizes() {
            for msg in 0..2 {
                let sender = 1 + random.below(36) as u8;
                check(walks, Call { mack: random.bytes(60), sizes: Sizes::of(pair), sender, maclt, msg })?;
            }
        }
    }
    Ok(())
}

/// Message numbers above 1, for every ID: the Rust's look-up panics, and they are refused.
pub fn messages(walks: &mut Walks, random: &mut Random) -> Found {
    for maclt in 0..=255 {
        let above: Vec<usize> = (2..8).chain((0..2).flat_map(wide).map(|msg| msg as usize)).collect();
        for msg in above {
            let call = Call { mack: random.bytes(60), sizes: Sizes { key: 16, tag: 40 }, sender: 1, maclt, msg };
            let told = check(walks, call.clone())?;
            if caught(|| table_nt(maclt, msg)).is_ok() || told != WalkTold::refused(7) {
                return Err((call, format!("{:?}, where the Rust should panic", told.slots)));
            }
        }
    }
    Ok(())
}
