//! The published Rust behind a call. Three answers are not its own: the number behind a Reserved, which it
//! drops (read here with bitvec), nt of a table ID (found by asking for tags), and read_bits (bitvec alone).
use crate::call::{Answer, Call, Function as F, Good, Takes};
use crate::model::{KEY_SIZES, TAG_SIZES};
use crate::units::{answer_in_bits, call_in_bits};
use oracle::bitfields::{
    Adkd, ChainAndPubkeyStatus, DsmHeader, DsmKroot, DsmPkr, DsmType, EcdsaFunction, HashFunction, MacFunction, Mack,
    NewPublicKeyType, NmaHeader, NmaStatus, Prnd,
};
use oracle::bitvec::field::BitField;
use oracle::maclt::{AuthObject, MacLTError, MacLTSlot, get_flx_indices, get_maclt_entry};
use oracle::types::BitSlice;
use std::panic::{AssertUnwindSafe, catch_unwind, set_hook};

/// What the Rust did, a key's size in bits.
#[derive(Clone, Copy, PartialEq, Eq, Debug)]
pub enum Said {
    Good(Good),
    /// `None`
    Nothing,
    InvalidMaclt,
    InvalidTagNumber,
    Panic,
}

impl Said {
    /// "Rust's `None` .. from a field reader .. becomes 6, and the table's errors become 8 and 9." A panic
    /// is some refusal; document 01 says which.
    pub fn agrees(self, function: F, answer: Answer) -> bool {
        match self {
            Said::Good(good) => answer_in_bits(function, answer) == Ok(good),
            Said::Nothing => answer == Err(6),
            Said::InvalidMaclt => answer == Err(8),
            Said::InvalidTagNumber => answer == Err(9),
            Said::Panic => answer.is_err(),
        }
    }
}

/// Panics are answers here: none is printed.
pub fn silence_panics() {
    set_hook(Box::new(|_| {}));
}

/// Whether the Rust is a judge of this call: its arguments can be said in the Rust's types, and the
/// sizes of a MACK message are on the lists, since off them the Rust gives values that mean nothing.
pub fn judges(call: &Call) -> bool {
    let [a, b, _] = call.args;
    let byte = a <= 255;
    let sizes = KEY_SIZES.contains(&a) && TAG_SIZES.contains(&b);
    let room = call.room == Call::right_room(call.function, call.args);
    match call.function.takes() {
        Takes::Header | Takes::Entry | Takes::Id => byte,
        Takes::Flx => byte && room,
        Takes::Sizes => sizes,
        Takes::Mack | Takes::MackTag | Takes::MackKey => call.message.len() == 60 && sizes && room,
        Takes::Message | Takes::Node | Takes::Bits => true,
    }
}

/// What the Rust does where it is a judge.
pub fn ask(call: &Call) -> Option<Said> {
    judges(call).then(|| {
        let call = call_in_bits(call);
        catch_unwind(AssertUnwindSafe(|| run(&call))).unwrap_or(Said::Panic)
    })
}

/// A key's size in the call is in bits.
fn run(call: &Call) -> Said {
    match call.function.takes() {
        Takes::Header => Said::Good(Good::value(header(call.function, call.args[0] as u8))),
        Takes::Message | Takes::Node if call.function.name().starts_with("kroot") => kroot(call),
        Takes::Message | Takes::Node => pkr(call),
        Takes::Sizes => mack(call, &[0; 60]),
        Takes::Mack | Takes::MackTag | Takes::MackKey => mack(call, call.message.try_into().unwrap()),
        Takes::Entry | Takes::Flx | Takes::Id => maclt(call),
        Takes::Bits => {
            let start = call.args[0] as usize;
            let end = start.checked_add(call.args[1] as usize).unwrap();
            Said::Good(Good::value(BitSlice::from_slice(call.message)[start..end].load_be()))
        }
    }
}

fn header(function: F, byte: u8) -> u64 {
    let nma = NmaHeader::new(byte);
    let data = [byte];
    let dsm = DsmHeader(&data);
    match function {
        F::nma_status => match nma.nma_status() {
            NmaStatus::Reserved => 0,
            NmaStatus::Test => 1,
            NmaStatus::Operational => 2,
            NmaStatus::DontUse => 3,
        },
        F::chain_id => nma.chain_id().into(),
        F::chain_and_pubkey_status => match nma.chain_and_pubkey_status() {
            ChainAndPubkeyStatus::Reserved => 0,
            ChainAndPubkeyStatus::Nominal => 1,
            ChainAndPubkeyStatus::EndOfChain => 2,
            ChainAndPubkeyStatus::ChainRevoked => 3,
            ChainAndPubkeyStatus::NewPublicKey => 4,
            ChainAndPubkeyStatus::PublicKeyRevoked => 5,
            ChainAndPubkeyStatus::NewMerkleTree => 6,
            ChainAndPubkeyStatus::AlertMessage => 7,
        },
        F::dsm_id => dsm.dsm_id().into(),
        F::dsm_block_id => dsm.dsm_block_id().into(),
        F::dsm_type => match dsm.dsm_type() {
            DsmType::Kroot => 0,
            DsmType::Pkr => 1,
        },
        _ => unreachable!(),
    }
}

fn kroot(call: &Call) -> Said {
    let kroot = DsmKroot(call.message);
    match call.function {
        F::kroot_number_of_blocks => option(kroot.number_of_blocks()),
        F::kroot_public_key_id => value(kroot.public_key_id()),
        F::kroot_chain_id => value(kroot.kroot_chain_id()),
        F::kroot_hash_function => {
            let named = match kroot.hash_function() {
                HashFunction::Sha256 => Some(0),
                HashFunction::Sha3_256 => Some(2),
                HashFunction::Reserved => None,
            };
            raw(named, &[0, 2], bits(call.message, 12, 2))
        }
        F::kroot_mac_function => {
            let named = match kroot.mac_function() {
                MacFunction::HmacSha256 => Some(0),
                MacFunction::CmacAes => Some(1),
                MacFunction::Reserved => None,
            };
            raw(named, &[0, 1], bits(call.message, 14, 2))
        }
        F::kroot_key_size_bytes => option(kroot.key_size()),
        F::kroot_tag_size => option(kroot.tag_size()),
        F::kroot_mac_lookup_table => value(kroot.mac_lookup_table()),
        F::kroot_wn => value(kroot.kroot_wn()),
        F::kroot_towh => value(kroot.kroot_towh()),
        F::kroot_alpha => value(kroot.alpha()),
        F::kroot_ecdsa_function => value(match kroot.ecdsa_function() {
            EcdsaFunction::P256Sha256 => 256u64,
            EcdsaFunction::P521Sha512 => 521,
        }),
        F::kroot_kroot => part(call.message, kroot.kroot()),
        F::kroot_digital_signature => part(call.message, kroot.digital_signature()),
        F::kroot_padding => part(call.message, kroot.padding()),
        _ => unreachable!(),
    }
}

fn pkr(call: &Call) -> Said {
    let pkr = DsmPkr(call.message);
    let shown = |found: Option<&[u8]>| found.map_or(Said::Nothing, |p| part(call.message, p));
    match call.function {
        F::pkr_number_of_blocks => option(pkr.number_of_blocks()),
        F::pkr_message_id => value(pkr.message_id()),
        F::pkr_new_public_key_type => {
            let named = match pkr.new_public_key_type() {
                NewPublicKeyType::EcdsaKey(EcdsaFunction::P256Sha256) => Some(1),
                NewPublicKeyType::EcdsaKey(EcdsaFunction::P521Sha512) => Some(3),
                NewPublicKeyType::OsnmaAlertMessage => Some(4),
                NewPublicKeyType::Reserved => None,
            };
            raw(named, &[1, 3, 4], bits(call.message, 1032, 4))
        }
        F::pkr_new_public_key_id => value(pkr.new_public_key_id()),
        F::pkr_key_size => option(pkr.key_size()),
        F::pkr_intermediate_tree_node => part(call.message, pkr.intermediate_tree_node(call.args[0] as usize)),
        F::pkr_new_public_key => shown(pkr.new_public_key()),
        F::pkr_padding => shown(pkr.padding()),
        F::pkr_merkle_tree_leaf => shown(pkr.merkle_tree_leaf()),
        _ => unreachable!(),
    }
}

fn mack(call: &Call, message: &[u8; 60]) -> Said {
    let [key_size, tag_size, n] = call.args.map(|x| x as usize);
    let mack = Mack::new(message, key_size, tag_size);
    match call.function {
        F::mack_num_tags => value(mack.num_tags() as u64),
        F::mack_tag0 => value(mack.tag0().load_be::<u64>()),
        F::mack_macseq => value(mack.macseq()),
        F::mack_cop => value(mack.cop()),
        F::mack_tag => value(mack.tag_and_info(n).tag().load_be::<u64>()),
        F::mack_tag_info => value(mack.tag_and_info(n).tag_info().load_be::<u64>()),
        F::mack_prnd => {
            let tag = mack.tag_and_info(n);
            let named = match tag.prnd() {
                Prnd::GalileoSvid(svid) => Some(svid.into()),
                Prnd::GalileoConstellation => Some(255),
                Prnd::Reserved => None,
            };
            let mut names = [255; 37];
            names.iter_mut().zip(1..=36).for_each(|(name, svid)| *name = svid);
            raw(named, &names, tag.tag_info()[..8].load_be())
        }
        F::mack_adkd => {
            let tag = mack.tag_and_info(n);
            raw(adkd(tag.adkd()), &[0, 4, 12], tag.tag_info()[8..12].load_be())
        }
        F::mack_tag_cop => value(mack.tag_and_info(n).cop()),
        F::mack_key => {
            let mut key = [0; 32];
            let many = key.iter_mut().zip(mack.key().chunks(8)).map(|(byte, bits)| *byte = bits.load_be()).count();
            Said::Good(Good::default().with_output(&key[..many]))
        }
        _ => unreachable!(),
    }
}

fn maclt(call: &Call) -> Said {
    let id = call.args[0] as u8;
    let [message, tag] = [call.args[1], call.args[2]].map(|x| x as usize);
    let said = match call.function {
        F::get_maclt_entry => get_maclt_entry(id, message, tag).map(|slot| Good {
            values: match slot {
                MacLTSlot::Flex => [1, 0, 0],
                MacLTSlot::Fixed { adkd: of, object } => [
                    0,
                    adkd(of).unwrap(),
                    match object {
                        AuthObject::SelfAuth => 0,
                        AuthObject::CrossAuth => 1,
                    },
                ],
            },
            ..Good::default()
        }),
        F::get_flx_indices => get_flx_indices(id, message).map(|indices| {
            let mut positions = [0; 4];
            let mut count = 0;
            for index in indices {
                positions[count] = index as u8;
                count += 1;
            }
            Good::value(count as u64).with_output(&positions)
        }),
        // the Rust keeps nt to itself: it is the first tag number that both messages refuse
        F::maclt_nt => (1..)
            .find_map(|n| match [0, 1].map(|message| get_maclt_entry(id, message, n)) {
                [Ok(_), Ok(_)] => None,
                [Err(MacLTError::InvalidTagNumber), Err(MacLTError::InvalidTagNumber)] => {
                    Some(Ok(Good::value(n as u64)))
                }
                [first, second] => Some(Err(first.and(second).unwrap_err())),
            })
            .unwrap(),
        _ => unreachable!(),
    };
    match said {
        Ok(good) => Said::Good(good),
        Err(MacLTError::InvalidMaclt) => Said::InvalidMaclt,
        Err(MacLTError::InvalidTagNumber) => Said::InvalidTagNumber,
    }
}

fn adkd(of: Adkd) -> Option<u64> {
    match of {
        Adkd::InavCed => Some(0),
        Adkd::InavTiming => Some(4),
        Adkd::SlowMac => Some(12),
        Adkd::Reserved => None,
    }
}

fn bits(message: &[u8], start: usize, width: usize) -> u64 {
    BitSlice::from_slice(message)[start..start + width].load_be()
}

fn value(number: impl Into<u64>) -> Said {
    Said::Good(Good::value(number.into()))
}

fn option(number: Option<usize>) -> Said {
    number.map_or(Said::Nothing, |n| value(n as u64))
}

/// Where in the message a part lies.
fn part(message: &[u8], part: &[u8]) -> Said {
    let first = part.as_ptr() as usize - message.as_ptr() as usize;
    Said::Good(Good::part(first as u64, part.len() as u64))
}

/// The Rust's number of a named value, the field as it stands where the Rust says Reserved. A Reserved
/// that has a name becomes a number that no field holds.
fn raw(named: Option<u64>, names: &[u64], field: u64) -> Said {
    value(match named {
        Some(number) => number,
        None if names.contains(&field) => u64::MAX,
        None => field,
    })
}
