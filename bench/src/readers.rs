//! The field readers: those of the C boundary against the Rust's, which are bitvec's.
use crate::{Random, Work};
use oracle::bitfields::{Adkd, DsmHeader, DsmKroot, DsmPkr, Mack, NmaHeader, Prnd};
use oracle::bitvec::field::BitField;
use oracle::maclt::{MacLTSlot, get_flx_indices, get_maclt_entry};
use oracle::types::BitSlice;
use std::hint::black_box;

const MESSAGES: usize = 64;
const ROUNDS: usize = 2000;

const KEY_SIZE_BYTES: u64 = 16;

/// A key's size as the Rust counts it, for comparison with it.
pub fn bits_of(key_size_bytes: u64) -> u64 {
    8 * key_size_bytes
}

unsafe extern "C" {
    safe fn osnma_nma_status(header: u64, value: &mut u64) -> u32;
    safe fn osnma_chain_id(header: u64, value: &mut u64) -> u32;
    safe fn osnma_chain_and_pubkey_status(header: u64, value: &mut u64) -> u32;
    safe fn osnma_dsm_id(header: u64, value: &mut u64) -> u32;
    safe fn osnma_dsm_block_id(header: u64, value: &mut u64) -> u32;
    safe fn osnma_dsm_type(header: u64, value: &mut u64) -> u32;
    safe fn osnma_get_maclt_entry(id: u64, message: u64, tag: u64, f: &mut u64, a: &mut u64, o: &mut u64) -> u32;
    fn osnma_get_flx_indices(id: u64, message: u64, count: &mut u64, out: *mut u8, out_len: usize) -> u32;
    fn osnma_mack_key(
        msg: *const u8,
        len: usize,
        key_size_bytes: u64,
        tag_size_bits: u64,
        out: *mut u8,
        out_len: usize,
    ) -> u32;
    fn osnma_read_bits(msg: *const u8, len: usize, start: u64, width: u64, value: &mut u64) -> u32;
    fn osnma_pkr_intermediate_tree_node(msg: *const u8, len: usize, n: u64, first: &mut u64, many: &mut u64) -> u32;
}

/// Functions of one number, of a part, of a MACK and of a tag.
macro_rules! declare {
    ($($name:ident)*; $($part:ident)*; $($mack:ident)*; $($tag:ident)*) => {
        unsafe extern "C" {
            $(fn $name(msg: *const u8, len: usize, value: &mut u64) -> u32;)*
            $(fn $part(msg: *const u8, len: usize, first: &mut u64, many: &mut u64) -> u32;)*
            $(fn $mack(msg: *const u8, len: usize, key_size_bytes: u64, tag_size_bits: u64, value: &mut u64) -> u32;)*
            $(fn $tag(msg: *const u8, len: usize, key_size_bytes: u64, tag_size_bits: u64, tag: u64, value: &mut u64) -> u32;)*
        }
    };
}

declare! {
    osnma_kroot_number_of_blocks osnma_kroot_public_key_id osnma_kroot_chain_id osnma_kroot_key_size_bytes
    osnma_kroot_tag_size osnma_kroot_mac_lookup_table osnma_kroot_wn osnma_kroot_towh osnma_kroot_alpha
    osnma_kroot_ecdsa_function osnma_pkr_number_of_blocks osnma_pkr_message_id osnma_pkr_new_public_key_id
    osnma_pkr_key_size;
    osnma_kroot_kroot osnma_kroot_digital_signature osnma_kroot_padding osnma_pkr_new_public_key osnma_pkr_padding
    osnma_pkr_merkle_tree_leaf;
    osnma_mack_tag0 osnma_mack_macseq osnma_mack_cop;
    osnma_mack_tag osnma_mack_tag_info osnma_mack_prnd osnma_mack_adkd osnma_mack_tag_cop
}

/// A reader over all messages, many times: the sum of its numbers.
fn all(messages: &[Vec<u8>], read: impl Fn(&[u8]) -> u64) -> u64 {
    let mut sum = 0u64;
    for _ in 0..ROUNDS {
        for message in messages {
            sum = sum.wrapping_add(black_box(read(black_box(message))));
        }
    }
    sum
}

/// A reader of the Rust in the shape of a C function: a call that is not inlined, its number through a pointer.
#[inline(never)]
fn shaped(read: &impl Fn(&[u8]) -> u64, message: &[u8], value: &mut u64) -> u32 {
    *value = read(message);
    0
}

fn pair(name: &'static str, messages: &[Vec<u8>], rust: impl Fn(&[u8]) -> u64, port: impl Fn(&[u8]) -> u64) {
    let rust = |message: &[u8]| {
        let mut value = 0;
        shaped(&rust, message, &mut value);
        value
    };
    Work {
        name,
        units: ROUNDS * messages.len(),
        sides: vec![("Rust", Box::new(|| all(messages, rust))), ("C boundary", Box::new(|| all(messages, &port)))],
    }
    .print_pair();
}

/// Messages of one length, with some bytes set.
fn messages(length: usize, set: &[(usize, u8)]) -> Vec<Vec<u8>> {
    let mut random = Random::new(4);
    (0..MESSAGES)
        .map(|_| {
            let mut message = vec![0; length];
            random.fill(&mut message);
            set.iter().for_each(|(place, byte)| message[*place] = *byte);
            message
        })
        .collect()
}

/// The port's number; the pointers that it is given are good for the lengths.
macro_rules! port {
    ($call:ident $(, $arg:expr)*) => {
        |m: &[u8]| {
            let mut value = 0;
            let refusal = unsafe { $call(m.as_ptr(), m.len() $(, $arg)*, &mut value) };
            debug_assert_eq!(refusal, 0);
            value
        }
    };
}

macro_rules! header {
    ($call:ident) => {
        |m: &[u8]| {
            let mut value = 0;
            $call(m[0].into(), &mut value);
            value
        }
    };
}

macro_rules! part {
    ($call:ident $(, $arg:expr)*) => {
        |m: &[u8]| {
            let (mut first, mut many) = (0, 0);
            unsafe { $call(m.as_ptr(), m.len() $(, $arg)*, &mut first, &mut many) };
            first + many
        }
    };
}

/// First byte and length of a part.
fn lies(message: &[u8], part: &[u8]) -> u64 {
    (part.as_ptr() as usize - message.as_ptr() as usize + part.len()) as u64
}

pub fn run() {
    headers();
    kroot();
    pkr();
    mack();
    table();
}

fn headers() {
    let m = messages(1, &[]);
    pair("nma_status", &m, |m| NmaHeader::new(m[0]).nma_status() as u64, header!(osnma_nma_status));
    pair("chain_id", &m, |m| NmaHeader::new(m[0]).chain_id().into(), header!(osnma_chain_id));
    pair(
        "chain_and_pubkey_status",
        &m,
        |m| NmaHeader::new(m[0]).chain_and_pubkey_status() as u64,
        header!(osnma_chain_and_pubkey_status),
    );
    pair("dsm_id", &m, |m| DsmHeader(&[m[0]]).dsm_id().into(), header!(osnma_dsm_id));
    pair("dsm_block_id", &m, |m| DsmHeader(&[m[0]]).dsm_block_id().into(), header!(osnma_dsm_block_id));
    pair("dsm_type", &m, |m| DsmHeader(&[m[0]]).dsm_type() as u64, header!(osnma_dsm_type));
}

fn kroot() {
    // 8 blocks, key of 16 bytes, tags of 40 bits, P-256
    let m = messages(104, &[(0, 0x21), (2, 0x49)]);
    fn bits(m: &[u8], start: usize, width: usize) -> u64 {
        let (start, width) = (black_box(start), black_box(width));
        BitSlice::from_slice(m)[start..start + width].load_be()
    }
    pair(
        "kroot number_of_blocks",
        &m,
        |m| DsmKroot(m).number_of_blocks().unwrap() as u64,
        port!(osnma_kroot_number_of_blocks),
    );
    pair("kroot public_key_id", &m, |m| DsmKroot(m).public_key_id().into(), port!(osnma_kroot_public_key_id));
    pair("kroot kroot_chain_id", &m, |m| DsmKroot(m).kroot_chain_id().into(), port!(osnma_kroot_chain_id));
    let key_size_bytes = port!(osnma_kroot_key_size_bytes);
    pair("kroot key_size", &m, |m| DsmKroot(m).key_size().unwrap() as u64, |m| bits_of(key_size_bytes(m)));
    pair("kroot tag_size", &m, |m| DsmKroot(m).tag_size().unwrap() as u64, port!(osnma_kroot_tag_size));
    pair("kroot mac_lookup_table", &m, |m| DsmKroot(m).mac_lookup_table().into(), port!(osnma_kroot_mac_lookup_table));
    pair("kroot kroot_wn", &m, |m| DsmKroot(m).kroot_wn().into(), port!(osnma_kroot_wn));
    pair("kroot kroot_towh", &m, |m| DsmKroot(m).kroot_towh().into(), port!(osnma_kroot_towh));
    pair("kroot alpha", &m, |m| DsmKroot(m).alpha(), port!(osnma_kroot_alpha));
    pair(
        "kroot ecdsa_function",
        &m,
        |m| if DsmKroot(m).ecdsa_function() as u64 == 0 { 256 } else { 521 },
        port!(osnma_kroot_ecdsa_function),
    );
    pair("kroot kroot", &m, |m| lies(m, DsmKroot(m).kroot()), part!(osnma_kroot_kroot));
    pair(
        "kroot digital_signature",
        &m,
        |m| lies(m, DsmKroot(m).digital_signature()),
        part!(osnma_kroot_digital_signature),
    );
    pair("kroot padding", &m, |m| lies(m, DsmKroot(m).padding()), part!(osnma_kroot_padding));
    pair("64 bits at bit 3, bitvec alone", &m, |m| bits(m, 3, 64), port!(osnma_read_bits, 3, 64));
    pair("12 bits at bit 36, bitvec alone", &m, |m| bits(m, 36, 12), port!(osnma_read_bits, 36, 12));
}

fn pkr() {
    // 13 blocks, a P-256 key
    let m = messages(169, &[(0, 0x71), (129, 0x12)]);
    pair(
        "pkr number_of_blocks",
        &m,
        |m| DsmPkr(m).number_of_blocks().unwrap() as u64,
        port!(osnma_pkr_number_of_blocks),
    );
    pair("pkr message_id", &m, |m| DsmPkr(m).message_id().into(), port!(osnma_pkr_message_id));
    pair("pkr new_public_key_id", &m, |m| DsmPkr(m).new_public_key_id().into(), port!(osnma_pkr_new_public_key_id));
    pair("pkr key_size", &m, |m| DsmPkr(m).key_size().unwrap() as u64, port!(osnma_pkr_key_size));
    pair("pkr new_public_key", &m, |m| lies(m, DsmPkr(m).new_public_key().unwrap()), part!(osnma_pkr_new_public_key));
    pair("pkr padding", &m, |m| lies(m, DsmPkr(m).padding().unwrap()), part!(osnma_pkr_padding));
    pair(
        "pkr merkle_tree_leaf",
        &m,
        |m| lies(m, DsmPkr(m).merkle_tree_leaf().unwrap()),
        part!(osnma_pkr_merkle_tree_leaf),
    );
    pair(
        "pkr intermediate_tree_node",
        &m,
        |m| lies(m, DsmPkr(m).intermediate_tree_node(2)),
        part!(osnma_pkr_intermediate_tree_node, 2),
    );
}

fn mack() {
    // tag 1 of satellite 5, ADKD 4: at bit 96 with info at bit 96 + 40
    let m = messages(60, &[(12, 5), (13, 0x40)]);
    fn of(m: &[u8]) -> Mack<'_, oracle::validation::NotValidated> {
        Mack::new(m.try_into().unwrap(), bits_of(KEY_SIZE_BYTES) as usize, 40)
    }
    pair("mack tag0", &m, |m| of(m).tag0().load_be(), port!(osnma_mack_tag0, KEY_SIZE_BYTES, 40));
    pair("mack macseq", &m, |m| of(m).macseq().into(), port!(osnma_mack_macseq, KEY_SIZE_BYTES, 40));
    pair("mack cop", &m, |m| of(m).cop().into(), port!(osnma_mack_cop, KEY_SIZE_BYTES, 40));
    pair("mack tag", &m, |m| of(m).tag_and_info(1).tag().load_be(), port!(osnma_mack_tag, KEY_SIZE_BYTES, 40, 1));
    pair(
        "mack tag_info",
        &m,
        |m| of(m).tag_and_info(1).tag_info().load_be(),
        port!(osnma_mack_tag_info, KEY_SIZE_BYTES, 40, 1),
    );
    pair(
        "mack prnd",
        &m,
        |m| match of(m).tag_and_info(1).prnd() {
            Prnd::GalileoSvid(svid) => svid.into(),
            Prnd::GalileoConstellation => 255,
            Prnd::Reserved => 0,
        },
        port!(osnma_mack_prnd, KEY_SIZE_BYTES, 40, 1),
    );
    pair(
        "mack adkd",
        &m,
        |m| match of(m).tag_and_info(1).adkd() {
            Adkd::InavTiming => 4,
            Adkd::SlowMac => 12,
            _ => 0,
        },
        port!(osnma_mack_adkd, KEY_SIZE_BYTES, 40, 1),
    );
    pair("mack tag_cop", &m, |m| of(m).tag_and_info(1).cop().into(), port!(osnma_mack_tag_cop, KEY_SIZE_BYTES, 40, 1));
    pair("mack key, whole bytes", &m, rust_key::<40>, port_key::<40>);
    pair("mack key, half a byte in", &m, rust_key::<20>, port_key::<20>);
}

fn rust_key<const TAG: usize>(m: &[u8]) -> u64 {
    let mack = Mack::new(m.try_into().unwrap(), bits_of(KEY_SIZE_BYTES) as usize, TAG);
    let mut key = [0u8; 16];
    key.iter_mut().zip(mack.key().chunks(8)).for_each(|(byte, bits)| *byte = bits.load_be());
    u64::from(key[0]) + u64::from(key[15])
}

fn port_key<const TAG: u64>(m: &[u8]) -> u64 {
    let mut key = [0u8; 16];
    unsafe { osnma_mack_key(m.as_ptr(), m.len(), KEY_SIZE_BYTES, TAG, key.as_mut_ptr(), 16) };
    u64::from(key[0]) + u64::from(key[15])
}

fn table() {
    // message and tag from the first byte, all in range of ID 35
    let m = messages(1, &[]);
    fn place(m: &[u8]) -> (usize, usize) {
        (usize::from(m[0] & 1), 1 + usize::from(m[0] >> 1) % 5)
    }
    pair(
        "get_maclt_entry",
        &m,
        |m| {
            let (message, tag) = place(m);
            match get_maclt_entry(35, message, tag).unwrap() {
                MacLTSlot::Flex => 100,
                MacLTSlot::Fixed { adkd, .. } => match adkd {
                    Adkd::InavTiming => 4,
                    Adkd::SlowMac => 12,
                    _ => 0,
                },
            }
        },
        |m| {
            let (message, tag) = place(m);
            let (mut flex, mut adkd, mut object) = (0, 0, 0);
            osnma_get_maclt_entry(35, message as u64, tag as u64, &mut flex, &mut adkd, &mut object);
            100 * flex + adkd
        },
    );
    pair(
        "get_flx_indices",
        &m,
        |m| get_flx_indices(35, place(m).0).unwrap().map(|n| n as u64).sum(),
        |m| {
            let (mut count, mut out) = (0, [0; 4]);
            unsafe { osnma_get_flx_indices(35, place(m).0 as u64, &mut count, out.as_mut_ptr(), 4) };
            out.iter().map(|n| u64::from(*n)).sum()
        },
    );
}
