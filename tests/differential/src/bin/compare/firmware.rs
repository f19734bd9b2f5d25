//! The C boundary: the functions of the archive, behind a call.
use differential::call::{Answer, Call, Function, Good, MOST_ROOM, Takes};

/// The functions of one shape: declared, and found by their names.
macro_rules! shape {
    ($of:ident: $parameters:tt $($name:ident $symbol:ident)*) => {
        unsafe extern "C" { $(fn $symbol $parameters -> u32;)* }

        fn $of(function: Function) -> unsafe extern "C" fn $parameters -> u32 {
            match function {
                $(Function::$name => $symbol,)*
                _ => unreachable!(),
            }
        }
    };
}

shape! { header: (header: u64, value: *mut u64)
    nma_status osnma_nma_status
    chain_id osnma_chain_id
    chain_and_pubkey_status osnma_chain_and_pubkey_status
    dsm_id osnma_dsm_id
    dsm_block_id osnma_dsm_block_id
    dsm_type osnma_dsm_type
}
shape! { message_number: (msg: *const u8, len: usize, value: *mut u64)
    kroot_number_of_blocks osnma_kroot_number_of_blocks
    kroot_public_key_id osnma_kroot_public_key_id
    kroot_chain_id osnma_kroot_chain_id
    kroot_hash_function osnma_kroot_hash_function
    kroot_mac_function osnma_kroot_mac_function
    kroot_key_size_bytes osnma_kroot_key_size_bytes
    kroot_tag_size osnma_kroot_tag_size
    kroot_mac_lookup_table osnma_kroot_mac_lookup_table
    kroot_wn osnma_kroot_wn
    kroot_towh osnma_kroot_towh
    kroot_alpha osnma_kroot_alpha
    kroot_ecdsa_function osnma_kroot_ecdsa_function
    pkr_number_of_blocks osnma_pkr_number_of_blocks
    pkr_message_id osnma_pkr_message_id
    pkr_new_public_key_type osnma_pkr_new_public_key_type
    pkr_new_public_key_id osnma_pkr_new_public_key_id
    pkr_key_size osnma_pkr_key_size
}
shape! { message_part: (msg: *const u8, len: usize, first: *mut u64, many: *mut u64)
    kroot_kroot osnma_kroot_kroot
    kroot_digital_signature osnma_kroot_digital_signature
    kroot_padding osnma_kroot_padding
    pkr_new_public_key osnma_pkr_new_public_key
    pkr_padding osnma_pkr_padding
    pkr_merkle_tree_leaf osnma_pkr_merkle_tree_leaf
}
shape! { node: (msg: *const u8, len: usize, node: u64, first: *mut u64, many: *mut u64)
    pkr_intermediate_tree_node osnma_pkr_intermediate_tree_node
}
shape! { sizes: (key_size_bytes: u64, tag_size_bits: u64, value: *mut u64)
    mack_num_tags osnma_mack_num_tags
}
shape! { mack: (msg: *const u8, len: usize, key_size_bytes: u64, tag_size_bits: u64, value: *mut u64)
    mack_tag0 osnma_mack_tag0
    mack_macseq osnma_mack_macseq
    mack_cop osnma_mack_cop
}
shape! { mack_tag: (msg: *const u8, len: usize, key_size_bytes: u64, tag_size_bits: u64, tag: u64, value: *mut u64)
    mack_tag osnma_mack_tag
    mack_tag_info osnma_mack_tag_info
    mack_prnd osnma_mack_prnd
    mack_adkd osnma_mack_adkd
    mack_tag_cop osnma_mack_tag_cop
}
shape! { mack_key: (msg: *const u8, len: usize, key_size_bytes: u64, tag_size_bits: u64, out: *mut u8, out_len: usize)
    mack_key osnma_mack_key
}
shape! { entry: (id: u64, message: u64, tag: u64, flex: *mut u64, adkd: *mut u64, object: *mut u64)
    get_maclt_entry osnma_get_maclt_entry
}
shape! { flx: (id: u64, message: u64, count: *mut u64, positions: *mut u8, positions_len: usize)
    get_flx_indices osnma_get_flx_indices
}
shape! { id: (id: u64, value: *mut u64)
    maclt_nt osnma_maclt_nt
}
shape! { bits: (msg: *const u8, len: usize, start: u64, width: u64, value: *mut u64)
    read_bits osnma_read_bits
}

const UNWRITTEN: u64 = 0xa5a5_a5a5_a5a5_a5a5;
const UNWRITTEN_BYTE: u8 = 0xa5;

/// What a call gave, and whether it wrote where it may not: anything where it refuses, bytes behind
/// the output that was lent.
#[derive(Clone, Copy, PartialEq, Eq, Debug)]
pub struct Seen {
    pub answer: Answer,
    pub strayed: bool,
}

pub fn call(call: &Call) -> Seen {
    assert!(call.room <= MOST_ROOM);
    let f = call.function;
    let (msg, len) = (call.message.as_ptr(), call.message.len());
    let [a, b, c] = call.args;
    let mut values = [UNWRITTEN; 3];
    let mut output = [UNWRITTEN_BYTE; 2 * MOST_ROOM];
    let [v0, v1, v2] = &mut values;
    let out = output.as_mut_ptr();
    // The pointers are good for the lengths that go with them.
    let refusal = unsafe {
        match f.takes() {
            Takes::Header => header(f)(a, v0),
            Takes::Message if f.results() == 1 => message_number(f)(msg, len, v0),
            Takes::Message => message_part(f)(msg, len, v0, v1),
            Takes::Node => node(f)(msg, len, a, v0, v1),
            Takes::Sizes => sizes(f)(a, b, v0),
            Takes::Mack => mack(f)(msg, len, a, b, v0),
            Takes::MackTag => mack_tag(f)(msg, len, a, b, c, v0),
            Takes::MackKey => mack_key(f)(msg, len, a, b, out, call.room),
            Takes::Entry => entry(f)(a, b, c, v0, v1, v2),
            Takes::Flx => flx(f)(a, b, v0, out, call.room),
            Takes::Id => id(f)(a, v0),
            Takes::Bits => bits(f)(msg, len, a, b, v0),
        }
    };
    let (lent, behind) = output.split_at(call.room);
    let untouched = |bytes: &[u8]| bytes.iter().all(|byte| *byte == UNWRITTEN_BYTE);
    if refusal != 0 {
        let strayed = values != [UNWRITTEN; 3] || !untouched(&output);
        return Seen { answer: Err(refusal), strayed };
    }
    values[f.results()..].fill(0);
    let good = Good { values, ..Good::default() }.with_output(lent);
    Seen { answer: Ok(good), strayed: !untouched(behind) }
}
