//! The published Rust reads a message that was written: every field is what was given.
use crate::call::Call;
use crate::model::Kind;
use differential::model::{KEY_SIZES, TAG_SIZES};
use differential::units::bits;
use oracle::bitfields::{DsmKroot, DsmPkr, EcdsaFunction, HashFunction, MacFunction, NewPublicKeyType};
use std::fmt::Debug;

fn same<T: PartialEq + Debug>(field: &str, read: T, given: T) -> Result<(), String> {
    if read == given { Ok(()) } else { Err(format!("{field}: the Rust reads {read:x?}, given was {given:x?}")) }
}

pub fn read(call: &Call, message: &[u8]) -> Result<(), String> {
    match call.kind {
        Kind::Kroot => kroot(call, DsmKroot(message)),
        Kind::Pkr => pkr(call, DsmPkr(message)),
    }
}

fn kroot(call: &Call, read: DsmKroot) -> Result<(), String> {
    let v = &call.values;
    let [key, signature, padding] = &call.parts;
    let hash = match v[3] {
        0 => HashFunction::Sha256,
        2 => HashFunction::Sha3_256,
        _ => HashFunction::Reserved,
    };
    let mac = match v[4] {
        0 => MacFunction::HmacSha256,
        1 => MacFunction::CmacAes,
        _ => MacFunction::Reserved,
    };
    let curve = if signature.len() == 64 { EcdsaFunction::P256Sha256 } else { EcdsaFunction::P521Sha512 };
    let key_bits = bits(KEY_SIZES[v[5] as usize]) as usize;
    same("blocks", read.number_of_blocks(), Some(v[0] as usize + 6))?;
    same("public key ID", read.public_key_id().into(), v[1])?;
    same("chain", read.kroot_chain_id().into(), v[2])?;
    same("hash function", read.hash_function(), hash)?;
    same("MAC function", read.mac_function(), mac)?;
    same("key size in bits", read.key_size(), Some(key_bits))?;
    same("tag size", read.tag_size(), Some(TAG_SIZES[v[6] as usize - 5] as usize))?;
    same("look-up table", read.mac_lookup_table().into(), v[7])?;
    same("week", read.kroot_wn().into(), v[8])?;
    same("hour", read.kroot_towh().into(), v[9])?;
    same("alpha", read.alpha(), v[10])?;
    same("ECDSA function", read.ecdsa_function(), curve)?;
    same("key", read.kroot(), key)?;
    same("signature", read.digital_signature(), signature)?;
    same("padding", read.padding(), padding)
}

fn pkr(call: &Call, read: DsmPkr) -> Result<(), String> {
    let v = &call.values;
    let [nodes, key, padding] = &call.parts;
    let of_type = match v[2] {
        1 => NewPublicKeyType::EcdsaKey(EcdsaFunction::P256Sha256),
        3 => NewPublicKeyType::EcdsaKey(EcdsaFunction::P521Sha512),
        _ => NewPublicKeyType::OsnmaAlertMessage,
    };
    let leaf = [&[(16 * v[2] + v[3]) as u8], &key[..]].concat();
    same("blocks", read.number_of_blocks(), Some(v[0] as usize + 6))?;
    same("message ID", read.message_id().into(), v[1])?;
    for (n, node) in nodes.chunks(32).enumerate() {
        same("tree node", &read.intermediate_tree_node(n)[..], node)?;
    }
    same("key type", read.new_public_key_type(), of_type)?;
    same("key ID", read.new_public_key_id().into(), v[3])?;
    same("key size", read.key_size(), Some(key.len()))?;
    same("key", read.new_public_key(), Some(&key[..]))?;
    same("padding", read.padding(), Some(&padding[..]))?;
    same("leaf", read.merkle_tree_leaf(), Some(&leaf[..]))
}
