//! STAND-IN for merkle_tree.rs: the public key type that tesla.rs names, and no Merkle tree.
use crate::types::VerifyingKey;
use crate::validation::{NotValidated, Validated};

/// ECDSA public key, with its ID and whether it is validated.
#[derive(Debug, Clone)]
pub struct PublicKey<V> {
    key: VerifyingKey,
    id: u8,
    _validated: V,
}

impl PublicKey<NotValidated> {
    /// A P-256 key, not validated.
    pub fn from_p256(key: p256::ecdsa::VerifyingKey, id: u8) -> PublicKey<NotValidated> {
        PublicKey {
            key: key.into(),
            id,
            _validated: NotValidated {},
        }
    }
}

impl<V> PublicKey<V> {
    /// The key's ID.
    pub fn public_key_id(&self) -> u8 {
        self.id
    }

    /// The key.
    pub fn verifying_key(&self) -> &VerifyingKey {
        &self.key
    }

    /// The same key, marked as validated.
    pub fn force_valid(self) -> PublicKey<Validated> {
        PublicKey {
            key: self.key,
            id: self.id,
            _validated: Validated {},
        }
    }
}
