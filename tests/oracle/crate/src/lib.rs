//! The oracle: the published sources of galileo-osnma, unchanged (build.rs names them where they
//! stand), with stand-ins for `svn` and `merkle_tree::PublicKey`, which were not published
//! with them. This file takes the place of their lib.rs and makes the same names public.
#![cfg_attr(all(not(feature = "std"), not(test)), no_std)]

include!(concat!(env!("OUT_DIR"), "/published.rs"));

pub mod merkle_tree;
mod svn;

pub use gst::{Gst, Tow, Wn};
pub use merkle_tree::PublicKey;
pub use svn::{Svn, SvnError};
pub use types::{InavBand, MerkleTreeNode};
pub use validation::Validated;

/// `MackStorage` of 36 satellites by 12 subframes.
pub type FullMackStorage = mack::MackStorage<storage::FullStorage>;

// so that a test program uses the same versions of these crates
pub use bitvec;
pub use p256;
pub use sha2;
