//! What the programs of this package share: the functions of the C boundary, the published Rust and
//! document 01 behind one kind of call, the inputs, messages that fit the look-up table's slots, the list of recorded answers,
//! and the unit of a key's size.
pub mod answers;
pub mod call;
pub mod fields;
pub mod inputs;
pub mod model;
pub mod published;
pub mod sequence;
pub mod slots;
pub mod units;
