//! Optimised plain Rust of the same operations: what the proved library is timed against.
//!
//! Each function judges what the proved one judges and works in place. All are tested against `model`.
//!
//! Lists are packed and unpacked in several ways, each a [`way::Way`]: [`bitwise`], value by value ([`packing`]), in
//! groups ([`grouped`]), in groups with 8-byte stores and loads ([`wide`]), the same staged ([`words`]), and in staged
//! groups of lanes ([`staged`]).

pub mod bitwise;
pub mod chain;
pub mod compare;
pub mod current;
pub mod device;
pub mod grouped;
pub mod packing;
pub mod part;
pub mod reader;
pub mod sets;
pub mod staged;
pub mod watch;
pub mod way;
pub mod wide;
pub mod words;
pub mod writer;

/// A number of the table in docs/RULES.md, "Refusal numbers".
pub type Refusal = u8;
