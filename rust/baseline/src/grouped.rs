//! Packing and unpacking in groups that end at a byte: two 12-bit values in three bytes, four 14-bit values in seven.

use crate::packing;
use crate::way::{Blocks, Way};

/// In groups at 12 and 14 bits, value by value otherwise.
pub const WAY: Way = Way { pack, unpack };

const GROUPS: Blocks = Blocks {
    pack: [pack12, pack14],
    unpack: [unpack12, unpack14],
    rest: packing::WAY,
};

/// A [`Pack`](crate::way::Pack).
pub fn pack(values: &[u16], width: u32, out: &mut [u8], at: usize) -> Option<usize> {
    GROUPS.pack(values, width, out, at)
}

/// An [`Unpack`](crate::way::Unpack).
pub fn unpack(bytes: &[u8], at: usize, width: u32, values: &mut [u16]) -> bool {
    GROUPS.unpack(bytes, at, width, values)
}

fn pack12(values: &[u16], out: &mut [u8]) -> usize {
    let (pairs, rest) = values.as_chunks::<2>();
    for ([a, b], bytes) in pairs.iter().zip(out.as_chunks_mut::<3>().0) {
        let between = (a << 4) as u8 | (b >> 8 & 0xF) as u8;
        *bytes = [(a >> 4) as u8, between, *b as u8];
    }
    values.len() - rest.len()
}

fn pack14(values: &[u16], out: &mut [u8]) -> usize {
    let (fours, rest) = values.as_chunks::<4>();
    for (four, bytes) in fours.iter().zip(out.as_chunks_mut::<7>().0) {
        let [a, b, c, d] = four.map(|v| u64::from(v & 0x3FFF));
        let bits = a << 42 | b << 28 | c << 14 | d;
        bytes.copy_from_slice(&bits.to_be_bytes()[1..]);
    }
    values.len() - rest.len()
}

fn unpack12(bytes: &[u8], values: &mut [u16]) -> usize {
    for (bytes, pair) in bytes.chunks_exact(3).zip(values.chunks_exact_mut(2)) {
        pair[0] = u16::from(bytes[0]) << 4 | u16::from(bytes[1] >> 4);
        pair[1] = u16::from(bytes[1] & 0xF) << 8 | u16::from(bytes[2]);
    }
    values.len() & !1
}

fn unpack14(bytes: &[u8], values: &mut [u16]) -> usize {
    let fours = values.as_chunks_mut::<4>().0;
    for (bytes, four) in bytes.as_chunks::<7>().0.iter().zip(fours) {
        let mut word = [0; 8];
        word[1..].copy_from_slice(bytes);
        let bits = u64::from_be_bytes(word);
        *four = [42, 28, 14, 0].map(|k| (bits >> k & 0x3FFF) as u16);
    }
    values.len() & !3
}
