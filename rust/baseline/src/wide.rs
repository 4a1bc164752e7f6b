//! Packing and unpacking in groups with 8-byte stores and loads. A group is four values in the high bits of a word, 48
//! or 56 of them. A word is stored whole, and what it has behind its group is stored over by the next; the last of a
//! block is stored with bytes before it, so that a block ends where its values end.

use crate::grouped;
use crate::way::{Blocks, Way};

/// In blocks of 16 values at 12 bits and of 32 at 14, in groups otherwise.
pub const WAY: Way = Way { pack, unpack };

const BLOCKS: Blocks = Blocks {
    pack: [pack12, pack14],
    unpack: [unpack12, unpack14],
    rest: grouped::WAY,
};

/// The low value of each half of a word of four 16-bit lanes.
const OF_12_BITS: u64 = 0x0FFF_0000_0FFF;
const OF_14_BITS: u64 = 0x3FFF_0000_3FFF;

/// The half that comes later.
const LATER: u64 = 0xFFFF_FFFF_0000_0000;

/// A [`Pack`](crate::way::Pack).
pub fn pack(values: &[u16], width: u32, out: &mut [u8], at: usize) -> Option<usize> {
    BLOCKS.pack(values, width, out, at)
}

/// An [`Unpack`](crate::way::Unpack).
pub fn unpack(bytes: &[u8], at: usize, width: u32, values: &mut [u16]) -> bool {
    BLOCKS.unpack(bytes, at, width, values)
}

fn pack12(values: &[u16], out: &mut [u8]) -> usize {
    let (blocks, rest) = values.as_chunks::<16>();
    for (block, bytes) in blocks.iter().zip(out.as_chunks_mut::<24>().0) {
        let [a, b, c, d] = [0, 4, 8, 12].map(|k| joined(&block[k..k + 4], 12));
        store(bytes, 0, a);
        store(bytes, 6, b);
        store(bytes, 12, c);
        store(bytes, 16, c << 32 | d >> 16);
    }
    values.len() - rest.len()
}

fn pack14(values: &[u16], out: &mut [u8]) -> usize {
    let (blocks, rest) = values.as_chunks::<32>();
    for (block, bytes) in blocks.iter().zip(out.as_chunks_mut::<56>().0) {
        let mut words = [0; 8];
        for (word, four) in words.iter_mut().zip(block.chunks_exact(4)) {
            *word = joined(four, 14);
        }
        for (k, &word) in words[..7].iter().enumerate() {
            store(bytes, 7 * k, word);
        }
        store(bytes, 48, words[6] << 48 | words[7] >> 8);
    }
    values.len() - rest.len()
}

fn unpack12(bytes: &[u8], values: &mut [u16]) -> usize {
    let blocks = values.as_chunks_mut::<16>().0;
    for (block, bytes) in blocks.iter_mut().zip(bytes.as_chunks::<24>().0) {
        let words = [0, 6, 12].map(|at| load(bytes, at));
        let last = load(bytes, 16) << 16;
        for (four, word) in block
            .chunks_exact_mut(4)
            .zip(words.into_iter().chain([last]))
        {
            let pairs = word >> 40 | word << 16 & LATER;
            spread(pairs >> 12 & OF_12_BITS | (pairs & OF_12_BITS) << 16, four);
        }
    }
    values.len() & !15
}

fn unpack14(bytes: &[u8], values: &mut [u16]) -> usize {
    let blocks = values.as_chunks_mut::<32>().0;
    for (block, bytes) in blocks.iter_mut().zip(bytes.as_chunks::<56>().0) {
        for (k, four) in block.chunks_exact_mut(4).enumerate() {
            let word = match k {
                7 => load(bytes, 48) << 8,
                _ => load(bytes, 7 * k),
            };
            let pairs = word >> 36 | word << 24 & LATER;
            spread(pairs >> 14 & OF_14_BITS | (pairs & OF_14_BITS) << 16, four);
        }
    }
    values.len() & !31
}

/// Four values of a width in the high bits of a word.
fn joined(four: &[u16], width: u32) -> u64 {
    let mask = (1 << width) - 1;
    let field = |k: u32| (u64::from(four[k as usize]) & mask) << (64 - width - width * k);
    field(0) | field(1) | field(2) | field(3)
}

/// The four lanes of a word, the lowest first.
fn spread(lanes: u64, four: &mut [u16]) {
    for (k, value) in four.iter_mut().enumerate() {
        *value = (lanes >> (16 * k)) as u16;
    }
}

/// The eight bytes of a word.
pub(crate) fn store(bytes: &mut [u8], at: usize, word: u64) {
    bytes[at..at + 8].copy_from_slice(&word.to_be_bytes());
}

/// Eight bytes as a word.
pub(crate) fn load(bytes: &[u8], at: usize) -> u64 {
    let mut word = [0; 8];
    word.copy_from_slice(&bytes[at..at + 8]);
    u64::from_be_bytes(word)
}
