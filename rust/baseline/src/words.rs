//! Packing and unpacking in groups that are staged as words: the library's own kind.
//!
//! A word has four values in its high bits, 48 or 56 of them. All words of a block are made before the first is stored,
//! and loaded before the first is taken apart, so that the compiler works on several at a time.

use crate::way::{front, Blocks, Way};
use crate::wide::{self, load, store};

/// In blocks of 128 values at 12 and 14 bits; with 8-byte stores and loads otherwise.
pub const WAY: Way = Way { pack, unpack };

const BLOCKS: Blocks = Blocks {
    pack: [pack_blocks::<12>, pack_blocks::<14>],
    unpack: [unpack_blocks::<12>, unpack_blocks::<14>],
    rest: wide::WAY,
};

/// Words of a block.
const WORDS: usize = 32;

/// Values of a block.
const BLOCK: usize = 4 * WORDS;

/// The lower of each two 16-bit lanes of a word.
const EVEN: u64 = 0xFFFF_0000_FFFF;

/// On cache lines of its own: elsewhere the time goes by where the stack is.
#[repr(align(128))]
struct Stage([u64; WORDS]);

/// A [`Pack`](crate::way::Pack).
pub fn pack(values: &[u16], width: u32, out: &mut [u8], at: usize) -> Option<usize> {
    BLOCKS.pack(values, width, out, at)
}

/// An [`Unpack`](crate::way::Unpack).
pub fn unpack(bytes: &[u8], at: usize, width: u32, values: &mut [u16]) -> bool {
    BLOCKS.unpack(bytes, at, width, values)
}

/// Blocks behind which there is at least one value: what a block's last word has too many goes to the bytes behind it.
fn pack_blocks<const WIDTH: usize>(values: &[u16], out: &mut [u8]) -> usize {
    let length = BLOCK * WIDTH / 8;
    let blocks = values.len().saturating_sub(1) / BLOCK;
    let mut stage = Stage([0; WORDS]);
    for k in 0..blocks {
        join::<WIDTH>(front(&values[BLOCK * k..]), &mut stage.0);
        let bytes = &mut out[length * k..][..length + 8 - WIDTH / 2];
        for (word, &joined) in stage.0.iter().enumerate() {
            store(bytes, WIDTH / 2 * word, joined);
        }
    }
    BLOCK * blocks
}

/// The words of values. Not inlined, so that they go through memory.
#[inline(never)]
fn join<const WIDTH: usize>(values: &[u16; BLOCK], words: &mut [u64; WORDS]) {
    let mask = 0x0001_0001_0001_0001 * ((1 << WIDTH) - 1);
    for (word, four) in words.iter_mut().zip(values.as_chunks::<4>().0) {
        let [a, b, c, d] = four.map(u64::from);
        let lanes = (a | b << 16 | c << 32 | d << 48) & mask;
        let pairs = (lanes & EVEN) << WIDTH | lanes >> 16 & EVEN;
        *word = pairs << (64 - 2 * WIDTH) | pairs >> 32 << (64 - 4 * WIDTH);
    }
}

/// Blocks behind which there is at least one value: eight bytes are loaded for a block's last word too.
fn unpack_blocks<const WIDTH: usize>(bytes: &[u8], values: &mut [u16]) -> usize {
    let length = BLOCK * WIDTH / 8;
    let blocks = values.len().saturating_sub(1) / BLOCK;
    let mut stage = Stage([0; WORDS]);
    for (k, values) in values.as_chunks_mut().0.iter_mut().take(blocks).enumerate() {
        let bytes = &bytes[length * k..][..length + 8 - WIDTH / 2];
        for (word, loaded) in stage.0.iter_mut().enumerate() {
            *loaded = load(bytes, WIDTH / 2 * word);
        }
        split::<WIDTH>(&stage.0, values);
    }
    BLOCK * blocks
}

/// The values of words. Not inlined, as above.
#[inline(never)]
fn split<const WIDTH: usize>(words: &[u64; WORDS], values: &mut [u16; BLOCK]) {
    let mask = 0x1_0000_0001 * ((1 << WIDTH) - 1);
    for (word, four) in words.iter().zip(values.as_chunks_mut::<4>().0) {
        let high = word >> (64 - 2 * WIDTH);
        let pairs = high | word << (2 * WIDTH) >> (64 - 2 * WIDTH) << 32;
        let lanes = pairs >> WIDTH & mask | (pairs & mask) << 16;
        *four = [0, 16, 32, 48].map(|k| (lanes >> k) as u16);
    }
}
