//! Packing and unpacking in staged groups: the fastest way found.
//!
//! A group is eight 14-bit values in seven 16-bit lanes, or four 12-bit values in three. The gap of a width is what it
//! leaves of 16 bits, and lane `i` of a group holds what value `i` has left, and the beginning of value `i + 1`:
//!
//! ```text
//! lane i  = value i << gap * (i + 1) | value i+1 >> (width - gap * (i + 1))
//! value i = lane i >> gap * (i + 1)  | lane i-1 << (width - gap * i)
//! ```
//!
//! In the stage a group has one lane more than in the frame, so that lanes and values have the same places. Shifts that
//! go by the lane are multiplications by powers of two, of which the low 16 bits are a shift to the left and the high
//! ones a shift to the right: the compiler does eight at a time. Between stage and frame go words of four lanes.

use crate::way::{front, Blocks, Way};
use crate::wide;

/// In blocks of 64 values when packed and of 256 when unpacked, at 12 and 14 bits; with 8-byte stores and loads
/// otherwise.
pub const WAY: Way = Way { pack, unpack };

const BLOCKS: Blocks = Blocks {
    pack: [pack_blocks::<4>, pack_blocks::<2>],
    unpack: [unpack_blocks::<4>, unpack_blocks::<2>],
    rest: wide::WAY,
};

/// Values, and lanes, of a block.
const BLOCK: usize = 64;

/// Blocks that are unpacked together. A lane that was just copied, as a part of a word, costs more to read.
const TOGETHER: usize = 4;

/// Lanes before the first block in the stage; only the last of them is ever read.
const BEFORE: usize = 8;

/// Lanes, most significant byte first.
type Lanes = [[u8; 2]; BLOCK];

/// On cache lines of its own: elsewhere the time goes by where the stack is.
#[repr(align(128))]
struct Stage<const LANES: usize>([[u8; 2]; LANES]);

/// What lanes are multiplied by to get values, and the bits of a value.
#[repr(align(128))]
struct Split {
    factors: [u16; BLOCK],
    mask: u16,
}

static SPLIT12: Split = Split::of(4);
static SPLIT14: Split = Split::of(2);

impl Split {
    const fn of(gap: usize) -> Split {
        let mut factors = powers(gap);
        let mut lane = 0;
        while lane < BLOCK {
            factors[lane] = match factors[lane] {
                0 => 1,
                power => (0x1_0000 / power as u32) as u16,
            };
            lane += 1;
        }
        Split {
            factors,
            mask: 0xFFFF >> gap,
        }
    }
}

/// For each lane 2 to the power of gap * (i + 1); 0 for the last of a group, which is no part of the frame.
const fn powers(gap: usize) -> [u16; BLOCK] {
    let mut powers = [0; BLOCK];
    let mut lane = 0;
    while lane < BLOCK {
        powers[lane] = (1u32 << (gap * (lane % (16 / gap) + 1))) as u16;
        lane += 1;
    }
    powers
}

/// A [`Pack`](crate::way::Pack).
pub fn pack(values: &[u16], width: u32, out: &mut [u8], at: usize) -> Option<usize> {
    BLOCKS.pack(values, width, out, at)
}

/// An [`Unpack`](crate::way::Unpack).
pub fn unpack(bytes: &[u8], at: usize, width: u32, values: &mut [u16]) -> bool {
    BLOCKS.unpack(bytes, at, width, values)
}

/// Where a word of four lanes of the stage stands in a block's bytes.
const fn word_at(gap: usize, word: usize) -> usize {
    let left_out = word * gap / 4;
    8 * word - 2 * left_out
}

/// Blocks behind which there is at least one value: the last lane of a block goes to the two bytes behind it.
fn pack_blocks<const GAP: usize>(values: &[u16], out: &mut [u8]) -> usize {
    let length = BLOCK * (16 - GAP) / 8;
    let blocks = values.len().saturating_sub(1) / BLOCK;
    let mut stage = Stage([[0; 2]; BLOCK]);
    for k in 0..blocks {
        let values = &values[BLOCK * k..];
        join::<GAP>(front(values), front(&values[1..]), &mut stage.0);
        let bytes = &mut out[length * k..][..length + 2];
        for (word, lanes) in stage.0.as_flattened().chunks_exact(8).enumerate() {
            bytes[word_at(GAP, word)..][..8].copy_from_slice(lanes);
        }
    }
    BLOCK * blocks
}

/// The lanes of values. Not inlined, so that they go through memory; `next` begins one value later, and is a list of its
/// own so that it is loaded, not shifted together from `values`.
#[inline(never)]
fn join<const GAP: usize>(values: &[u16; BLOCK], next: &[u16; BLOCK], lanes: &mut Lanes) {
    let powers = const { powers(GAP) };
    for k in 0..BLOCK {
        let high = values[k].wrapping_mul(powers[k]);
        let low = (u32::from(next[k] << GAP) * u32::from(powers[k])) >> 16;
        lanes[k] = (high | low as u16).to_be_bytes();
    }
}

/// Blocks behind which there is at least one value: two bytes behind a block are loaded.
fn unpack_blocks<const GAP: usize>(bytes: &[u8], values: &mut [u16]) -> usize {
    let length = BLOCK * (16 - GAP) / 8;
    let turns = values.len().saturating_sub(1) / (TOGETHER * BLOCK);
    let by = if GAP == 4 { &SPLIT12 } else { &SPLIT14 };
    let mut stage = Stage([[0; 2]; BEFORE + TOGETHER * BLOCK]);
    let blocks = values.as_chunks_mut::<BLOCK>().0;
    for (turn, blocks) in blocks.chunks_exact_mut(TOGETHER).take(turns).enumerate() {
        let bytes = &bytes[TOGETHER * length * turn..];
        for (k, lanes) in stage.0[BEFORE..].chunks_exact_mut(BLOCK).enumerate() {
            let bytes = &bytes[length * k..][..length + 2];
            for (word, lanes) in lanes.as_flattened_mut().chunks_exact_mut(8).enumerate() {
                lanes.copy_from_slice(&bytes[word_at(GAP, word)..][..8]);
            }
        }
        for (k, values) in blocks.iter_mut().enumerate() {
            let lanes = &stage.0[BEFORE - 1 + BLOCK * k..];
            split(front(&lanes[1..]), front(lanes), by, values);
        }
    }
    TOGETHER * BLOCK * turns
}

/// The values of lanes; `before` begins one lane earlier, and what it has for the first lane of a group is masked out.
/// The factors are read at run time: known ones become shifts again, lane by lane.
#[inline(never)]
fn split(lanes: &Lanes, before: &Lanes, by: &Split, values: &mut [u16; BLOCK]) {
    for k in 0..BLOCK {
        let factor = by.factors[k];
        let low = (u32::from(u16::from_be_bytes(lanes[k])) * u32::from(factor)) >> 16;
        let high = u16::from_be_bytes(before[k]).wrapping_mul(factor);
        values[k] = (high | low as u16) & by.mask;
    }
}
