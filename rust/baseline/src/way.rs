//! What the ways to pack and unpack a list have in common: their two functions, where a list's bytes are, and how a
//! way that takes whole blocks hands the rest to another.

use crate::staged;
use std::ops::Range;

/// Packs the low `width` bits of each value into `out` from the byte `at` on: how many bytes, or `None` without room or
/// over 16 bits; then nothing is written.
pub type Pack = fn(values: &[u16], width: u32, out: &mut [u8], at: usize) -> Option<usize>;

/// Fills `values` with fields of `width` bits of `bytes` from the byte `at` on; whether there were so many. If not, or
/// over 16 bits, nothing is written.
pub type Unpack = fn(bytes: &[u8], at: usize, width: u32, values: &mut [u16]) -> bool;

/// A way to pack and unpack lists. All ways give the same.
#[derive(Clone, Copy, Debug)]
pub struct Way {
    /// How it packs.
    pub pack: Pack,
    /// How it unpacks.
    pub unpack: Unpack,
}

/// The fastest way.
pub const FASTEST: Way = staged::WAY;

/// The bytes of so many values from the byte `at` on; `None` over 16 bits.
pub(crate) fn place(count: usize, width: u32, at: usize) -> Option<Range<usize>> {
    if width > 16 {
        return None;
    }
    let length = (count * width as usize).div_ceil(8);
    Some(at..at.checked_add(length)?)
}

/// Packs whole blocks, from the front; how many values these are. Room has been judged: the bytes are all of the list's.
pub(crate) type PackBlocks = fn(values: &[u16], out: &mut [u8]) -> usize;

/// The mirror of [`PackBlocks`].
pub(crate) type UnpackBlocks = fn(bytes: &[u8], values: &mut [u16]) -> usize;

/// A way that takes whole blocks, each of which ends at a byte, and leaves the rest and other widths to another way.
pub(crate) struct Blocks {
    /// Of 12 and of 14 bits.
    pub pack: [PackBlocks; 2],
    /// Of 12 and of 14 bits.
    pub unpack: [UnpackBlocks; 2],
    /// What takes the rest.
    pub rest: Way,
}

impl Blocks {
    /// A [`Pack`].
    #[inline(always)]
    pub fn pack(&self, values: &[u16], width: u32, out: &mut [u8], at: usize) -> Option<usize> {
        let bytes = out.get_mut(place(values.len(), width, at)?)?;
        let whole = match width {
            12 => self.pack[0](values, bytes),
            14 => self.pack[1](values, bytes),
            _ => 0,
        };
        let packed = whole * width as usize / 8;
        (self.rest.pack)(&values[whole..], width, bytes, packed)?;
        Some(bytes.len())
    }

    /// An [`Unpack`].
    #[inline(always)]
    pub fn unpack(&self, bytes: &[u8], at: usize, width: u32, values: &mut [u16]) -> bool {
        let place = place(values.len(), width, at);
        let Some(bytes) = place.and_then(|place| bytes.get(place)) else {
            return false;
        };
        let whole = match width {
            12 => self.unpack[0](bytes, values),
            14 => self.unpack[1](bytes, values),
            _ => 0,
        };
        let unpacked = whole * width as usize / 8;
        (self.rest.unpack)(bytes, unpacked, width, &mut values[whole..])
    }
}

/// The first elements of a list that has so many.
pub(crate) fn front<T, const N: usize>(list: &[T]) -> &[T; N] {
    list.first_chunk().expect("a whole block")
}
