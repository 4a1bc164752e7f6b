//! Packing and unpacking bit by bit.

use crate::way::{place, Way};

/// Bit by bit.
pub const WAY: Way = Way { pack, unpack };

/// A [`Pack`](crate::way::Pack).
pub fn pack(values: &[u16], width: u32, out: &mut [u8], at: usize) -> Option<usize> {
    let bytes = out.get_mut(place(values.len(), width, at)?)?;
    let mut bit = 0;
    for value in values {
        for k in (0..width).rev() {
            shift_in(&mut bytes[bit / 8], value >> k);
            bit += 1;
        }
    }
    for unused in bit..8 * bytes.len() {
        shift_in(&mut bytes[unused / 8], 0);
    }
    Some(bytes.len())
}

/// An [`Unpack`](crate::way::Unpack).
pub fn unpack(bytes: &[u8], at: usize, width: u32, values: &mut [u16]) -> bool {
    let place = place(values.len(), width, at);
    let Some(bytes) = place.and_then(|place| bytes.get(place)) else {
        return false;
    };
    let mut bit = 0;
    for value in values {
        *value = 0;
        for _ in 0..width {
            *value = *value << 1 | u16::from(bytes[bit / 8] >> (7 - bit % 8) & 1);
            bit += 1;
        }
    }
    true
}

/// Shifts the lowest bit of a number into a byte; eight times, and nothing is left of what was there.
fn shift_in(byte: &mut u8, bit: u16) {
    *byte = *byte << 1 | (bit & 1) as u8;
}
