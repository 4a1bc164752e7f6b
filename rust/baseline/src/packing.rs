//! Packing and unpacking through an accumulator, one value after the other, a byte or four at a time.

use crate::way::Way;

/// A byte at a time.
pub const WAY: Way = Way { pack, unpack };

/// Four bytes at a time.
pub const WORDS: Way = Way {
    pack: pack_words,
    unpack: unpack_words,
};

/// Packs the low `width` bits of each value into `out` from the byte `at` on: how many bytes, or `None` without room.
pub fn pack(values: &[u16], width: u32, out: &mut [u8], at: usize) -> Option<usize> {
    if width > 16 {
        return None;
    }
    let length = (values.len() * width as usize).div_ceil(8);
    let end = at.checked_add(length)?;
    let mut bytes = out.get_mut(at..end)?.iter_mut();
    let mask = (1u64 << width) - 1;
    let (mut bits, mut have) = (0u64, 0);
    for &value in values {
        bits = bits << width | u64::from(value) & mask;
        have += width;
        while have >= 8 {
            have -= 8;
            *bytes.next()? = (bits >> have) as u8;
        }
    }
    if have > 0 {
        *bytes.next()? = (bits << (8 - have)) as u8;
    }
    Some(length)
}

/// Fills `values` with fields of `width` bits of `bytes` from the byte `at` on; whether there were so many.
pub fn unpack(bytes: &[u8], at: usize, width: u32, values: &mut [u16]) -> bool {
    if width > 16 {
        return false;
    }
    let length = (values.len() * width as usize).div_ceil(8);
    let Some(end) = at.checked_add(length) else {
        return false;
    };
    let Some(bytes) = bytes.get(at..end) else {
        return false;
    };
    let mut bytes = bytes.iter();
    let mask = (1u64 << width) - 1;
    let (mut bits, mut have) = (0u64, 0);
    for value in values {
        while have < width {
            bits = bits << 8 | u64::from(*bytes.next().unwrap_or(&0));
            have += 8;
        }
        have -= width;
        *value = (bits >> have & mask) as u16;
    }
    true
}

/// As [`pack`], four bytes at a time.
pub fn pack_words(values: &[u16], width: u32, out: &mut [u8], at: usize) -> Option<usize> {
    if width > 16 {
        return None;
    }
    let length = (values.len() * width as usize).div_ceil(8);
    let end = at.checked_add(length)?;
    let out = out.get_mut(at..end)?;
    let mask = (1u64 << width) - 1;
    let (mut bits, mut have, mut at) = (0u64, 0, 0);
    for &value in values {
        bits = bits << width | u64::from(value) & mask;
        have += width;
        if have >= 32 {
            have -= 32;
            let word = (bits >> have) as u32;
            out[at..at + 4].copy_from_slice(&word.to_be_bytes());
            at += 4;
        }
    }
    let rest = ((bits << (32 - have)) as u32).to_be_bytes();
    out[at..].copy_from_slice(&rest[..length - at]);
    Some(length)
}

/// As [`unpack`], four bytes at a time.
pub fn unpack_words(bytes: &[u8], at: usize, width: u32, values: &mut [u16]) -> bool {
    if width > 16 {
        return false;
    }
    let length = (values.len() * width as usize).div_ceil(8);
    let Some(end) = at.checked_add(length) else {
        return false;
    };
    let Some(bytes) = bytes.get(at..end) else {
        return false;
    };
    let (words, rest) = bytes.split_at(length - length % 4);
    let mut last = [0; 4];
    last[..rest.len()].copy_from_slice(rest);
    let mut words = words.chunks_exact(4);
    let mask = (1u64 << width) - 1;
    let (mut bits, mut have) = (0u64, 0);
    for value in values {
        if have < width {
            let word = words
                .next()
                .map_or(last, |word| [word[0], word[1], word[2], word[3]]);
            bits = bits << 32 | u64::from(u32::from_be_bytes(word));
            have += 32;
        }
        have -= width;
        *value = (bits >> have & mask) as u16;
    }
    true
}
