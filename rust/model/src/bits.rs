//! Lists of bits, most significant first.

/// The `width` low bits of a number.
pub fn bits_of(width: u32, number: u64) -> Vec<bool> {
    (0..width).rev().map(|k| number >> k & 1 == 1).collect()
}

/// The number that bits say.
pub fn number_of(bits: &[bool]) -> u64 {
    bits.iter().fold(0, |n, &bit| n * 2 + u64::from(bit))
}

/// Numbers as fields of `width` bits, with no gap.
pub fn fields(width: u32, numbers: impl IntoIterator<Item = u64>) -> Vec<bool> {
    numbers
        .into_iter()
        .flat_map(|n| bits_of(width, n))
        .collect()
}

/// Bits as bytes; unused bits of the last byte are 0.
pub fn pack(bits: &[bool]) -> Vec<u8> {
    bits.chunks(8)
        .map(|chunk| (number_of(chunk) << (8 - chunk.len())) as u8)
        .collect()
}

/// The bits of bytes.
pub fn unpack(bytes: &[u8]) -> Vec<bool> {
    fields(8, bytes.iter().map(|&byte| u64::from(byte)))
}
