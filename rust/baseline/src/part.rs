//! The parts' constants, by number: 6972 and 6973 have two banks, 6974 and 6975 three; even ones have 12-bit values, odd
//! ones 14-bit. A command is its code C1 C0.

/// Code of an individual frame.
pub const INDIVIDUAL: u8 = 0;
/// Code of a calibration frame.
pub const CALIBRATION: u8 = 1;
/// Code of a global frame.
pub const GLOBAL: u8 = 2;
/// Code of a configuration frame.
pub const CONFIGURATION: u8 = 3;

/// Whether a number is a part's.
#[inline]
pub fn is_known(part: u16) -> bool {
    (6972..=6975).contains(&part)
}

/// Banks of eight outputs: bytes of a calibration slice, copies of a global or configuration byte.
#[inline]
pub fn banks(part: u16) -> usize {
    if part < 6974 {
        2
    } else {
        3
    }
}

/// Bits of an individual value.
#[inline]
pub fn width(part: u16) -> u32 {
    if part & 1 == 0 {
        12
    } else {
        14
    }
}

/// Clocks at either end of a subframe in which nothing is lit.
#[inline]
pub fn edge_zone(part: u16) -> u16 {
    if part & 1 == 0 {
        16
    } else {
        32
    }
}

/// Clocks per subframe.
#[inline]
pub fn clocks(part: u16) -> u16 {
    1 << width(part)
}

/// What a lit output sinks at calibration byte 0, and what each 1 of the byte adds, in eighths of a microamp.
#[inline]
pub fn currents(part: u16) -> (u32, u32) {
    if banks(part) == 2 {
        (88_000, 1375)
    } else {
        (48_000, 750)
    }
}

/// Subframes per frame.
#[inline]
pub fn subframes(part: u16, configuration: u8) -> u16 {
    let plain = match (part & 1, configuration & 0x10) {
        (0, _) => 128,
        (_, 0) => 32,
        _ => 8,
    };
    plain >> (configuration & 1)
}

/// Clocks of a frame of light, which are a power of two.
#[inline]
pub fn frame_clocks(part: u16, configuration: u8) -> u64 {
    match (part & 1, configuration & 0x10) {
        (0, _) | (_, 0) => 1 << 19,
        _ => 1 << 17,
    }
}

/// Individual values of one device.
#[inline]
pub fn values(part: u16, configuration: u8) -> usize {
    (8 * banks(part)) << (configuration & 1)
}

/// Bits of one field of a slice.
#[inline]
pub fn field_width(command: u8, part: u16) -> u32 {
    if command == INDIVIDUAL {
        width(part)
    } else {
        8
    }
}

/// Bits of one device's slice.
#[inline]
pub fn slice_bits(command: u8, part: u16, configuration: u8) -> usize {
    if command == INDIVIDUAL {
        values(part, configuration) * width(part) as usize
    } else {
        8 * banks(part)
    }
}
