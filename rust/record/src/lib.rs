//! The device record that a chain is lent as: `struct bb_device` of `include/bractbeacon.h`; and a set as it is lent.
//!
//! Plain numbers: whatever they are, they make a record, and whether they fit is for each user to judge. The arrays
//! have places for three banks of eight outputs. A part with fewer banks uses the front of each, and the places behind
//! hold 0.

/// Phase: looking for SYNC at low load.
pub const HUNTING: u8 = 0;
/// Phase: taking the six command bits.
pub const OPENING: u8 = 1;
/// Phase: taking the ten count bits.
pub const COUNTING: u8 = 2;
/// Phase: taking its own slice.
pub const SLICE: u8 = 3;
/// Phase: sending every high state on.
pub const PASSING: u8 = 4;
/// Phase: ignoring high clocks.
pub const LOST: u8 = 5;

/// The most clocks of a limit, and where a count stops.
pub const MOST_STILL: u64 = 2_000_000;

/// A line that the watchdog watches.
#[repr(C)]
#[derive(Clone, Copy, Debug, PartialEq, Eq)]
pub struct Line {
    /// Clocks without a change, up to [`MOST_STILL`].
    pub still: u64,
    /// Where the line stands, 0 or 1.
    pub level: u8,
}

/// The watchdog of a device.
#[repr(C)]
#[derive(Clone, Copy, Debug, PartialEq, Eq)]
pub struct Watch {
    /// The data line.
    pub din: Line,
    /// The load line.
    pub loadi: Line,
    /// The limit of both counts, 1 to [`MOST_STILL`].
    pub limit: u32,
    /// The number of the configuration bit that enables it: 1, 2, 3, 5, 6 or 7.
    pub bit: u8,
}

/// What a device holds.
#[repr(C)]
#[derive(Clone, Copy, Debug, PartialEq, Eq)]
pub struct Registers {
    /// The part's number, 6972 to 6975.
    pub part: u16,
    /// Fault flag, 0 or 1.
    pub overtemperature: u8,
    /// Fault flag, 0 or 1.
    pub openled: u8,
    /// D0 multiplex, D4 GLB4.
    pub configuration: u8,
    /// A byte for each bank: Z, Y, or B, G, R.
    pub calibration: [u8; 3],
    /// Global byte, until the frame boundary.
    pub waiting: u8,
    /// Global byte in use.
    pub active: u8,
    /// MUX0 values, until the frame boundary.
    pub waiting0: [u16; 24],
    /// MUX1 values, until the frame boundary.
    pub waiting1: [u16; 24],
    /// MUX0 values in use.
    pub active0: [u16; 24],
    /// MUX1 values in use while D0 is 1.
    pub active1: [u16; 24],
    /// The slice coming in, a shift register for each field; multiplexed, two fields for each output.
    pub slice: [u16; 48],
    /// The position in the frame of light, in clocks: 0 when fresh, and below that frame's length.
    pub position: u64,
    /// The watchdog.
    pub watch: Watch,
}

/// Where a device is in a frame that comes in. Numbers that a phase does not use are 0.
#[repr(C)]
#[derive(Clone, Copy, Debug, PartialEq, Eq)]
pub struct Place {
    /// [`HUNTING`] to [`LOST`].
    pub phase: u8,
    /// C1 C0, while counting and in the slice.
    pub command: u8,
    /// The count received, in the slice.
    pub count: u16,
    /// The window of the last nine low bits, below 512; a leading one and the bits so far, of the command 1 (none yet) to
    /// 63, of the count 1 to 1023; or the slice's bits taken.
    pub read: u16,
}

/// One device.
#[repr(C)]
#[derive(Clone, Copy, Debug, PartialEq, Eq)]
pub struct Device {
    /// What it holds.
    pub registers: Registers,
    /// Where it is.
    pub place: Place,
}

impl Line {
    /// At level 0, with count 0.
    pub const FRESH: Line = Line { still: 0, level: 0 };
}

impl Watch {
    /// A fresh watchdog, told the number of its bit and its limit.
    pub const fn fresh(bit: u8, limit: u32) -> Watch {
        Watch {
            din: Line::FRESH,
            loadi: Line::FRESH,
            limit,
            bit,
        }
    }
}

impl Registers {
    /// Registers of a part with zeros and no faults, and with a watchdog of bit 1 and the largest limit.
    pub const fn zeros(part: u16) -> Registers {
        Registers {
            part,
            overtemperature: 0,
            openled: 0,
            configuration: 0,
            calibration: [0; 3],
            waiting: 0,
            active: 0,
            waiting0: [0; 24],
            waiting1: [0; 24],
            active0: [0; 24],
            active1: [0; 24],
            slice: [0; 48],
            position: 0,
            watch: Watch::fresh(1, MOST_STILL as u32),
        }
    }
}

impl Place {
    /// A place of a phase that uses none of the other numbers.
    pub const fn of(phase: u8) -> Place {
        Place {
            phase,
            command: 0,
            count: 0,
            read: 0,
        }
    }
}

impl Device {
    /// A fresh device of a part: zeros, no faults, hunting. Its watchdog has bit 1 and the largest limit.
    pub const fn fresh(part: u16) -> Device {
        Device {
            registers: Registers::zeros(part),
            place: Place::of(HUNTING),
        }
    }

    /// A fresh device of a part whose watchdog is told its bit and its limit.
    pub const fn watched(part: u16, bit: u8, limit: u32) -> Device {
        let mut device = Device::fresh(part);
        device.registers.watch = Watch::fresh(bit, limit);
        device
    }
}

/// A set, lent.
#[derive(Clone, Copy, Debug)]
pub struct Set<'a> {
    /// The part's number, 6972 to 6975.
    pub part: u16,
    /// N.
    pub devices: usize,
    /// The configuration byte.
    pub configuration: u8,
    /// A byte for each bank of each device.
    pub calibration: &'a [u8],
    /// The global byte.
    pub global: u8,
    /// A value for each output of each device; multiplexed, two.
    pub individual: &'a [u16],
}

#[cfg(test)]
mod tests {
    use super::*;
    use std::mem::{align_of, offset_of, size_of};

    #[test]
    fn the_record_has_the_headers_layout() {
        assert_eq!(offset_of!(Registers, slice), 202);
        assert_eq!(offset_of!(Registers, position), 304);
        assert_eq!(offset_of!(Registers, watch), 312);
        assert_eq!(offset_of!(Line, level), 8);
        assert_eq!(size_of::<Line>(), 16);
        assert_eq!(offset_of!(Watch, loadi), 16);
        assert_eq!(offset_of!(Watch, limit), 32);
        assert_eq!(offset_of!(Watch, bit), 36);
        assert_eq!(size_of::<Watch>(), 40);
        assert_eq!(size_of::<Registers>(), 352);
        assert_eq!(size_of::<Place>(), 6);
        assert_eq!(offset_of!(Device, place), 352);
        assert_eq!(size_of::<Device>(), 360);
        assert_eq!(align_of::<Device>(), 8);
    }
}
