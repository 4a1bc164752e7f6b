//! What is told of a frame, and the parts of its bits.

use crate::bits::bits_of;
use crate::part::{field_width, slice_fields, Command, Part};
use crate::{refuse, Refusal};

/// SYNC.
pub const SYNC: u64 = 0xE8;

/// The tail: a number and its length in bits. Any numbers may stand here.
#[derive(Clone, Copy, Debug, Default, PartialEq, Eq)]
pub struct Tail {
    /// The bits, as a number.
    pub number: u64,
    /// How many.
    pub length: u32,
}

impl Tail {
    /// Whether bits stand above its length.
    pub fn is_over(self) -> bool {
        self.length < 64 && self.number >> self.length != 0
    }

    /// Its bits.
    pub fn bits(self) -> Vec<bool> {
        bits_of(self.length, self.number)
    }
}

/// What a writer and a reader are told. Any numbers may stand here.
#[derive(Clone, Copy, Debug)]
pub struct Told {
    /// The part's number.
    pub part: u16,
    /// N.
    pub devices: usize,
    /// The command.
    pub command: Command,
    /// The set's configuration, which says how long individual slices are and how large a global byte may be.
    pub configuration: u8,
    /// The tail.
    pub tail: Tail,
}

/// Numbers 1 to 3.
pub fn judge_told(part: u16, devices: usize, tail: Tail) -> Result<Part, Refusal> {
    let part = Part::of(part)?;
    refuse(2, !(1..=1023).contains(&devices))?;
    refuse(3, tail.length > 64)?;
    Ok(part)
}

/// SYNC, C1 C0 three times, and the count.
pub fn header(command: Command, count: u16) -> Vec<bool> {
    let code = u64::from(command.code());
    [
        bits_of(8, SYNC),
        bits_of(2, code),
        bits_of(2, code),
        bits_of(2, code),
        bits_of(10, u64::from(count)),
    ]
    .concat()
}

/// Fields of all slices of a frame of a known part.
pub fn frame_fields(told: &Told, part: Part) -> usize {
    told.devices * slice_fields(told.command, part, told.configuration)
}

/// Bits of a frame of a known part.
pub fn frame_bits(told: &Told, part: Part) -> usize {
    let width = field_width(told.command, part) as usize;
    24 + frame_fields(told, part) * width + told.tail.length as usize
}
