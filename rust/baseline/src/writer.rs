//! The frame writer: one pass over the values that judges, one that packs.

use crate::part::{
    self, field_width, is_known, slice_bits, subframes, CALIBRATION, GLOBAL, INDIVIDUAL,
};
use crate::way::{Way, FASTEST};
use crate::Refusal;

/// What a writer and a reader are told.
#[derive(Clone, Copy, Debug)]
pub struct Told {
    /// The part's number.
    pub part: u16,
    /// N.
    pub devices: usize,
    /// C1 C0.
    pub command: u8,
    /// The set's configuration.
    pub configuration: u8,
    /// The tail's bits.
    pub tail: u64,
    /// The tail's length.
    pub tail_length: u32,
}

impl Told {
    /// Numbers 1 to 3.
    pub fn judge(&self) -> Result<(), Refusal> {
        if !is_known(self.part) {
            return Err(1);
        }
        if self.devices == 0 || self.devices > 1023 {
            return Err(2);
        }
        if self.tail_length > 64 {
            return Err(3);
        }
        Ok(())
    }

    /// Whether bits stand above the tail's length.
    pub fn is_tail_over(&self) -> bool {
        self.tail_length < 64 && self.tail >> self.tail_length != 0
    }

    /// Bits of the frame.
    pub fn bits(&self) -> usize {
        let slice = slice_bits(self.command, self.part, self.configuration);
        24 + self.devices * slice + self.tail_length as usize
    }

    /// Elements of the command's list.
    pub fn fields(&self) -> usize {
        match self.command {
            INDIVIDUAL => self.devices * part::values(self.part, self.configuration),
            _ => self.devices * part::banks(self.part),
        }
    }
}

/// Writes a frame and says how many bytes it has. The lists of other commands are ignored. Individual values are packed
/// in the fastest way.
pub fn write(
    told: &Told,
    byte: u8,
    calibration: &[u8],
    individual: &[u16],
    out: &mut [u8],
) -> Result<usize, Refusal> {
    write_by(&FASTEST, told, byte, calibration, individual, out)
}

/// As [`write`], with individual values packed in a way.
pub fn write_by(
    way: &Way,
    told: &Told,
    byte: u8,
    calibration: &[u8],
    individual: &[u16],
    out: &mut [u8],
) -> Result<usize, Refusal> {
    told.judge()?;
    if is_other_length(told, calibration, individual) {
        return Err(4);
    }
    let length = told.bits().div_ceil(8);
    let Some(out) = out.get_mut(..length) else {
        return Err(5);
    };
    if is_out_of_range(told, byte, individual) || told.is_tail_over() {
        return Err(6);
    }
    let command = (u16::from(told.command) * 0x15) << 10;
    out[0] = 0xE8;
    out[1..3].copy_from_slice(&command.to_be_bytes());
    let end = 3 + told.fields() * field_width(told.command, told.part) as usize / 8;
    match told.command {
        INDIVIDUAL => {
            let width = part::width(told.part);
            (way.pack)(individual, width, out, 3).ok_or(5)?;
        }
        CALIBRATION => out[3..end].copy_from_slice(calibration),
        _ => out[3..end].fill(byte),
    }
    if told.tail_length > 0 {
        let tail = (told.tail << (64 - told.tail_length)).to_be_bytes();
        out[end..].copy_from_slice(&tail[..length - end]);
    }
    Ok(length)
}

fn is_other_length(told: &Told, calibration: &[u8], individual: &[u16]) -> bool {
    match told.command {
        INDIVIDUAL => individual.len() != told.fields(),
        CALIBRATION => calibration.len() != told.fields(),
        _ => false,
    }
}

fn is_out_of_range(told: &Told, byte: u8, individual: &[u16]) -> bool {
    match told.command {
        INDIVIDUAL => {
            let all = individual.iter().fold(0, |all, &value| all | value);
            all >> part::width(told.part) != 0
        }
        GLOBAL => u16::from(byte) >= subframes(told.part, told.configuration),
        _ => false,
    }
}
