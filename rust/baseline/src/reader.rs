//! The frame reader: all checks, then one pass that unpacks.

use crate::part::{self, field_width, subframes, CALIBRATION, CONFIGURATION, GLOBAL, INDIVIDUAL};
use crate::way::{Way, FASTEST};
use crate::writer::Told;
use crate::Refusal;

/// Reads a frame: the byte of a global or configuration frame, or how many elements went to the command's list.
/// Individual values are unpacked in the fastest way.
pub fn read(
    told: &Told,
    frame: &[u8],
    calibration: &mut [u8],
    individual: &mut [u16],
) -> Result<usize, Refusal> {
    read_by(&FASTEST, told, frame, calibration, individual)
}

/// As [`read`], with individual values unpacked in a way.
pub fn read_by(
    way: &Way,
    told: &Told,
    frame: &[u8],
    calibration: &mut [u8],
    individual: &mut [u16],
) -> Result<usize, Refusal> {
    told.judge()?;
    if frame.len() != told.bits().div_ceil(8) {
        return Err(4);
    }
    let fields = told.fields();
    let is_room_short = match told.command {
        INDIVIDUAL => individual.len() < fields,
        CALIBRATION => calibration.len() < fields,
        _ => false,
    };
    if is_room_short {
        return Err(5);
    }
    let slices = judge_bits(told, frame)?;
    match told.command {
        INDIVIDUAL => {
            let width = part::width(told.part);
            (way.unpack)(frame, 3, width, &mut individual[..fields]);
            Ok(fields)
        }
        CALIBRATION => {
            calibration[..fields].copy_from_slice(slices);
            Ok(fields)
        }
        _ => Ok(usize::from(slices[0])),
    }
}

/// Numbers 6 to 12, of a frame of the right length; the bytes of its slices.
fn judge_bits<'a>(told: &Told, frame: &'a [u8]) -> Result<&'a [u8], Refusal> {
    let end = 3 + told.fields() * field_width(told.command, told.part) as usize / 8;
    let (slices, rest) = (&frame[3..end], &frame[end..]);
    let is_high = told.command == GLOBAL && {
        let limit = subframes(told.part, told.configuration);
        slices.iter().any(|&byte| u16::from(byte) >= limit)
    };
    if is_high || told.is_tail_over() {
        return Err(6);
    }
    let count = judge_head(told.command, frame)?;
    if count != 0 {
        return Err(9);
    }
    if matches!(told.command, GLOBAL | CONFIGURATION) && slices.iter().any(|&b| b != slices[0]) {
        return Err(10);
    }
    judge_tail(told.tail, told.tail_length, rest)?;
    Ok(slices)
}

/// Reads a return: its count. The told configuration is ignored.
pub fn read_return(told: &Told, bytes: &[u8]) -> Result<u16, Refusal> {
    told.judge()?;
    if bytes.len() != (24 + told.tail_length as usize).div_ceil(8) {
        return Err(4);
    }
    if told.is_tail_over() {
        return Err(6);
    }
    let count = judge_head(told.command, bytes)?;
    if usize::from(count) > told.devices {
        return Err(9);
    }
    judge_tail(told.tail, told.tail_length, &bytes[3..])?;
    Ok(count)
}

/// Numbers 7 and 8; the count.
fn judge_head(command: u8, frame: &[u8]) -> Result<u16, Refusal> {
    if frame[0] != 0xE8 {
        return Err(7);
    }
    if frame[1] >> 2 != command * 0x15 {
        return Err(8);
    }
    Ok(u16::from(frame[1] & 3) << 8 | u16::from(frame[2]))
}

/// Numbers 11 and 12, of the bytes that hold the tail.
fn judge_tail(tail: u64, length: u32, bytes: &[u8]) -> Result<(), Refusal> {
    let mut word = [0; 8];
    word[..bytes.len()].copy_from_slice(bytes);
    let word = u64::from_be_bytes(word);
    if length < 64 && word << length != 0 {
        return Err(11);
    }
    if length > 0 && word >> (64 - length) != tail {
        return Err(12);
    }
    Ok(())
}
