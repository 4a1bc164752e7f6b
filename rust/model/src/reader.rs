//! The frame reader and the return reader.

use crate::bits::{number_of, unpack};
use crate::frame::{frame_bits, frame_fields, header, judge_told, Tail, Told, SYNC};
use crate::part::{field_width, Command, Part};
use crate::{refuse, Refusal};

/// What a frame holds.
#[derive(Clone, Debug, PartialEq, Eq)]
pub enum Contents {
    /// The byte of a global or configuration frame.
    Byte(u8),
    /// The bytes of a calibration frame.
    Calibration(Vec<u8>),
    /// The values of an individual frame.
    Individual(Vec<u16>),
}

/// A frame's contents, for a lent list with room for `room` elements (calibration and individual values).
pub fn read(told: &Told, frame: &[u8], room: usize) -> Result<Contents, Refusal> {
    let part = judge_told(told.part, told.devices, told.tail)?;
    let length = frame_bits(told, part);
    refuse(4, frame.len() != length.div_ceil(8))?;
    refuse(5, room < room_needed(told, part))?;

    let (bits, unused) = split_at(unpack(frame), length);
    let (head, rest) = split_at(bits, 24);
    let slices_length = rest.len() - told.tail.length as usize;
    let (slices, tail) = split_at(rest, slices_length);
    let fields: Vec<u64> = slices
        .chunks(field_width(told.command, part) as usize)
        .map(number_of)
        .collect();

    refuse(
        6,
        is_out_of_range(told, part, &fields) || told.tail.is_over(),
    )?;
    judge_head(told.command, &head)?;
    refuse(9, count_of(&head) != 0)?;
    refuse(10, do_copies_differ(told.command, &fields))?;
    refuse(11, unused.contains(&true))?;
    refuse(12, tail != told.tail.bits())?;
    Ok(contents(told.command, &fields))
}

/// The count of a return.
pub fn read_return(
    part: u16,
    devices: usize,
    command: Command,
    sent: Tail,
    bytes: &[u8],
) -> Result<u16, Refusal> {
    judge_told(part, devices, sent)?;
    let length = 24 + sent.length as usize;
    refuse(4, bytes.len() != length.div_ceil(8))?;
    refuse(6, sent.is_over())?;

    let (bits, unused) = split_at(unpack(bytes), length);
    let (head, tail) = split_at(bits, 24);
    judge_head(command, &head)?;
    refuse(9, usize::from(count_of(&head)) > devices)?;
    refuse(11, unused.contains(&true))?;
    refuse(12, tail != sent.bits())?;
    Ok(count_of(&head))
}

fn split_at(bits: Vec<bool>, at: usize) -> (Vec<bool>, Vec<bool>) {
    let (front, back) = bits.split_at(at);
    (front.to_vec(), back.to_vec())
}

/// Elements that the lent list must have room for.
fn room_needed(told: &Told, part: Part) -> usize {
    match told.command {
        Command::Individual | Command::Calibration => frame_fields(told, part),
        Command::Global | Command::Configuration => 0,
    }
}

/// Every copy of every global byte is looked at.
fn is_out_of_range(told: &Told, part: Part, fields: &[u64]) -> bool {
    let subframes = u64::from(part.subframes(told.configuration));
    told.command == Command::Global && fields.iter().any(|&byte| byte >= subframes)
}

/// Numbers 7 and 8.
fn judge_head(command: Command, head: &[bool]) -> Result<(), Refusal> {
    refuse(7, number_of(&head[..8]) != SYNC)?;
    refuse(8, head[8..14] != header(command, 0)[8..14])
}

fn count_of(head: &[bool]) -> u16 {
    number_of(&head[14..24]) as u16
}

/// One byte stands in every field of a global or configuration frame.
fn do_copies_differ(command: Command, fields: &[u64]) -> bool {
    matches!(command, Command::Global | Command::Configuration)
        && fields.iter().any(|&byte| byte != fields[0])
}

fn contents(command: Command, fields: &[u64]) -> Contents {
    match command {
        Command::Individual => Contents::Individual(fields.iter().map(|&v| v as u16).collect()),
        Command::Calibration => Contents::Calibration(fields.iter().map(|&b| b as u8).collect()),
        Command::Global | Command::Configuration => Contents::Byte(fields[0] as u8),
    }
}
