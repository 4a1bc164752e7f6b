//! The frame writer.

use crate::bits::{fields, pack};
use crate::frame::{frame_bits, frame_fields, header, judge_told, Told};
use crate::part::{field_width, Command, Part};
use crate::{refuse, Refusal};

/// What a writer is given. It looks at its own command's values alone.
#[derive(Clone, Copy, Debug)]
pub struct Given<'a> {
    /// The global or the configuration byte.
    pub byte: u8,
    /// A byte for each bank of each device, in wire order.
    pub calibration: &'a [u8],
    /// A value for each output of each device, in wire order; multiplexed, two.
    pub individual: &'a [u16],
}

/// The frame's bytes, for an output with room for `room` bytes.
pub fn write(told: &Told, given: &Given, room: usize) -> Result<Vec<u8>, Refusal> {
    let part = judge_told(told.part, told.devices, told.tail)?;
    let bits = frame_bits(told, part);
    refuse(4, has_other_length(told, part, given))?;
    refuse(5, room < bits.div_ceil(8))?;
    refuse(6, is_out_of_range(told, part, given) || told.tail.is_over())?;
    let slices = fields(
        field_width(told.command, part),
        all_fields(told, part, given),
    );
    let frame = [header(told.command, 0), slices, told.tail.bits()].concat();
    assert_eq!(frame.len(), bits);
    Ok(pack(&frame))
}

fn has_other_length(told: &Told, part: Part, given: &Given) -> bool {
    match told.command {
        Command::Individual => given.individual.len() != frame_fields(told, part),
        Command::Calibration => given.calibration.len() != frame_fields(told, part),
        Command::Global | Command::Configuration => false,
    }
}

fn is_out_of_range(told: &Told, part: Part, given: &Given) -> bool {
    match told.command {
        Command::Individual => given.individual.iter().any(|&value| !part.holds(value)),
        Command::Global => u32::from(given.byte) >= part.subframes(told.configuration),
        Command::Calibration | Command::Configuration => false,
    }
}

/// The fields of all slices, in wire order.
fn all_fields(told: &Told, part: Part, given: &Given) -> Vec<u64> {
    match told.command {
        Command::Individual => given.individual.iter().map(|&v| u64::from(v)).collect(),
        Command::Calibration => given.calibration.iter().map(|&b| u64::from(b)).collect(),
        Command::Global | Command::Configuration => {
            vec![u64::from(given.byte); frame_fields(told, part)]
        }
    }
}
