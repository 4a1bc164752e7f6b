//! Light: ON subframes, leads, lit outputs.

use crate::chain::{devices_of, judge_parts};
use crate::device::Device;
use crate::part::{phases, Part};
use crate::{refuse, Refusal};
use std::ops::Range;

/// Whether a subframe is ON.
pub fn is_on(part: u16, configuration: u8, global: u8, subframe: u32) -> Result<bool, Refusal> {
    let part = Part::of(part)?;
    refuse(13, subframe >= part.subframes(configuration))?;
    Ok(on(part, configuration, global, subframe))
}

/// The same of a subframe that the part has.
fn on(part: Part, configuration: u8, global: u8, subframe: u32) -> bool {
    let subframes = part.subframes(configuration);
    let on = u32::from(global) % subframes + 1;
    (subframe + 1) * on / subframes > subframe * on / subframes
}

/// The lead of a window: S times its ON subframes less what g + 1 in S would be.
pub fn lead(
    part: u16,
    configuration: u8,
    global: u8,
    start: u32,
    length: u32,
) -> Result<i32, Refusal> {
    let subframes = Part::of(part)?.subframes(configuration);
    refuse(13, u64::from(start) + u64::from(length) > subframes.into())?;
    let mut on = 0;
    for subframe in start..start + length {
        on += i32::from(is_on(part, configuration, global, subframe)?);
    }
    let g = i32::from(global) % subframes as i32;
    Ok(subframes as i32 * on - length as i32 * (g + 1))
}

/// Where light is asked for: an output in wire order, a subframe, a clock in it, and the phase, MUX0 or MUX1.
#[derive(Clone, Copy, Debug)]
pub struct Position {
    /// 0 (Z7 or B7) to the last (Y0 or R0).
    pub output: u32,
    /// From 0.
    pub subframe: u32,
    /// From 0.
    pub clock: u32,
    /// 0 or 1.
    pub phase: u32,
}

/// Whether an output with a value is lit.
pub fn is_lit(
    part: u16,
    configuration: u8,
    global: u8,
    value: u16,
    at: Position,
) -> Result<bool, Refusal> {
    let known = Part::of(part)?;
    refuse(6, !known.holds(value))?;
    judge_position(known, configuration, at)?;
    Ok(lit(known, configuration, global, value, at))
}

/// The same of a position and a value that the part has.
pub fn lit(part: Part, configuration: u8, global: u8, value: u16, at: Position) -> bool {
    let (clocks, edge, value) = (part.clocks(), part.edge_zone(), u32::from(value));
    let named = named(at.output);
    let phased = if named.is_multiple_of(2) {
        at.clock < value
    } else {
        at.clock >= clocks - value
    };
    let inside = edge <= at.clock && at.clock < clocks - edge;
    on(part, configuration, global, at.subframe) && phased && inside
}

/// Whether an output of a device is lit, by its active values.
pub fn is_device_lit(record: &record::Device, at: Position) -> Result<bool, Refusal> {
    let device = Device::of_record(record)?;
    judge_position(device.part, device.configuration, at)?;
    let value = device.active[at.phase as usize][at.output as usize];
    let part = device.part.number();
    is_lit(part, device.configuration, device.active_global, value, at)
}

/// What is to be seen of an output now.
#[derive(Clone, Copy, Debug, PartialEq, Eq)]
pub struct Now {
    /// Whether it is lit.
    pub lit: bool,
    /// 0 (MUX0) or, multiplexed, 1 (MUX1).
    pub phase: u32,
}

/// Whether an output of the device with a number from 1 is lit at that device's position, and the phase.
pub fn lit_now(records: &[record::Device], device: usize, output: u32) -> Result<Now, Refusal> {
    judge_parts(records)?;
    let devices = devices_of(records)?;
    refuse(13, !(1..=records.len()).contains(&device))?;
    let at = scheduled(&devices[device - 1], output);
    let lit = is_device_lit(&records[device - 1], at)?;
    let phase = at.phase;
    Ok(Now { lit, phase })
}

/// Where a device stands in the schedule of its frame, which runs subframe by subframe, each in MUX0 and then, where it
/// is multiplexed, in MUX1.
fn scheduled(device: &Device, output: u32) -> Position {
    let clocks = device.part.clocks();
    let mut left = device.position as u32;
    for subframe in 0..device.part.subframes(device.configuration) {
        for phase in 0..phases(device.configuration) {
            if left < clocks {
                return Position {
                    output,
                    subframe,
                    clock: left,
                    phase,
                };
            }
            left -= clocks;
        }
    }
    panic!("a device that fits stands in its frame")
}

/// The clocks of a subframe at which an output with a value is lit; 0..0 where there are none. It asks every clock;
/// the clock of `at` is not looked at.
pub fn lit_clocks(
    part: u16,
    configuration: u8,
    global: u8,
    value: u16,
    at: Position,
) -> Result<Range<u32>, Refusal> {
    let at_clock = |clock| Position { clock, ..at };
    is_lit(part, configuration, global, value, at_clock(0))?;
    let mut run = 0..0;
    for clock in 0..Part::of(part)?.clocks() {
        if is_lit(part, configuration, global, value, at_clock(clock))? {
            assert!(run.is_empty() || run.end == clock, "lit clocks are one run");
            run = if run.is_empty() { clock } else { run.start }..clock + 1;
        }
    }
    Ok(run)
}

/// The same of an output of a device, by its active values.
pub fn device_lit_clocks(record: &record::Device, at: Position) -> Result<Range<u32>, Refusal> {
    is_device_lit(record, Position { clock: 0, ..at })?;
    let device = Device::of_record(record)?;
    let value = device.active[at.phase as usize][at.output as usize];
    let part = device.part.number();
    lit_clocks(part, device.configuration, device.active_global, value, at)
}

/// The number in the name of an output: 7 for the first of a bank, and 0 for its last.
fn named(output: u32) -> u32 {
    7 - output % 8
}

fn judge_position(part: Part, configuration: u8, at: Position) -> Result<(), Refusal> {
    refuse(
        13,
        at.output as usize >= part.outputs()
            || at.subframe >= part.subframes(configuration)
            || at.clock >= part.clocks()
            || at.phase >= phases(configuration),
    )
}
