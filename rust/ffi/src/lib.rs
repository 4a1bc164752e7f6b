//! The proved library for Rust: the functions of `include/bractbeacon.h` over slices.
//!
//! Every function is safe for any numbers and slices: the library judges them itself. Answers are the C records.

use record::{Device, Set};

mod raw;

/// `struct bb_answer`.
#[repr(C)]
#[derive(Clone, Copy, Debug, PartialEq, Eq)]
pub struct Answer {
    /// What was asked for; 0 where refused.
    pub value: u64,
    /// 0 where accepted.
    pub refusal: u8,
}

/// `struct bb_packed`.
#[repr(C)]
#[derive(Clone, Copy, Debug, PartialEq, Eq)]
pub struct Packed {
    /// Bytes written; 0 where not done.
    pub bytes: u64,
    /// 1, or 0 where nothing was written.
    pub done: u8,
}

/// `struct bb_signed`.
#[repr(C)]
#[derive(Clone, Copy, Debug, PartialEq, Eq)]
pub struct Signed {
    /// What was asked for; 0 where refused.
    pub value: i32,
    /// 0 where accepted.
    pub refusal: u8,
}

/// `struct bb_clocks`.
#[repr(C)]
#[derive(Clone, Copy, Debug, PartialEq, Eq)]
pub struct Clocks {
    /// The first clock; 0 where there is none.
    pub first: u32,
    /// The clock after the last; 0 where there is none.
    pub end: u32,
    /// 0 where accepted.
    pub refusal: u8,
}

/// `struct bb_shown_now`.
#[repr(C)]
#[derive(Clone, Copy, Debug, PartialEq, Eq)]
pub struct LitNow {
    /// 1 where lit; 0 where not, and where refused.
    pub lit: u8,
    /// 0 (MUX0) or 1 (MUX1); 0 where refused.
    pub phase: u8,
    /// 0 where accepted.
    pub refusal: u8,
}

/// `struct bb_compared`.
#[repr(C)]
#[derive(Clone, Copy, Debug, PartialEq, Eq)]
pub struct Compared {
    /// From 1; 0 where the same.
    pub device: u64,
    /// From 0, in the device's slice.
    pub place: u16,
    /// 0 same, 1 configuration, 2 calibration, 3 active global, 4 active individual.
    pub group: u8,
    /// 0 where accepted.
    pub refusal: u8,
}

/// `struct bb_sign_current`.
#[repr(C)]
#[derive(Clone, Copy, Debug, PartialEq, Eq)]
pub struct SignCurrent {
    /// In eighths of a microamp, added up over 524,288 clocks; 0 where refused.
    pub total: u64,
    /// Over those clocks, rounded down.
    pub average: u64,
    /// What the average leaves.
    pub remainder: u64,
    /// 0 where accepted.
    pub refusal: u8,
}

/// `struct bb_stepped`.
#[repr(C)]
#[derive(Clone, Copy, Debug, PartialEq, Eq)]
pub struct Stepped {
    /// The next device.
    pub device: Device,
    /// Of the header, where 24 states are sent.
    pub count: u16,
    /// Of the header, where 24 states are sent.
    pub command: u8,
    /// Where one state is sent.
    pub state: u8,
    /// 0, 1 or 24.
    pub sent: u8,
    /// 0 where accepted.
    pub refusal: u8,
}

/// What a writer and a reader are told.
#[derive(Clone, Copy, Debug)]
pub struct Told {
    /// The part's number.
    pub part: u16,
    /// N.
    pub devices: usize,
    /// C1 C0.
    pub command: u8,
    /// The set's configuration.
    pub configuration: u8,
    /// The tail's bits.
    pub tail: u64,
    /// The tail's length.
    pub tail_length: u32,
}

/// Packs values of a width into `out` from the byte `at` on.
pub fn pack(values: &[u16], width: u32, out: &mut [u8], at: usize) -> Packed {
    let (room, out) = (out.len(), out.as_mut_ptr());
    // SAFETY: both slices are lent for the call, with their lengths.
    unsafe { raw::bb_pack(values.as_ptr(), values.len(), width, out, room, at) }
}

/// Unpacks values of a width from the byte `at` on: 1 where done, else 0.
pub fn unpack(bytes: &[u8], at: usize, width: u32, values: &mut [u16]) -> u8 {
    let (count, values) = (values.len(), values.as_mut_ptr());
    // SAFETY: both slices are lent for the call, with their lengths.
    unsafe { raw::bb_unpack(bytes.as_ptr(), bytes.len(), at, width, values, count) }
}

/// Subframes per frame.
pub fn subframes(part: u16, configuration: u8) -> Answer {
    // SAFETY: numbers only.
    unsafe { raw::bb_subframes(part, configuration) }
}

/// Bits of one device's slice.
pub fn slice_bits(command: u8, part: u16, configuration: u8) -> Answer {
    // SAFETY: numbers only.
    unsafe { raw::bb_slice_bits(command, part, configuration) }
}

/// Writes a frame.
pub fn write(told: &Told, byte: u8, bytes: &[u8], values: &[u16], out: &mut [u8]) -> Answer {
    // SAFETY: the slices are lent for the call, with their lengths.
    unsafe {
        raw::bb_write(
            told.part,
            told.devices,
            told.command,
            told.configuration,
            told.tail,
            told.tail_length,
            byte,
            bytes.as_ptr(),
            bytes.len(),
            values.as_ptr(),
            values.len(),
            out.as_mut_ptr(),
            out.len(),
        )
    }
}

/// Reads a frame.
pub fn read(told: &Told, frame: &[u8], bytes: &mut [u8], values: &mut [u16]) -> Answer {
    // SAFETY: the slices are lent for the call, with their lengths.
    unsafe {
        raw::bb_read(
            told.part,
            told.devices,
            told.command,
            told.configuration,
            told.tail,
            told.tail_length,
            frame.as_ptr(),
            frame.len(),
            bytes.as_mut_ptr(),
            bytes.len(),
            values.as_mut_ptr(),
            values.len(),
        )
    }
}

/// Reads a return. The told configuration is not handed on.
pub fn read_return(told: &Told, bytes: &[u8]) -> Answer {
    // SAFETY: the slice is lent for the call, with its length.
    unsafe {
        raw::bb_read_return(
            told.part,
            told.devices,
            told.command,
            told.tail,
            told.tail_length,
            bytes.as_ptr(),
            bytes.len(),
        )
    }
}

/// The line states of a packed frame that is sent with an edge: 0 early, 1 exact, 2 late.
pub fn states(frame: &[u8], bits: usize, edge: u8, states: &mut [u8]) -> Answer {
    let (room, states) = (states.len(), states.as_mut_ptr());
    // SAFETY: both slices are lent for the call, with their lengths.
    unsafe { raw::bb_states(frame.as_ptr(), frame.len(), bits, edge, states, room) }
}

/// The data bits of line states, packed.
pub fn data_bytes(states: &[u8], out: &mut [u8]) -> Answer {
    let (room, out) = (out.len(), out.as_mut_ptr());
    // SAFETY: both slices are lent for the call, with their lengths.
    unsafe { raw::bb_data_bytes(states.as_ptr(), states.len(), out, room) }
}

/// The refusal of a record.
pub fn judge(device: Device) -> u8 {
    // SAFETY: every record is a value.
    unsafe { raw::bb_judge(device) }
}

/// One judged step.
pub fn step(device: Device, state: u8) -> Stepped {
    // SAFETY: every record is a value.
    unsafe { raw::bb_step(device, state) }
}

/// Makes a chain fresh, told the part and the watchdog's bit and limit; the refusal.
pub fn fresh(devices: &mut [Device], part: u16, bit: u8, limit: u32) -> u8 {
    // SAFETY: the slice is lent for the call, with its length.
    unsafe { raw::bb_fresh(devices.as_mut_ptr(), devices.len(), part, bit, limit) }
}

/// Gives a chain line states.
pub fn run(devices: &mut [Device], states: &[u8], returned: &mut [u8]) -> Answer {
    // SAFETY: the slices are lent for the call, with their lengths.
    unsafe {
        raw::bb_run(
            devices.as_mut_ptr(),
            devices.len(),
            states.as_ptr(),
            states.len(),
            returned.as_mut_ptr(),
            returned.len(),
        )
    }
}

/// Sets a fault flag; the refusal.
pub fn set_fault(devices: &mut [Device], device: usize, kind: u8, flag: u8) -> u8 {
    // SAFETY: the slice is lent for the call, with its length.
    unsafe { raw::bb_set_fault(devices.as_mut_ptr(), devices.len(), device, kind, flag) }
}

/// Whether a subframe is ON.
pub fn on(part: u16, configuration: u8, global: u8, subframe: u32) -> Answer {
    // SAFETY: numbers only.
    unsafe { raw::bb_on(part, configuration, global, subframe) }
}

/// The lead of a window.
pub fn lead(part: u16, configuration: u8, global: u8, start: u32, length: u32) -> Signed {
    // SAFETY: numbers only.
    unsafe { raw::bb_lead(part, configuration, global, start, length) }
}

/// An output, a subframe, a clock and a phase.
pub type Position = [u32; 4];

/// Whether an output with a value is lit.
pub fn lit(part: u16, configuration: u8, global: u8, value: u16, at: Position) -> Answer {
    let [output, subframe, clock, phase] = at;
    // SAFETY: numbers only.
    unsafe {
        raw::bb_lit(
            part,
            configuration,
            global,
            value,
            output,
            subframe,
            clock,
            phase,
        )
    }
}

/// Whether an output of a device is lit.
pub fn device_lit(device: Device, at: Position) -> Answer {
    let [output, subframe, clock, phase] = at;
    // SAFETY: every record is a value.
    unsafe { raw::bb_device_lit(device, output, subframe, clock, phase) }
}

/// The clocks of a subframe at which an output with a value is lit.
pub fn lit_clocks(
    part: u16,
    configuration: u8,
    global: u8,
    value: u16,
    output: u32,
    subframe: u32,
    phase: u32,
) -> Clocks {
    // SAFETY: numbers only.
    unsafe { raw::bb_lit_clocks(part, configuration, global, value, output, subframe, phase) }
}

/// The clocks of a subframe at which an output of a device is lit.
pub fn device_lit_clocks(device: Device, output: u32, subframe: u32, phase: u32) -> Clocks {
    // SAFETY: every record is a value.
    unsafe { raw::bb_device_lit_clocks(device, output, subframe, phase) }
}

/// Whether an output of a device of a chain, numbered from 1, is lit at its position, and the phase.
pub fn lit_now(chain: &[Device], device: usize, output: u32) -> LitNow {
    // SAFETY: the slice is lent for the call, with its length.
    unsafe { raw::bb_lit_now(chain.as_ptr(), chain.len(), device, output) }
}

/// Compares a set with a chain.
pub fn compare(set: &Set, chain: &[Device]) -> Compared {
    // SAFETY: the slices are lent for the call, with their lengths.
    unsafe {
        raw::bb_compare(
            set.part,
            set.devices,
            set.configuration,
            set.calibration.as_ptr(),
            set.calibration.len(),
            set.global,
            set.individual.as_ptr(),
            set.individual.len(),
            chain.as_ptr(),
            chain.len(),
        )
    }
}

/// What a set draws: answered for the sign, and in front of `figures` for each device.
pub fn current(set: &Set, figures: &mut [u64]) -> SignCurrent {
    // SAFETY: the slices are lent for the call, with their lengths.
    unsafe {
        raw::bb_current(
            set.part,
            set.devices,
            set.configuration,
            set.calibration.as_ptr(),
            set.calibration.len(),
            set.global,
            set.individual.as_ptr(),
            set.individual.len(),
            figures.as_mut_ptr(),
            figures.len(),
        )
    }
}
