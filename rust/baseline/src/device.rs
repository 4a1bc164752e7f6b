//! One device in place: its judgement, and its clocks one at a time or as many as it can take at once.

use crate::part::{banks, field_width, frame_clocks, is_known, slice_bits, width};
use crate::part::{CALIBRATION, GLOBAL, INDIVIDUAL};
use crate::{watch, Refusal};
use record::{Device, Place, Registers, COUNTING, HUNTING, LOST, OPENING, PASSING, SLICE};

/// The nine low bits that a hunting device keeps.
const WINDOW: u16 = 0x1FF;

/// What a device sends on.
#[derive(Clone, Copy, Debug, PartialEq, Eq)]
pub enum Sent {
    /// Nothing.
    Nothing,
    /// The state that came in.
    State(u8),
    /// The 24 states of a header: command and count.
    Header(u8, u16),
}

/// 1 for an unknown part, 13 where numbers do not fit.
pub fn judge(device: &Device) -> Result<(), Refusal> {
    if !is_known(device.registers.part) {
        return Err(1);
    }
    if fits(device) {
        Ok(())
    } else {
        Err(13)
    }
}

/// Whether the numbers of a record of a known part fit.
pub fn fits(device: &Device) -> bool {
    match banks(device.registers.part) {
        2 => fits_banks::<2>(device),
        _ => fits_banks::<3>(device),
    }
}

/// Whether the numbers of all records of a chain of one known part fit.
pub fn all_fit(devices: &[Device]) -> bool {
    match devices.first().map(|first| banks(first.registers.part)) {
        Some(2) => devices.iter().all(fits_banks::<2>),
        _ => devices.iter().all(fits_banks::<3>),
    }
}

/// Whether the numbers of a record of a part with so many banks fit. What the part does not use holds 0.
fn fits_banks<const BANKS: usize>(device: &Device) -> bool {
    let r = &device.registers;
    let front = |list: &[u16; 24]| any(&list[..8 * BANKS]);
    let behind = |list: &[u16; 24]| any(&list[8 * BANKS..]);
    let used = front(&r.waiting0) | front(&r.waiting1) | front(&r.active0) | front(&r.active1);
    let unused =
        behind(&r.waiting0) | behind(&r.waiting1) | behind(&r.active0) | behind(&r.active1);
    let (slice, rest) = r.slice.split_at(16 * BANKS);
    (r.overtemperature | r.openled) < 2
        && (used | any(slice)) >> width(r.part) == 0
        && unused | any(rest) == 0
        && r.calibration[BANKS..].iter().all(|&byte| byte == 0)
        && r.position < frame_clocks(r.part, r.configuration)
        && watch::fits(&r.watch)
        && fits_place(device)
}

/// All bits of some values.
fn any(values: &[u16]) -> u16 {
    values.iter().fold(0, |all, &v| all | v)
}

fn fits_place(device: &Device) -> bool {
    let Place {
        phase,
        command,
        count,
        read,
    } = device.place;
    let r = &device.registers;
    match phase {
        HUNTING => command == 0 && count == 0 && read <= WINDOW,
        OPENING => command == 0 && count == 0 && (1..64).contains(&read),
        COUNTING => command < 4 && count == 0 && (1..1024).contains(&read),
        SLICE => {
            let bits = || slice_bits(command, r.part, r.configuration);
            command < 4 && count < 1024 && usize::from(read) < bits()
        }
        PASSING | LOST => command == 0 && count == 0 && read == 0,
        _ => false,
    }
}

/// So many clocks of a device that fits: its position goes on, and where it returns to 0 what waits becomes active.
#[inline]
pub fn age(r: &mut Registers, clocks: usize) {
    let length = frame_clocks(r.part, r.configuration);
    let position = r.position + clocks as u64;
    if position >= length {
        r.active = r.waiting;
        r.active0 = r.waiting0;
        r.active1 = r.waiting1;
    }
    r.position = position & (length - 1);
}

/// One line state, 0 to 3, for a device that fits. It does not age, and does not watch.
pub fn step(device: &mut Device, state: u8) -> Sent {
    let bit = u16::from(state & 1);
    if state < 2 {
        low(device, bit);
        return Sent::Nothing;
    }
    match device.place.phase {
        SLICE => take_bit(device, bit),
        PASSING => Sent::State(state),
        _ => {
            device.place = opened(device.place, bit);
            Sent::Nothing
        }
    }
}

fn low(device: &mut Device, bit: u16) {
    let window = match device.place.phase {
        HUNTING => device.place.read,
        _ => 0,
    };
    device.place = place(HUNTING, 0, 0, (window << 1 | bit) & WINDOW);
}

/// The place after a high clock before the slice.
fn opened(before: Place, bit: u16) -> Place {
    let Place {
        phase,
        command,
        read,
        ..
    } = before;
    let next = read << 1 | bit;
    match phase {
        HUNTING => rise(read, bit),
        OPENING if next < 64 => place(OPENING, 0, 0, next),
        OPENING => match next & 63 {
            pairs @ (0 | 0x15 | 0x2A | 0x3F) => place(COUNTING, (pairs & 3) as u8, 0, 1),
            _ => Place::of(LOST),
        },
        COUNTING if next < 1024 => place(COUNTING, command, 0, next),
        COUNTING => place(SLICE, command, next & 1023, 0),
        _ => Place::of(LOST),
    }
}

/// Load goes high: with the last bit of SYNC, with the first command bit, or with the second.
fn rise(window: u16, bit: u16) -> Place {
    if window & 0xFF == 0xE8 {
        place(OPENING, 0, 0, 2 | bit)
    } else if window & 0x7F == 0x74 && bit == 0 {
        place(OPENING, 0, 0, 1)
    } else if window >> 1 == 0xE8 {
        place(OPENING, 0, 0, 4 | (window & 1) << 1 | bit)
    } else {
        Place::of(LOST)
    }
}

fn take_bit(device: &mut Device, bit: u16) -> Sent {
    let Place { command, read, .. } = device.place;
    let r = &mut device.registers;
    let width = field_width(command, r.part);
    let slot = &mut r.slice[usize::from(read) / width as usize];
    *slot = (*slot << 1 | bit) & ((1 << width) - 1);
    device.place.read += 1;
    if usize::from(read) + 1 == slice_bits(command, r.part, r.configuration) {
        finish(device)
    } else {
        Sent::Nothing
    }
}

/// Takes low states from the front: how many.
pub fn take_lows(device: &mut Device, states: &[u8]) -> usize {
    let mut window = match device.place.phase {
        HUNTING => device.place.read,
        _ => 0,
    };
    let mut taken = 0;
    while taken < states.len() && states[taken] < 2 {
        window = window << 1 | u16::from(states[taken]);
        taken += 1;
    }
    if taken > 0 {
        device.place = place(HUNTING, 0, 0, window & WINDOW);
    }
    taken
}

/// Takes high states before the slice from the front: how many.
pub fn take_header(device: &mut Device, states: &[u8]) -> usize {
    let mut place = device.place;
    let mut taken = 0;
    while taken < states.len() && states[taken] > 1 && place.phase < SLICE {
        place = opened(place, u16::from(states[taken] & 1));
        taken += 1;
    }
    device.place = place;
    taken
}

/// Takes high states of the slice from the front, field by field: how many, and whether it is then whole.
#[inline]
pub fn take_slice(device: &mut Device, states: &[u8]) -> (usize, bool) {
    let command = device.place.command;
    let r = &mut device.registers;
    let width = field_width(command, r.part) as usize;
    let mask = ((1u32 << width) - 1) as u16;
    let length = slice_bits(command, r.part, r.configuration);
    let start = usize::from(device.place.read);
    let (mut read, mut taken) = (start, 0);
    while read < length {
        let slot = &mut r.slice[read / width];
        let room = width - read % width;
        let field = &states[taken..states.len().min(taken + room)];
        let (value, count) = shifted(*slot, field);
        if count > 0 {
            *slot = value & mask;
        }
        read += count;
        taken += count;
        if count < room {
            device.place.read = read as u16;
            return (taken, false);
        }
    }
    (taken, true)
}

/// A value with the data bits of high states shifted in, and how many these are.
#[inline]
fn shifted(mut value: u16, states: &[u8]) -> (u16, usize) {
    for (count, &state) in states.iter().enumerate() {
        if state < 2 {
            return (value, count);
        }
        value = value << 1 | u16::from(state & 1);
    }
    (value, states.len())
}

/// The slice is whole: it is stored and the header sent.
pub fn finish(device: &mut Device) -> Sent {
    let Place { command, count, .. } = device.place;
    let r = &mut device.registers;
    match banks(r.part) {
        2 => store::<2>(r, command),
        _ => store::<3>(r, command),
    }
    let fault = if command & 1 == 0 {
        r.overtemperature
    } else {
        r.openled
    };
    device.place = Place::of(PASSING);
    Sent::Header(command, (count + u16::from(fault)) & 1023)
}

/// Stores the slice of a part with so many banks.
fn store<const BANKS: usize>(r: &mut Registers, command: u8) {
    let bytes: [u8; BANKS] = std::array::from_fn(|k| r.slice[k] as u8);
    let agree = bytes.iter().all(|&byte| byte == bytes[0]);
    match command {
        INDIVIDUAL if r.configuration & 1 == 0 => {
            r.waiting0[..8 * BANKS].copy_from_slice(&r.slice[..8 * BANKS]);
        }
        INDIVIDUAL => {
            for (k, pair) in r.slice[..16 * BANKS].chunks_exact(2).enumerate() {
                r.waiting0[k] = pair[0];
                r.waiting1[k] = pair[1];
            }
        }
        CALIBRATION => r.calibration[..BANKS].copy_from_slice(&bytes),
        GLOBAL if agree => r.waiting = bytes[0],
        GLOBAL => {}
        _ if agree => configure(r, bytes[0]),
        _ => {}
    }
}

/// A shorter frame takes the position into it; in a longer one it stays.
fn configure(r: &mut Registers, configuration: u8) {
    r.configuration = configuration;
    r.position &= frame_clocks(r.part, configuration) - 1;
}

/// A place with its numbers.
pub fn place(phase: u8, command: u8, count: u16, read: u16) -> Place {
    Place {
        phase,
        command,
        count,
        read,
    }
}
