//! A chain in place. Only the first device that is not passing can change, so a run costs its states plus N. A device
//! that changes nothing only ages and watches: it is brought to the clock of its own stores, and at the end to the last
//! clock; its watchdog also to the clocks in which it is sent a header, and in which high states end.

use crate::device::{age, all_fit, finish, place, take_header, take_lows, take_slice, Sent};
use crate::part::is_known;
use crate::watch::{self, Stretch};
use crate::Refusal;
use record::{Device, LOST, PASSING, SLICE};

/// Gives the chain line states, one to a clock; how many states the last device sent.
pub fn run(devices: &mut [Device], states: &[u8], returned: &mut [u8]) -> Result<usize, Refusal> {
    judge_parts(devices)?;
    if returned.len() < states.len() + 23 {
        return Err(5);
    }
    if states.iter().fold(0, |all, &s| all | s) > 3 || !all_fit(devices) {
        return Err(13);
    }
    Ok(run_judged(devices, states, returned))
}

/// The clocks up to which a device has been brought.
#[derive(Clone, Copy)]
struct Brought {
    /// Its position.
    aged: usize,
    /// Its watchdog.
    watched: usize,
}

fn run_judged(devices: &mut [Device], states: &[u8], returned: &mut [u8]) -> usize {
    let none = Brought {
        aged: 0,
        watched: 0,
    };
    let mut brought = vec![none; devices.len()];
    let (mut at, mut sent) = (0, 0);
    let mut front = first_not_passing(devices);
    while at < states.len() {
        if states[at] < 2 {
            reach_no_more(devices, &mut brought, front, &states[..at]);
            at += take_lows(&mut devices[0], &states[at..]);
            front = 0;
            continue;
        }
        let Some(device) = devices.get_mut(front) else {
            let highs = high_states(&states[at..]);
            returned[sent..sent + highs].copy_from_slice(&states[at..at + highs]);
            at += highs;
            sent += highs;
            continue;
        };
        let (taken, header) = take_highs(device, front == 0, states, at, &mut brought[front]);
        at += taken;
        if let Sent::Header(command, count) = header {
            front += 1;
            // A header ends whatever the next device was at, and leaves it at the start of its slice.
            match devices.get_mut(front) {
                Some(next) => {
                    next.place = place(SLICE, command, count, 0);
                    watch::idle(&mut next.registers, at - 1 - brought[front].watched);
                    watch::burst(&mut next.registers, count);
                    brought[front].watched = at;
                }
                None => {
                    write_header(&mut returned[sent..sent + 24], command, count);
                    sent += 24;
                }
            }
        }
    }
    reach_no_more(devices, &mut brought, front, states);
    watch::hear(&mut devices[0].registers, &states[brought[0].watched..]);
    brought[0].watched = states.len();
    for (device, brought) in devices.iter_mut().zip(brought) {
        watch::idle(&mut device.registers, states.len() - brought.watched);
        age(&mut device.registers, states.len() - brought.aged);
    }
    sent
}

/// The devices behind the first, up to the front, are sent the states so far, and none after them until a header.
fn reach_no_more(devices: &mut [Device], brought: &mut [Brought], front: usize, states: &[u8]) {
    let reached = devices.len().min(front + 1);
    let mut stretch = Stretch::end_of(states);
    for k in (1..reached).rev() {
        stretch.heard_by(&mut devices[k].registers, brought[k].watched);
        brought[k].watched = states.len();
    }
}

/// A device that is not passing takes high states, the first of which is given after clock `at`: how many, and what it
/// sends. The first device may have been sent any states since it was last brought, the others high ones.
fn take_highs(
    device: &mut Device,
    is_first: bool,
    states: &[u8],
    at: usize,
    brought: &mut Brought,
) -> (usize, Sent) {
    match device.place.phase {
        SLICE => {
            let (taken, is_whole) = take_slice(device, &states[at..]);
            if !is_whole {
                return (taken, Sent::Nothing);
            }
            let end = at + taken;
            let heard = &states[brought.watched..end - 1];
            if is_first {
                watch::hear(&mut device.registers, heard);
            } else {
                watch::hear_highs(&mut device.registers, heard);
            }
            age(&mut device.registers, end - brought.aged);
            let sent = finish(device);
            watch::hear_highs(&mut device.registers, &states[end - 1..end]);
            *brought = Brought {
                aged: end,
                watched: end,
            };
            (taken, sent)
        }
        LOST => (high_states(&states[at..]), Sent::Nothing),
        _ => (take_header(device, &states[at..]), Sent::Nothing),
    }
}

fn first_not_passing(devices: &[Device]) -> usize {
    devices
        .iter()
        .position(|device| device.place.phase != PASSING)
        .unwrap_or(devices.len())
}

/// How many high states stand at the front.
fn high_states(states: &[u8]) -> usize {
    states.iter().position(|&s| s < 2).unwrap_or(states.len())
}

/// The 24 states of a header: SYNC at low load, command and count at high.
pub fn write_header(out: &mut [u8], command: u8, count: u16) {
    let bits = 0xE8 << 16 | (u32::from(command) * 0x15) << 10 | u32::from(count);
    for (k, state) in out.iter_mut().enumerate() {
        *state = (bits >> (23 - k) & 1) as u8 + if k < 8 { 0 } else { 2 };
    }
}

/// Makes a chain fresh, told the part and the watchdog's bit and limit.
pub fn fresh(devices: &mut [Device], part: u16, bit: u8, limit: u32) -> Result<(), Refusal> {
    if !is_known(part) {
        return Err(1);
    }
    if devices.is_empty() || devices.len() > 1023 {
        return Err(2);
    }
    if !watch::is_told(bit, limit) {
        return Err(13);
    }
    devices.fill(Device::watched(part, bit, limit));
    Ok(())
}

/// Sets a fault flag of a device, numbered from 1.
pub fn set_fault(
    devices: &mut [Device],
    device: usize,
    kind: u8,
    flag: bool,
) -> Result<(), Refusal> {
    judge(devices)?;
    if device == 0 || device > devices.len() || kind > 1 {
        return Err(13);
    }
    let r = &mut devices[device - 1].registers;
    match kind {
        0 => r.overtemperature = u8::from(flag),
        _ => r.openled = u8::from(flag),
    }
    Ok(())
}

/// Numbers 1, 2, 4 and 13 of a lent chain.
pub fn judge(devices: &[Device]) -> Result<(), Refusal> {
    judge_parts(devices)?;
    if all_fit(devices) {
        Ok(())
    } else {
        Err(13)
    }
}

/// Numbers 1, 2 and 4 of a lent chain.
pub fn judge_parts(devices: &[Device]) -> Result<(), Refusal> {
    let Some(first) = devices.first() else {
        return Err(2);
    };
    let part = first.registers.part;
    let are_alike = devices.iter().all(|d| d.registers.part == part);
    if !is_known(part) || !are_alike && devices.iter().any(|d| !is_known(d.registers.part)) {
        return Err(1);
    }
    if devices.len() > 1023 {
        return Err(2);
    }
    if are_alike {
        Ok(())
    } else {
        Err(4)
    }
}
