//! A chain: a lent list of records.

use crate::device::Device;
use crate::part::Part;
use crate::watch::{is_bit, is_limit};
use crate::{refuse, Refusal};

/// Makes a chain fresh, whatever its records hold; told the part, and the watchdog's bit and limit.
pub fn fresh(
    records: &mut [record::Device],
    part: u16,
    bit: u8,
    limit: u32,
) -> Result<(), Refusal> {
    Part::of(part)?;
    refuse(2, !(1..=1023).contains(&records.len()))?;
    refuse(13, !is_bit(bit) || !is_limit(limit))?;
    records.fill(record::Device::watched(part, bit, limit));
    Ok(())
}

/// Gives the chain line states; the states that the last device sends, for a list with room for `room`. With each state
/// every device first advances by a clock, then the state goes through the chain, and then every device watches what it
/// was sent.
pub fn run(records: &mut [record::Device], states: &[u8], room: usize) -> Result<Vec<u8>, Refusal> {
    run_noting(records, states, room, |_, _| {})
}

/// The same; each expiry of a watchdog is noted, by the device's number and the clock, both from 1.
pub fn run_noting(
    records: &mut [record::Device],
    states: &[u8],
    room: usize,
    mut note: impl FnMut(usize, usize),
) -> Result<Vec<u8>, Refusal> {
    judge_parts(records)?;
    refuse(5, room < states.len() + 23)?;
    refuse(13, states.iter().any(|&s| s > 3))?;
    let mut devices = devices_of(records)?;
    let mut returned = vec![];
    for (clock, &state) in (1..).zip(states) {
        for device in &mut devices {
            device.advance();
        }
        let mut sent = vec![state];
        for (number, device) in (1..).zip(&mut devices) {
            let sent_on = pass_through(device, &sent);
            // Its clock can end here: what it watches is its own.
            if device.watch(&sent) {
                note(number, clock);
            }
            sent = sent_on;
        }
        returned.extend(sent);
    }
    store(&devices, records);
    Ok(returned)
}

/// How many clocks it is until each position has next returned to 0: what demand 3 waits for, at low load.
pub fn clocks_to_boundary(records: &[record::Device]) -> Result<usize, Refusal> {
    judge_parts(records)?;
    let devices = devices_of(records)?;
    let clocks = |device: &Device| (device.frame_clocks() - device.position) as usize;
    Ok(devices.iter().map(clocks).max().unwrap_or(0))
}

/// Sets a fault flag of the device with a number from 1: kind 0 is overtemperature, 1 is open LED.
pub fn set_fault(
    records: &mut [record::Device],
    device: usize,
    kind: u8,
    flag: bool,
) -> Result<(), Refusal> {
    judge_parts(records)?;
    refuse(13, !(1..=records.len()).contains(&device) || kind > 1)?;
    let mut devices = devices_of(records)?;
    let device = &mut devices[device - 1];
    match kind {
        0 => device.overtemperature = flag,
        _ => device.open_led = flag,
    }
    store(&devices, records);
    Ok(())
}

/// Numbers 1, 2 and 4 of a lent chain: its part.
pub fn judge_parts(records: &[record::Device]) -> Result<Part, Refusal> {
    let parts = records
        .iter()
        .map(|r| Part::of(r.registers.part))
        .collect::<Result<Vec<_>, _>>()?;
    refuse(2, !(1..=1023).contains(&parts.len()))?;
    refuse(4, parts.iter().any(|&part| part != parts[0]))?;
    Ok(parts[0])
}

/// The devices of records of known parts; 13 where one does not fit.
pub fn devices_of(records: &[record::Device]) -> Result<Vec<Device>, Refusal> {
    records.iter().map(Device::of_record).collect()
}

fn store(devices: &[Device], records: &mut [record::Device]) {
    for (device, record) in devices.iter().zip(records) {
        *record = device.to_record();
    }
}

/// Steps a device through states in turn; what it sends.
fn pass_through(device: &mut Device, states: &[u8]) -> Vec<u8> {
    states
        .iter()
        .flat_map(|&state| device.step(state))
        .collect()
}
