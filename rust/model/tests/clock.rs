//! The clock that each device keeps: the worked examples 4a to 4i, how long a frame is, what advances a device and what
//! does not, the wait behind a restore, boundaries within one, and what is lit now.

mod common;

use common::wait;
use model::chain;
use model::compare::compare;
use model::device::Device as Judged;
use model::frame::Tail;
use model::light::{is_device_lit, lit_now, Now, Position};
use model::part::{phases, slice_bits, Command, Part};
use model::set::Set;
use record::Device;

const PLAIN: u8 = 0x00;
const GLB4: u8 = 0x10;

/// Clocks of a frame, and of one that GLB4 shortens.
const LONG: u64 = 524_288;
const SHORT: u64 = 131_072;

/// A device at a position, with other values waiting than in use.
fn device(part: u16, configuration: u8, position: u64) -> Device {
    let mut device = Device::fresh(part);
    let r = &mut device.registers;
    (r.configuration, r.position) = (configuration, position);
    (r.waiting, r.waiting0[0], r.waiting1[0]) = (7, 70, 71);
    (r.active, r.active0[0], r.active1[0]) = (9, 90, 91);
    device
}

/// The global byte and the first MUX0 and MUX1 values that are in use.
fn active(device: &Device) -> (u8, u16, u16) {
    let r = &device.registers;
    (r.active, r.active0[0], r.active1[0])
}

/// In use before any boundary, and after one.
const OLD: (u8, u16, u16) = (9, 90, 91);
const WAITED: (u8, u16, u16) = (7, 70, 71);

/// A set of so many devices.
fn set(part: u16, devices: usize, configuration: u8) -> Set {
    let mut set = Set::zeros(part, devices, configuration);
    set.calibration.fill(1);
    set.global = 3;
    set.individual.fill(33);
    set
}

/// The states of a frame for one device.
fn frame(part: u16, command: Command, configuration: u8) -> Vec<u8> {
    let set = set(part, 1, configuration);
    set.states(command, Tail::default()).unwrap()
}

/// A device that was given states.
fn given(device: Device, states: &[u8]) -> Device {
    let mut devices = [device];
    chain::run(&mut devices, states, states.len() + 23).unwrap();
    devices[0]
}

/// A device that was given the states of a configuration frame and comes to a position with the last of them.
fn configured(part: u16, old: u8, new: u8, position: u64) -> Device {
    let states = frame(part, Command::Configuration, new);
    given(device(part, old, position - states.len() as u64), &states)
}

/// A boundary with a store: what waited before it becomes active, and what is stored waits.
#[test]
fn example_4a() {
    for part in Part::ALL.map(Part::number) {
        for command in [Command::Global, Command::Individual] {
            let states = frame(part, command, PLAIN);
            let before = device(part, PLAIN, LONG - states.len() as u64);
            let almost = given(before, &states[..states.len() - 1]);
            assert_eq!(almost.registers.position, LONG - 1);
            assert_eq!(active(&almost), OLD);
            let after = given(almost, &states[states.len() - 1..]);
            let r = &after.registers;
            assert_eq!((r.position, active(&after)), (0, WAITED));
            let waiting = (r.waiting, r.waiting0[0]);
            let is_global = command == Command::Global;
            assert_eq!(waiting, if is_global { (3, 70) } else { (7, 33) });
        }
    }
}

/// Every device advances with every state of the host, and not with those that the one before it sends, as a header.
#[test]
fn example_4b() {
    let mut devices = [Device::fresh(6974); 2];
    let states = set(6974, 2, PLAIN).states(Command::Configuration, Tail::default());
    let states = states.unwrap();
    assert_eq!(states.len(), 72);
    for clock in 0..72 {
        assert_eq!(devices.map(|d| d.registers.position), [clock; 2]);
        let state = states[clock as usize];
        chain::run(&mut devices, &[state], 24).unwrap();
    }
    assert_eq!(devices.map(|d| d.registers.position), [72; 2]);
    assert_eq!(devices[1].place.phase, record::PASSING);
}

/// GLB4 shortens the frame.
#[test]
fn example_4c() {
    for part in [6973, 6975] {
        let after = configured(part, PLAIN, GLB4, 200_001);
        assert_eq!(after.registers.configuration, GLB4);
        assert_eq!(after.registers.position, 68_929);
        assert_eq!(active(&after), OLD);
    }
}

/// 0 by a shorter frame is no boundary.
#[test]
fn example_4d() {
    for part in [6973, 6975] {
        let after = configured(part, PLAIN, GLB4, SHORT);
        assert_eq!(after.registers.position, 0);
        assert_eq!(active(&after), OLD);
    }
}

/// The boundary comes first, by the configuration until then.
#[test]
fn example_4e() {
    for part in [6973, 6975] {
        let after = configured(part, GLB4, PLAIN, SHORT);
        assert_eq!(after.registers.configuration, PLAIN);
        assert_eq!(after.registers.position, 0);
        assert_eq!(active(&after), WAITED);
    }
}

/// A longer frame goes on from where the device is.
#[test]
fn example_4f() {
    for part in [6973, 6975] {
        let after = configured(part, GLB4, PLAIN, SHORT - 1);
        assert_eq!(after.registers.position, SHORT - 1);
        let next = given(after, &[0]);
        assert_eq!(next.registers.position, SHORT);
        assert_eq!(active(&next), OLD);
    }
}

/// Copies that differ store nothing.
#[test]
fn example_4g() {
    for part in [6973, 6975] {
        let mut states = frame(part, Command::Configuration, GLB4);
        states[24] ^= 1;
        let before = device(part, PLAIN, 200_001 - states.len() as u64);
        let after = given(before, &states);
        assert_eq!(after.registers.configuration, PLAIN);
        assert_eq!(after.registers.position, 200_001);
    }
}

/// GLB4 means nothing on these.
#[test]
fn example_4h() {
    for part in [6972, 6974] {
        let after = configured(part, PLAIN, GLB4, 200_001);
        assert_eq!(after.registers.configuration, GLB4);
        assert_eq!(after.registers.position, 200_001);
    }
}

/// The single step does not advance, and stores as a run does.
#[test]
fn example_4i() {
    for part in [6973, 6975] {
        let mut judged = Judged::of_record(&device(part, PLAIN, 200_000)).unwrap();
        for state in frame(part, Command::Configuration, GLB4) {
            judged.step(state);
        }
        let after = judged.to_record();
        assert_eq!(after.registers.configuration, GLB4);
        assert_eq!(after.registers.position, 68_928);
        assert_eq!(active(&after), OLD);
    }
}

/// The length of a frame, by every configuration byte.
fn length(part: u16, configuration: u8) -> u64 {
    let is_short = part % 2 == 1 && configuration & GLB4 != 0;
    if is_short {
        SHORT
    } else {
        LONG
    }
}

#[test]
fn a_position_is_below_the_frames_length() {
    for part in Part::ALL.map(Part::number) {
        for configuration in 0..=255 {
            let length = length(part, configuration);
            let judged = |position| {
                let judged = Judged::of_record(&device(part, configuration, position));
                judged.err().unwrap_or(0)
            };
            let fits = [0, 1, length - 2, length - 1].map(judged);
            assert_eq!(fits, [0; 4]);
            let past = [length, length + 1, 1 << 32, u64::MAX].map(judged);
            assert_eq!(past, [13; 4]);
        }
    }
}

#[test]
fn one_position_too_far_refuses_the_call() {
    let mut devices = [device(6975, GLB4, SHORT - 1), device(6975, GLB4, SHORT)];
    let before = devices;
    assert_eq!(chain::run(&mut devices, &[0], 24), Err(13));
    assert_eq!(chain::set_fault(&mut devices, 1, 0, true), Err(13));
    let set = set(6975, 2, PLAIN);
    assert_eq!(compare(&set, &devices), Err(13));
    assert_eq!(lit_now(&devices, 1, 0), Err(13));
    assert_eq!(devices, before);
}

/// Neither a run of no states, nor a refused one, nor a fault setting is a clock.
#[test]
fn what_does_not_advance() {
    let mut devices = [device(6974, PLAIN, LONG - 1)];
    assert_eq!(chain::run(&mut devices, &[], 23), Ok(vec![]));
    assert_eq!(chain::run(&mut devices, &[0, 4], 25), Err(13));
    assert_eq!(chain::run(&mut devices, &[0], 23), Err(5));
    chain::set_fault(&mut devices, 1, 1, true).unwrap();
    assert_eq!(devices[0].registers.position, LONG - 1);
    assert_eq!(active(&devices[0]), OLD);
}

/// Whatever a device is at, any state advances it, and all devices behind it.
#[test]
fn any_state_advances_every_device() {
    for phase in [record::HUNTING, record::PASSING, record::LOST] {
        for state in 0..=3 {
            let mut devices = [device(6974, PLAIN, LONG - 1); 3];
            devices[0].place.phase = phase;
            chain::run(&mut devices, &[state], 24).unwrap();
            assert_eq!(devices.map(|d| d.registers.position), [0; 3]);
            assert_eq!(devices.map(|d| active(&d)), [WAITED; 3]);
        }
    }
}

/// Devices keep clocks of their own.
#[test]
fn each_device_has_its_own_boundary() {
    let mut devices = [device(6975, PLAIN, LONG - 2), device(6975, GLB4, SHORT - 1)];
    chain::run(&mut devices, &[0], 24).unwrap();
    assert_eq!(devices.map(|d| active(&d)), [OLD, WAITED]);
    chain::run(&mut devices, &[0], 24).unwrap();
    assert_eq!(devices.map(|d| active(&d)), [WAITED; 2]);
    assert_eq!(devices.map(|d| d.registers.position), [0, 1]);
}

fn restore(set: &Set) -> Vec<u8> {
    let states = |command| set.states(command, Tail::default()).unwrap();
    Command::RESTORE.into_iter().flat_map(states).collect()
}

/// The wait is as long as it must be: a clock less does not do, also where the last state of the restore itself was a
/// boundary, and each position 0.
#[test]
fn the_wait_behind_a_restore() {
    for (part, configuration) in [(6974, PLAIN), (6973, GLB4), (6975, PLAIN)] {
        let set = set(part, 2, configuration);
        let states = restore(&set);
        for first in [LONG - states.len() as u64, LONG - states.len() as u64 - 5] {
            let mut devices = [device(part, PLAIN, first); 2];
            chain::run(&mut devices, &states, states.len() + 23).unwrap();
            let length = length(part, configuration);
            let position = (first + states.len() as u64) % length;
            assert_eq!(devices.map(|d| d.registers.position), [position; 2]);
            let clocks = chain::clocks_to_boundary(&devices).unwrap();
            assert_eq!(clocks as u64, length - position);
            chain::run(&mut devices, &vec![1; clocks - 1], clocks + 22).unwrap();
            assert!(compare(&set, &devices).unwrap().is_some());
            wait(&mut devices);
            assert_eq!(compare(&set, &devices), Ok(None));
        }
    }
}

/// After how many states of a restore the slice of a device in the frame of a command has arrived.
fn arrival(set: &Set, command: Command, number: usize) -> usize {
    let part = Part::of(set.part).unwrap();
    let bits = |command| slice_bits(command, part, set.configuration);
    let before = Command::RESTORE.into_iter().take_while(|&c| c != command);
    let begin: usize = before.map(|c| 24 + set.devices * bits(c)).sum();
    begin + 24 + number * bits(command)
}

/// With a boundary at clock b of a restore, an active group is new where its slice has arrived within b - 1 states.
#[test]
fn a_boundary_at_any_clock_of_a_restore() {
    let set = set(6974, 2, PLAIN);
    let states = restore(&set);
    for b in 1..=states.len() {
        let mut devices = [device(6974, PLAIN, LONG - b as u64); 2];
        chain::run(&mut devices, &states, states.len() + 23).unwrap();
        for (number, device) in (1..).zip(devices) {
            let has_arrived = |command| arrival(&set, command, number) < b;
            let global = if has_arrived(Command::Global) { 3 } else { 7 };
            let is_new = has_arrived(Command::Individual);
            let value = if is_new { 33 } else { 70 };
            assert_eq!(active(&device), (global, value, 71));
        }
    }
}

/// Every position of a frame, in the order of its subframes, each in MUX0 and then in MUX1.
#[test]
fn lit_now_goes_through_the_schedule() {
    for (part, configuration) in [(6973, 0x11), (6975, GLB4)] {
        let known = Part::of(part).unwrap();
        let mut device = device(part, configuration, 0);
        (device.registers.active, device.registers.active0[1]) = (1, 5000);
        device.registers.active1[1] = 9000;
        for subframe in 0..known.subframes(configuration) {
            for phase in 0..phases(configuration) {
                for clock in 0..known.clocks() {
                    let at = Position {
                        output: 1,
                        subframe,
                        clock,
                        phase,
                    };
                    let lit = is_device_lit(&device, at).unwrap();
                    assert_eq!(lit_now(&[device], 1, 1), Ok(Now { lit, phase }));
                    device.registers.position += 1;
                }
            }
        }
        assert_eq!(device.registers.position, length(part, configuration));
    }
}

/// Each device is asked at its own position.
#[test]
fn lit_now_of_a_device_of_a_chain() {
    let mut devices = [device(6974, 0x01, 0); 3];
    for (device, position) in devices.iter_mut().zip([16, 4096 + 16, 2 * 4096 + 16]) {
        let r = &mut device.registers;
        (r.position, r.active, r.active0[23], r.active1[23]) = (position, 63, 17, 17);
    }
    let now = |number, output| lit_now(&devices, number, output);
    let seen = |lit, phase| Ok(Now { lit, phase });
    assert_eq!(now(1, 23), seen(true, 0));
    assert_eq!(now(2, 23), seen(true, 1));
    assert_eq!(now(3, 23), seen(true, 0));
    assert_eq!(now(3, 22), seen(false, 0));
    let out_of_range = [now(0, 0), now(4, 0), now(1, 24), now(usize::MAX, u32::MAX)];
    assert_eq!(out_of_range, [Err(13); 4]);
}

/// Each thing wrong has those with higher numbers beside it; put right one after the other, each number comes up.
#[test]
fn lit_now_gives_the_lowest_number() {
    let mut devices = vec![device(6972, PLAIN, LONG); 1024];
    devices[1023].registers.part = 6971;
    devices[5].registers.part = 6974;
    let now = |devices: &[Device]| lit_now(devices, 1, 16);
    assert_eq!(now(&devices), Err(1));
    devices[1023].registers.part = 6972;
    assert_eq!(now(&devices), Err(2));
    assert_eq!(now(&devices[..0]), Err(2));
    devices.truncate(1023);
    assert_eq!(now(&devices), Err(4));
    devices[5].registers.part = 6972;
    assert_eq!(now(&devices), Err(13));
    assert_eq!(lit_now(&devices, 1, 15), Err(13));
    for device in &mut devices {
        device.registers.position = 0;
    }
    assert_eq!(now(&devices), Err(13));
    assert!(lit_now(&devices, 1, 15).is_ok());
    assert_eq!(lit_now(&devices, 1024, 15), Err(13));
}
