//! Rules that the "Numbers to hold against" of docs/RULES.md do not touch: the restore and its cut, the order of values, lost devices,
//! records that do not fit, the comparison.

mod common;

use common::wait;
use model::chain;
use model::compare::{compare, Difference, Group};
use model::device::Device as Judged;
use model::frame::Tail;
use model::part::Command;
use model::set::Set;
use record::{Device, Place};

fn set() -> Set {
    Set {
        part: 6975,
        devices: 3,
        configuration: 0x01,
        calibration: (1..=9).collect(),
        global: 7,
        individual: (0..144).map(|k| 100 * k + 1).collect(),
    }
}

fn restore(set: &Set) -> Vec<u8> {
    let tail = Tail {
        number: 5,
        length: 3,
    };
    Command::RESTORE
        .iter()
        .flat_map(|&command| set.states(command, tail).unwrap())
        .collect()
}

/// A chain that has been sent half a frame of something else.
fn used() -> [Device; 3] {
    let mut devices = [Device::fresh(6975); 3];
    let states = set().states(Command::Global, Tail::default()).unwrap();
    chain::run(&mut devices, &states[..60], 100).unwrap();
    devices
}

#[test]
fn a_restore_sets_every_register_in_use() {
    let set = set();
    let mut devices = used();
    let states = restore(&set);
    chain::run(&mut devices, &states, states.len() + 23).unwrap();
    assert_eq!(devices[0].registers.active0, [0; 24]);
    wait(&mut devices);
    assert_eq!(compare(&set, &devices), Ok(None));
    assert_eq!(devices[2].registers.active1[23], set.individual[143]);
}

#[test]
fn a_slice_is_stored_with_its_last_bit() {
    let set = set();
    let states = set.states(Command::Calibration, Tail::default()).unwrap();
    for cut in 0..=states.len() {
        let mut devices = [Device::fresh(6975); 3];
        chain::run(&mut devices, &states[..cut], cut + 23).unwrap();
        for number in 1..=3 {
            let arrived = cut >= 24 + 24 * number;
            let expected = match arrived {
                true => set.calibration_of(number),
                false => &[0; 3],
            };
            assert_eq!(devices[number - 1].registers.calibration, expected);
        }
    }
}

#[test]
fn old_low_bits_do_not_count_after_a_high_clock() {
    let mut devices = [Device::fresh(6974)];
    let states = [1, 1, 1, 0, 3, 1, 0, 0, 0, 3];
    chain::run(&mut devices, &states, 33).unwrap();
    assert_eq!(devices[0].place, Place::of(record::LOST));
}

#[test]
fn copies_that_differ_are_not_stored_and_the_header_is_sent() {
    let set = set();
    let mut states = set.states(Command::Configuration, Tail::default()).unwrap();
    states[24] ^= 1;
    let mut devices = [Device::fresh(6975); 1];
    let returned = chain::run(&mut devices, &states[..48], 71).unwrap();
    assert_eq!(devices[0].registers.configuration, 0);
    assert_eq!(returned.len(), 24);
}

#[test]
fn a_nonmultiplexed_load_leaves_mux1() {
    let mut devices = [Device::fresh(6975)];
    devices[0].registers.waiting1 = [9; 24];
    let set = Set {
        devices: 1,
        configuration: 0,
        individual: vec![5; 24],
        ..set()
    };
    let states = set.states(Command::Individual, Tail::default()).unwrap();
    chain::run(&mut devices, &states, states.len() + 23).unwrap();
    assert_eq!(devices[0].registers.waiting0, [5; 24]);
    assert_eq!(devices[0].registers.waiting1, [9; 24]);
}

/// Three devices of a 6974 after a configuration and an individual frame.
fn loaded(devices: &mut [Device; 3], configuration: u8, individual: Vec<u16>) {
    let set = Set {
        part: 6974,
        configuration,
        individual,
        ..set()
    };
    for command in [Command::Configuration, Command::Individual] {
        let states = set.states(command, Tail::default()).unwrap();
        chain::run(devices, &states, states.len() + 23).unwrap();
    }
}

#[test]
fn unequal_values_are_stored_in_wire_order() {
    let mut devices = [Device::fresh(6974); 3];
    loaded(&mut devices, 1, (1..=144).collect());
    for (device, first) in devices.iter().zip([1, 49, 97]) {
        for k in 0..24 {
            assert_eq!(device.registers.waiting0[k], first + 2 * k as u16);
            assert_eq!(device.registers.waiting1[k], first + 2 * k as u16 + 1);
        }
    }
    let before = devices;
    loaded(&mut devices, 0, (145..=216).collect());
    for (d, device) in devices.iter().enumerate() {
        for k in 0..24 {
            assert_eq!(device.registers.waiting0[k], (145 + 24 * d + k) as u16);
        }
        assert_eq!(device.registers.waiting1, before[d].registers.waiting1);
    }
}

/// One device after a packed frame, and the states that it sent on.
fn fed(device: Device, frame: &[u8]) -> (Device, Vec<u8>) {
    let mut devices = [device];
    let states = model::serial::clocked(&model::bits::unpack(frame));
    let sent = chain::run(&mut devices, &states, states.len() + 23).unwrap();
    (devices[0], sent)
}

#[test]
fn command_pairs_that_differ_lose_the_device_until_the_next_frame() {
    let (lost, sent) = fed(Device::fresh(6974), &[0xE8, 0xF8, 0, 1, 1, 1]);
    assert_eq!(lost.place, Place::of(record::LOST));
    assert_eq!((lost.registers.configuration, sent.len()), (0, 0));
    let (next, sent) = fed(lost, &[0xE8, 0xFC, 0, 1, 1, 1]);
    assert_eq!((next.registers.configuration, sent.len()), (1, 24));
}

#[test]
fn the_count_wraps() {
    let mut device = Device::fresh(6974);
    device.registers.openled = 1;
    let (_, sent) = fed(device, &[0xE8, 0xFF, 0xFF, 1, 1, 1]);
    let header = model::frame::header(Command::Configuration, 0);
    assert_eq!(sent, model::serial::clocked(&header));
}

#[test]
fn a_slot_over_255_is_stored_by_its_low_bits() {
    let mut device = Device::fresh(6974);
    device.registers.slice[..3].copy_from_slice(&[0x1A9, 0x1A9, 0xD4]);
    device.place = Place {
        phase: record::SLICE,
        command: 2,
        count: 0,
        read: 23,
    };
    let mut judged = Judged::of_record(&device).unwrap();
    let sent = judged.step(3);
    assert_eq!(judged.to_record().registers.waiting, 0xA9);
    assert_eq!(sent.len(), 24);
}

#[test]
fn records_that_do_not_fit() {
    let refusal = |change: &dyn Fn(&mut Device)| {
        let mut device = Device::fresh(6974);
        change(&mut device);
        Judged::of_record(&device).err().unwrap_or(0)
    };
    assert_eq!(refusal(&|_| {}), 0);
    assert_eq!(refusal(&|d| d.registers.part = 6976), 1);
    assert_eq!(refusal(&|d| d.registers.openled = 2), 13);
    assert_eq!(refusal(&|d| d.registers.slice[47] = 4096), 13);
    assert_eq!(refusal(&|d| d.registers.active1[0] = 4095), 0);
    let place = |phase, command, count, read| {
        refusal(&|d| {
            d.place = Place {
                phase,
                command,
                count,
                read,
            }
        })
    };
    assert_eq!(place(record::HUNTING, 0, 0, 256), 0);
    assert_eq!(place(record::HUNTING, 0, 0, 511), 0);
    assert_eq!(place(record::HUNTING, 0, 0, 512), 13);
    assert_eq!(place(record::HUNTING, 1, 0, 0), 13);
    assert_eq!(place(record::OPENING, 0, 0, 0), 13);
    assert_eq!(place(record::OPENING, 0, 0, 1), 0);
    assert_eq!(place(record::OPENING, 0, 0, 63), 0);
    assert_eq!(place(record::OPENING, 0, 0, 64), 13);
    assert_eq!(place(record::COUNTING, 3, 0, 1), 0);
    assert_eq!(place(record::COUNTING, 4, 0, 1), 13);
    assert_eq!(place(record::SLICE, 0, 1023, 287), 0);
    assert_eq!(place(record::SLICE, 0, 1023, 288), 13);
    assert_eq!(place(record::SLICE, 1, 1024, 0), 13);
    assert_eq!(place(record::PASSING, 0, 0, 1), 13);
    assert_eq!(place(6, 0, 0, 0), 13);
}

#[test]
fn every_place_comes_back_as_it_was() {
    let fits = |phase, command, read| {
        let mut device = Device::fresh(6975);
        device.place = Place {
            phase,
            command,
            count: 0,
            read,
        };
        assert_eq!(Judged::of_record(&device).unwrap().to_record(), device);
    };
    (0..512).for_each(|read| fits(record::HUNTING, 0, read));
    (1..64).for_each(|read| fits(record::OPENING, 0, read));
    (1..1024).for_each(|read| fits(record::COUNTING, 2, read));
}

#[test]
fn the_first_difference_is_named() {
    let set = set();
    let mut devices = used();
    let states = restore(&set);
    chain::run(&mut devices, &states, states.len() + 23).unwrap();
    wait(&mut devices);
    let found = |device, group, place| {
        Ok(Some(Difference {
            device,
            group,
            place,
        }))
    };
    devices[2].registers.configuration = 0;
    assert_eq!(compare(&set, &devices), found(3, Group::Configuration, 0));
    devices[1].registers.active1[4] = 0;
    assert_eq!(
        compare(&set, &devices),
        found(2, Group::ActiveIndividual, 9)
    );
    devices[1].registers.active = 23;
    assert_eq!(compare(&set, &devices), found(2, Group::ActiveGlobal, 0));
    assert_eq!(compare(&set, &devices[..2]), Err(4));
}
