//! What goes by the part: its table, its outputs, what it uses of a record, and chains of two parts.

mod common;

use common::wait;
use model::chain;
use model::compare::compare;
use model::device::Device as Judged;
use model::frame::Tail;
use model::light::{is_device_lit, is_lit, lit_now, Position};
use model::part::{slice_bits, Command, Part};
use model::set::Set;
use record::{Device, Registers};

const PLAIN: u8 = 0x00;
const MULTIPLEXED: u8 = 0x01;
const GLB4: u8 = 0x10;
const BOTH: u8 = 0x11;

/// Bits of an individual slice, plain and multiplexed; bits of any other; subframes.
#[test]
fn the_table_of_the_parts() {
    let rows = [
        (6972, [192, 384], 16, [128, 64, 128, 64]),
        (6973, [224, 448], 16, [32, 16, 8, 4]),
        (6974, [288, 576], 24, [128, 64, 128, 64]),
        (6975, [336, 672], 24, [32, 16, 8, 4]),
    ];
    for (number, individual, other, subframes) in rows {
        let part = Part::of(number).unwrap();
        let bits = |command, configuration| slice_bits(command, part, configuration);
        let of_values = [PLAIN, MULTIPLEXED].map(|c| bits(Command::Individual, c));
        assert_eq!(of_values, individual);
        for command in &Command::ALL[1..] {
            assert_eq!(bits(*command, MULTIPLEXED), other);
        }
        let counted = [PLAIN, MULTIPLEXED, GLB4, BOTH].map(|c| part.subframes(c));
        assert_eq!(counted, subframes);
    }
}

#[test]
fn any_other_number_is_no_part() {
    for number in [0, 1, 2, 24, 6960, 6970, 6971, 6976, 16_974, u16::MAX] {
        assert_eq!(Part::of(number), Err(1));
        let mut devices = [Device::fresh(6972)];
        assert_eq!(chain::fresh(&mut devices, number, 0, 0), Err(1));
        devices[0].registers.part = number;
        assert_eq!(Judged::of_record(&devices[0]).err(), Some(1));
        assert_eq!(is_lit(number, 0, 0, 0, output(0)), Err(1));
    }
}

fn output(output: u32) -> Position {
    Position {
        output,
        subframe: 0,
        clock: 0,
        phase: 0,
    }
}

#[test]
fn output_16_of_a_16_output_part_is_refused() {
    for (part, outputs) in [(6972, 16), (6973, 16), (6974, 24), (6975, 24)] {
        let device = Device::fresh(part);
        for asked in 0..30 {
            let expected = if asked < outputs { Ok(false) } else { Err(13) };
            assert_eq!(is_lit(part, 0, 0, 0, output(asked)), expected);
            assert_eq!(is_device_lit(&device, output(asked)), expected);
        }
    }
}

/// The judgement of a fresh device after a change.
fn refusal(part: u16, change: impl Fn(&mut Registers)) -> u8 {
    let mut device = Device::fresh(part);
    change(&mut device.registers);
    Judged::of_record(&device).err().unwrap_or(0)
}

#[test]
fn places_that_a_16_output_part_does_not_use_hold_0() {
    for (part, held) in [(6972, 13), (6973, 13), (6974, 0), (6975, 0)] {
        assert_eq!(refusal(part, |r| r.calibration[2] = 1), held);
        for k in 16..24 {
            assert_eq!(refusal(part, |r| r.waiting0[k] = 1), held);
            assert_eq!(refusal(part, |r| r.waiting1[k] = 1), held);
            assert_eq!(refusal(part, |r| r.active0[k] = 1), held);
            assert_eq!(refusal(part, |r| r.active1[k] = 1), held);
        }
        for k in 32..48 {
            assert_eq!(refusal(part, |r| r.slice[k] = 1), held);
        }
        assert_eq!(refusal(part, |r| r.calibration[1] = 255), 0);
        assert_eq!(refusal(part, |r| r.active1[15] = 4095), 0);
        // Nonmultiplexed, old bits may stand in what a multiplexed slice uses.
        assert_eq!(refusal(part, |r| r.slice[31] = 4095), 0);
    }
}

/// A set with values that differ.
fn set(part: u16, devices: usize, configuration: u8) -> Set {
    let zeros = Set::zeros(part, devices, configuration);
    Set {
        calibration: (1..=zeros.calibration.len()).map(|b| b as u8).collect(),
        global: 3,
        individual: (1..=zeros.individual.len() as u16).collect(),
        ..zeros
    }
}

fn restored(devices: &mut [Device], set: &Set) {
    for command in Command::RESTORE {
        let states = set.states(command, Tail::default()).unwrap();
        chain::run(devices, &states, states.len() + 23).unwrap();
    }
    wait(devices);
    assert_eq!(compare(set, devices), Ok(None));
}

/// Multiplexed first, so that slots 16 to 31 hold old bits at the nonmultiplexed load.
#[test]
fn a_restore_of_a_16_output_part_writes_the_places_in_use() {
    for part in [6972, 6973] {
        let mut devices = [Device::fresh(part); 2];
        restored(&mut devices, &set(part, 2, BOTH));
        let r = devices[1].registers;
        assert_eq!(r.calibration, [3, 4, 0]);
        for k in 0..16 {
            assert_eq!(r.active0[k], 33 + 2 * k as u16);
            assert_eq!(r.active1[k], 34 + 2 * k as u16);
        }
        restored(&mut devices, &set(part, 2, PLAIN));
        let next = devices[1].registers;
        assert!(next.active0[..16].iter().copied().eq(17..=32));
        assert_eq!(next.active1, r.active1);
        for list in [next.active0, next.active1] {
            assert_eq!(list[16..], [0; 8]);
        }
        assert_eq!(next.slice[16..32], r.slice[16..32]);
    }
}

#[test]
fn a_third_copy_belongs_to_the_next_device() {
    let states = set(6972, 2, MULTIPLEXED).states(Command::Configuration, Tail::default());
    let mut devices = [Device::fresh(6972); 2];
    chain::run(&mut devices, &states.unwrap()[..24 + 16], 100).unwrap();
    let held = devices.map(|device| device.registers.configuration);
    assert_eq!(held, [MULTIPLEXED, PLAIN]);
}

#[test]
fn records_of_two_parts_are_no_chain() {
    for first in Part::ALL {
        for second in Part::ALL {
            let numbers = [first.number(), second.number()];
            let mut devices = numbers.map(Device::fresh);
            let expected = if first == second { Ok(()) } else { Err(4) };
            assert_eq!(lit_now(&devices, 1, 0).map(|_| ()), expected);
            assert_eq!(chain::run(&mut devices, &[], 23).map(|_| ()), expected);
            assert_eq!(chain::set_fault(&mut devices, 1, 0, true), expected);
            let compared = compare(&set(numbers[0], 2, PLAIN), &devices);
            assert_eq!(compared.map(|_| ()), expected);
        }
    }
}
