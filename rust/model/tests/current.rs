//! Currents to hold against: total, average and remainder; and when they are refused.

use model::current::{current, Current, Figure};
use model::part::Part;
use model::set::Set;

/// A set of one device.
fn device(part: u16, configuration: u8, calibration: &[u8], global: u8, values: &[u16]) -> Set {
    Set {
        part,
        devices: 1,
        configuration,
        calibration: calibration.to_vec(),
        global,
        individual: values.to_vec(),
    }
}

/// Zeros, with one value at a place.
fn only(count: usize, place: usize, value: u16) -> Vec<u16> {
    let mut values = vec![0; count];
    values[place] = value;
    values
}

fn figure(total: u64, average: u64, remainder: u64) -> Figure {
    Figure {
        total,
        average,
        remainder,
    }
}

/// A set of one device draws this, and so does the device.
fn draws(set: &Set, total: u64, average: u64, remainder: u64) {
    let sign = figure(total, average, remainder);
    let devices = vec![sign];
    assert_eq!(current(set, 3), Ok(Current { sign, devices }));
}

#[test]
fn sinks_at_calibration_bytes() {
    for (part, currents) in [
        (6972, [88_000, 320_375, 438_625]),
        (6973, [88_000, 320_375, 438_625]),
        (6974, [48_000, 174_750, 239_250]),
        (6975, [48_000, 174_750, 239_250]),
    ] {
        let part = Part::of(part).unwrap();
        assert_eq!([0, 169, 255].map(|byte| part.sink_current(byte)), currents);
    }
}

#[test]
fn a_6974_at_2560() {
    let set = device(6974, 0, &[0xA9, 0x10, 0x01], 96, &[2560; 24]);
    draws(&set, 559_669_824_000, 1_067_485, 248_320);
}

#[test]
fn one_clock_of_r0() {
    let set = device(6974, 0, &[0; 3], 0, &only(24, 23, 17));
    draws(&set, 48_000, 0, 48_000);
}

#[test]
fn the_edge_zone_draws_nothing() {
    let set = device(6974, 0, &[0xFF; 3], 127, &[16; 24]);
    draws(&set, 0, 0, 0);
}

#[test]
fn the_most_of_a_6974() {
    let set = device(6974, 0, &[0xFF; 3], 127, &[4095; 24]);
    draws(&set, 2_986_942_464_000, 5_697_140, 327_680);
}

#[test]
fn a_multiplexed_6974() {
    let set = device(6974, 1, &[0xA9; 3], 63, &[2560, 16].repeat(24));
    draws(&set, 682_850_304_000, 1_302_433, 311_296);
}

#[test]
fn b7_of_a_6975_draws_by_the_first_byte() {
    let set = device(6975, 0, &[0xA9, 0, 0], 31, &only(24, 0, 33));
    draws(&set, 5_592_000, 10, 349_120);
}

#[test]
fn four_short_frames_of_a_6975() {
    let set = device(6975, 0x11, &[0; 3], 3, &only(48, 1, 16_383));
    draws(&set, 12_533_760_000, 23_906, 131_072);
}

#[test]
fn the_most_of_a_6973() {
    let set = device(6973, 0, &[0xFF; 2], 31, &[16_383; 16]);
    draws(&set, 3_665_080_320_000, 6_990_585, 491_520);
}

/// The sign's average is over the sum of its devices'.
#[test]
fn the_most_of_two_6972() {
    let set = Set {
        devices: 2,
        ..device(6972, 0, &[0xFF; 4], 127, &[4095; 32])
    };
    let drawn = current(&set, 6).unwrap();
    let each = figure(3_650_707_456_000, 6_963_171, 458_752);
    assert_eq!(drawn.devices, [each; 2]);
    let sign = figure(7_301_414_912_000, 13_926_343, 393_216);
    assert_eq!(drawn.sign, sign);
}

#[test]
fn a_6972_with_two_bytes() {
    let set = device(6972, 0, &[0xA9, 0], 96, &[2560; 16]);
    draws(&set, 806_191_056_000, 1_537_687, 214_144);
}

#[test]
fn a_configuration_bit_without_meaning() {
    let set = device(6974, 0x08, &[1, 2, 3], 5, &[1000; 24]);
    draws(&set, 7_013_952_000, 13_378, 27_136);
}

/// Each thing wrong has those with higher numbers beside it; put right one after the other, each number comes up.
#[test]
fn the_lowest_number_is_given() {
    let mut set = device(0, 0, &[0; 2], 128, &only(24, 0, 4096));
    set.devices = 0;
    assert_eq!(current(&set, 2), Err(1));
    set.part = 6974;
    assert_eq!(current(&set, 2), Err(2));
    set.devices = 1;
    assert_eq!(current(&set, 2), Err(4));
    set.calibration.push(0);
    assert_eq!(current(&set, 2), Err(5));
    assert_eq!(current(&set, 3), Err(6));
    set.global = 127;
    assert_eq!(current(&set, 3), Err(6));
    set.individual[0] = 4095;
    assert!(current(&set, 3).is_ok());
}
