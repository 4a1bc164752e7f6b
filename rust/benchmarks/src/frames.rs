//! Individual frames of multiplexed devices, from settings to bytes and back, with all checks.

use crate::race::{beside, print_ways, Plain};
use baseline::part::{values, width};
use baseline::way::FASTEST;
use baseline::{grouped, reader, writer};
use cases::{sets, Random};
use model::set::Set;
use std::hint::black_box;

const INDIVIDUAL: u8 = 0;

const GROUPS: Plain = Plain::limited("groups", grouped::WAY, 1.5);
const BEST: Plain = Plain::unlimited("best", FASTEST);

/// N = 512 of each part, beside Rust by groups and the fastest Rust; N = 1, 64, 1023 of the parts with 14-bit values,
/// beside the fastest.
pub fn races() {
    for part in [6972, 6973, 6974, 6975] {
        write_and_read(&page(part, 512), &[GROUPS, BEST]);
    }
    for part in [6975, 6973] {
        for devices in [1, 64, 1023] {
            write_and_read(&page(part, devices), &[BEST]);
        }
    }
}

fn write_and_read(set: &Set, ways: &[Plain]) {
    let frame = write(set, ways);
    read(set, ways, &frame);
}

/// A multiplexed page of a sign, with values of the part's width.
pub fn page(part: u16, devices: usize) -> Set {
    let random = &mut Random::of_case(2, devices as u64);
    let mut set = sets::set(random, part, devices);
    set.configuration = 0x01;
    set.global = 7;
    let highest = (1 << width(part)) - 1;
    set.individual = random
        .words(devices * values(part, set.configuration))
        .iter()
        .map(|v| v & highest)
        .collect();
    set
}

fn told(set: &Set) -> writer::Told {
    writer::Told {
        part: set.part,
        devices: set.devices,
        command: INDIVIDUAL,
        configuration: set.configuration,
        tail: 0xA5,
        tail_length: 8,
    }
}

fn told_library(set: &Set) -> ffi::Told {
    let told = told(set);
    ffi::Told {
        part: told.part,
        devices: told.devices,
        command: told.command,
        configuration: told.configuration,
        tail: told.tail,
        tail_length: told.tail_length,
    }
}

fn write(set: &Set, ways: &[Plain]) -> Vec<u8> {
    let length = told(set).bits().div_ceil(8);
    let (told, of_library) = (told(set), told_library(set));
    let mut written = vec![0; length];
    let mut plain: Vec<_> = ways.iter().map(|w| (&w.way, vec![0; length])).collect();
    let times = beside(
        || {
            let values = black_box(&set.individual);
            black_box(ffi::write(&of_library, 0, &[], values, &mut written));
        },
        plain.iter_mut().map(|(way, out)| {
            let told = &told;
            move || {
                let values = black_box(&set.individual);
                let _ = black_box(writer::write_by(way, told, 0, &[], values, out));
            }
        }),
    );
    assert!(
        plain.iter().all(|(_, out)| *out == written),
        "written alike"
    );
    assert_eq!(written[0], 0xE8, "written alike");
    print_all("write", set, ways, &times);
    written
}

fn read(set: &Set, ways: &[Plain], frame: &[u8]) {
    let count = set.individual.len();
    let (told, of_library) = (told(set), told_library(set));
    let mut values = vec![0; count];
    let mut plain: Vec<_> = ways.iter().map(|w| (&w.way, vec![0; count])).collect();
    let times = beside(
        || {
            let frame = black_box(frame);
            black_box(ffi::read(&of_library, frame, &mut [], &mut values));
        },
        plain.iter_mut().map(|(way, values)| {
            let told = &told;
            move || {
                let frame = black_box(frame);
                let _ = black_box(reader::read_by(way, told, frame, &mut [], values));
            }
        }),
    );
    assert!(values == set.individual, "read alike");
    assert!(plain.iter().all(|(_, v)| *v == values), "read alike");
    print_all("read", set, ways, &times);
}

fn print_all(what: &str, set: &Set, ways: &[Plain], times: &[f64]) {
    let (part, devices) = (set.part, set.devices);
    let what = format!("{what} an individual frame of a {part} chain, N = {devices}");
    print_ways(&what, ("ns a device", devices as f64), ways, times);
}
