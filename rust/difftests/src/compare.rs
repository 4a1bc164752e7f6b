//! A set against a chain that runs it, with differences and damage.

use crate::tally::{Case, Tally};
use cases::{records, sets, Random};
use ffi::Compared;
use model::compare::{compare, Difference, Group};
use model::part::{multiplexed, Part};
use model::set::Set;
use record::Device;

/// The first difference, and every refusal.
pub fn compared() -> Tally {
    let mut tally = Tally::new("compare", 0xC039);
    tally.of_each_part(30_000, compare_case);
    tally.close(&[0, 1, 2, 4, 6, 13]);
    tally
}

fn compare_case(case: &mut Case, random: &mut Random, part: u16) {
    let devices = random.between(1, 6);
    let mut set = sets::set(random, part, devices);
    let mut chain: Vec<Device> = (1..=devices)
        .map(|number| running(random, &set, number))
        .collect();
    for _ in 0..random.below(4) {
        differ(random, part, &mut chain);
    }
    if random.one_in(4) {
        damage(random, &mut set, &mut chain);
    }
    let before = chain.clone();
    let found = ffi::compare(&set.lent(), &chain);
    case.same("answer", found, expected(compare(&set, &chain)));
    case.same("records", &chain, &before);
    case.reach(found.refusal);
}

/// A record that holds the set's values in use, and anything elsewhere.
fn running(random: &mut Random, set: &Set, number: usize) -> Device {
    let mut device = records::fitting(random, set.part);
    let r = &mut device.registers;
    // A place in a slice fits by D0 and a position by D4, which change here.
    device.place = record::Place::of(record::PASSING);
    r.configuration = set.configuration;
    let part = Part::of(set.part).expect("a part's number");
    r.position = records::position(random, part, set.configuration);
    let calibration = set.calibration_of(number);
    r.calibration[..calibration.len()].copy_from_slice(calibration);
    r.active = set.global;
    let values = set.individual_of(number);
    if multiplexed(set.configuration) {
        for (k, pair) in values.chunks(2).enumerate() {
            (r.active0[k], r.active1[k]) = (pair[0], pair[1]);
        }
    } else {
        r.active0[..values.len()].copy_from_slice(values);
    }
    device
}

/// One register in use of one device changes.
fn differ(random: &mut Random, part: u16, chain: &mut [Device]) {
    let part = Part::of(part).expect("a part's number");
    let (banks, outputs) = (part.banks(), part.outputs());
    let at = random.below(chain.len());
    let r = &mut chain[at].registers;
    match random.below(8) {
        0 => r.configuration ^= 1 << random.below(8),
        1 => r.calibration[random.below(banks)] ^= 1 << random.below(8),
        2 => r.active ^= 1 << random.below(8),
        3 | 4 => r.active0[random.below(outputs)] ^= 1 << random.below(12),
        5 | 6 => r.active1[random.below(outputs)] ^= 1 << random.below(12),
        _ => r.waiting ^= 1,
    }
}

/// Something that a number refuses, mostly.
fn damage(random: &mut Random, set: &mut Set, chain: &mut Vec<Device>) {
    let at = random.below(chain.len());
    match random.below(16) {
        0 => set.part = sets::unknown_part(random),
        1 => chain[at].registers.part = sets::unknown_part(random),
        2 => set.devices = random.pick(&[0, 1024, usize::MAX]),
        3 => chain.clear(),
        4 => chain.resize(random.pick(&[at + 1, 1023, 1024]), chain[0]),
        5 => set.part = sets::other_part(random, set.part),
        6 => chain[at].registers.part = sets::other_part(random, set.part),
        7 => set.calibration.truncate(at),
        8 => set.individual.push(0),
        9 => set.configuration ^= 1,
        10 => set.global = random.byte(),
        11 => {
            let at = random.below(set.individual.len());
            set.individual[at] = random.pick(&[4096, 16_384, u16::MAX]);
        }
        12 => chain[at].registers.slice[0] = u16::MAX,
        13 => chain[at].registers.position = 4 * records::QUARTER,
        14 => chain[at].registers.watch.limit = random.pick(&[0, 2_000_001]),
        _ => chain[at] = records::damaged(random, set.part),
    }
    if random.one_in(3) {
        set.global = random.byte();
    }
}

fn expected(result: Result<Option<Difference>, u8>) -> Compared {
    let mut compared = Compared {
        device: 0,
        place: 0,
        group: 0,
        refusal: result.err().unwrap_or(0),
    };
    if let Ok(Some(difference)) = result {
        compared.device = difference.device as u64;
        compared.place = difference.place as u16;
        compared.group = match difference.group {
            Group::Configuration => 1,
            Group::Calibration => 2,
            Group::ActiveGlobal => 3,
            Group::ActiveIndividual => 4,
        };
    }
    compared
}
