//! What a set draws: against the model, which goes clock by clock, and the baseline, which has the closed form.

use crate::tally::{Case, Tally};
use cases::{sets, Random};
use ffi::SignCurrent;
use model::part::Part;
use model::set::Set;

/// An answer, and what the lent list holds afterwards.
type Drawn = (SignCurrent, Vec<u64>);

/// A part with each mode; the model asks for every output at every clock.
pub fn clock_by_clock() -> Tally {
    let mut tally = Tally::new("currents clock by clock", 0xC10C);
    tally.of_each_part(4, |case, random, part| {
        for mode in sets::MODES {
            let devices = random.between(1, 4);
            let set = sets::drawing(random, part, devices, mode);
            let before = longer(random, 3 * devices);
            let found = by_library(&set, &before);
            case.same("clock by clock", &found, &by_model(&set, &before));
            case.same("closed form", &found, &by_baseline(&set, &before));
            case.reach(found.0.refusal);
        }
    });
    tally.close(&[0]);
    tally
}

/// Signs of up to 1023 devices, some with the largest of everything.
pub fn large_signs() -> Tally {
    let mut tally = Tally::new("currents of large signs", 0x1A46);
    tally.of_each_part(200, |case, random, part| {
        let any = random.between(1, 1023);
        let devices = random.pick(&[any, any, 512, 1023]);
        let mode = random.pick(&sets::MODES);
        let mut set = sets::drawing(random, part, devices, mode);
        if random.one_in(4) {
            enlarge(&mut set);
        }
        let before = longer(random, 3 * devices);
        let found = by_library(&set, &before);
        case.same("closed form", &found, &by_baseline(&set, &before));
        case.reach(found.0.refusal);
    });
    tally.close(&[0]);
    tally
}

/// Every number is the largest that is accepted.
fn enlarge(set: &mut Set) {
    let part = Part::of(set.part).expect("a part's number");
    set.calibration.fill(255);
    set.global = (part.subframes(set.configuration) - 1) as u8;
    set.individual.fill((part.clocks() - 1) as u16);
}

/// A list of anything, at least so long.
fn longer(random: &mut Random, length: usize) -> Vec<u64> {
    let behind = random.below(4);
    random.longs(length + behind)
}

fn by_library(set: &Set, before: &[u64]) -> Drawn {
    let mut figures = before.to_vec();
    (ffi::current(&set.lent(), &mut figures), figures)
}

fn by_baseline(set: &Set, before: &[u64]) -> Drawn {
    let mut figures = before.to_vec();
    let sign = baseline::current::current(&set.lent(), &mut figures);
    (answer(sign), figures)
}

fn by_model(set: &Set, before: &[u64]) -> Drawn {
    let drawn = model::current::current(set, before.len());
    let mut figures = before.to_vec();
    let devices = drawn.iter().flat_map(|drawn| &drawn.devices);
    for (lent, figure) in figures.chunks_mut(3).zip(devices) {
        lent.copy_from_slice(&[figure.total, figure.average, figure.remainder]);
    }
    let sign = drawn.map(|drawn| drawn.sign);
    let sign = sign.map(|figure| [figure.total, figure.average, figure.remainder]);
    (answer(sign), figures)
}

fn answer(sign: Result<[u64; 3], u8>) -> SignCurrent {
    let [total, average, remainder] = sign.unwrap_or([0; 3]);
    SignCurrent {
        total,
        average,
        remainder,
        refusal: sign.err().unwrap_or(0),
    }
}

/// The numbers of a refusal.
const NUMBERS: [u8; 5] = [1, 2, 4, 5, 6];

/// Every choice of things that are wrong, so that each is alone and with all that have a larger number; and none.
pub fn refused() -> Tally {
    let mut tally = Tally::new("currents refused", 0x4EF5);
    tally.of_each_part(100, |case, random, part| {
        for choice in 0..1 << NUMBERS.len() {
            let chosen = |&k: &usize| choice >> k & 1 == 1;
            let wrong = (0..NUMBERS.len()).filter(chosen).map(|k| NUMBERS[k]);
            refused_case(case, random, part, &wrong.collect::<Vec<u8>>());
        }
    });
    tally.close(&[0, 1, 2, 4, 5, 6]);
    tally
}

/// The lowest number is given. The model is not asked where all is right: it would go clock by clock.
fn refused_case(case: &mut Case, random: &mut Random, part: u16, wrong: &[u8]) {
    let (set, before) = wrong_set(random, part, wrong);
    let found = by_library(&set, &before);
    let lowest = wrong.first().copied().unwrap_or(0);
    case.same("number", found.0.refusal, lowest);
    case.same("baseline", &found, &by_baseline(&set, &before));
    if lowest > 0 {
        case.same("model", &found, &by_model(&set, &before));
    }
    case.reach(found.0.refusal);
}

/// A set, and a list to lend, with these things wrong. 2 can be wrong alone: the lists have the shares of no device, or
/// of 1024.
fn wrong_set(random: &mut Random, part: u16, wrong: &[u8]) -> (Set, Vec<u64>) {
    let is_wrong = |number| wrong.contains(&number);
    let devices = match is_wrong(2) {
        true => random.pick(&[0, 1024]),
        false => random.between(1, 4),
    };
    let mode = random.pick(&sets::MODES);
    let mut set = sets::drawing(random, part, devices, mode);
    let mut lent = longer(random, 3 * devices);
    if is_wrong(6) {
        put_out_of_range(random, &mut set);
    }
    if is_wrong(5) {
        let any = random.below(3 * devices + 1);
        lent.truncate(random.pick(&[0, any, 3 * devices]).saturating_sub(1));
    }
    if is_wrong(4) {
        change_length(random, &mut set, is_wrong(2));
    }
    if is_wrong(1) {
        set.part = sets::unknown_part(random);
    }
    (set, lent)
}

/// The global byte, or a value at any place.
fn put_out_of_range(random: &mut Random, set: &mut Set) {
    let part = Part::of(set.part).expect("a part's number");
    if set.individual.is_empty() || random.one_in(2) {
        let limit = part.subframes(set.configuration) as u8;
        let any = random.between(limit.into(), 255) as u8;
        set.global = random.pick(&[limit, any, 255]);
    } else {
        let last = set.individual.len() - 1;
        let any = random.below(last + 1);
        let at = random.pick(&[0, any, last]);
        set.individual[at] = random.pick(&[part.clocks() as u16, u16::MAX]);
    }
}

/// A list becomes longer or shorter than the rule says, or the rule asks for other lengths. Numbers of devices that
/// make products overflow are out of range as well.
fn change_length(random: &mut Random, set: &mut Set, any_devices: bool) {
    match random.below(if any_devices { 6 } else { 5 }) {
        0 => set.calibration.push(0),
        1 => drop(set.calibration.pop()),
        2 => set.individual.push(0),
        3 => drop(set.individual.pop()),
        4 => set.configuration ^= 1,
        _ => set.devices = random.pick(&[usize::MAX, usize::MAX / 3 + 1, 1 << 60]),
    }
}
