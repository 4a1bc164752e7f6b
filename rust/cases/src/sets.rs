//! Sets and tails.

use crate::Random;
use model::frame::Tail;
use model::part::Part;
use model::set::Set;

/// The part's number of a case: the four take turns, so that each has as many cases.
pub fn part(case: u64) -> u16 {
    Part::ALL[case as usize % Part::ALL.len()].number()
}

/// The number of another part.
pub fn other_part(random: &mut Random, part: u16) -> u16 {
    let others = Part::ALL.map(Part::number).into_iter();
    random.pick(&others.filter(|&other| other != part).collect::<Vec<_>>())
}

/// A number that is no part's.
pub fn unknown_part(random: &mut Random) -> u16 {
    random.pick(&[0, 1, 6971, 6976, 16_974, u16::MAX])
}

/// A set that no number refuses, with values at their limits among the others.
pub fn set(random: &mut Random, part: u16, devices: usize) -> Set {
    let known = Part::of(part).expect("a part's number");
    let configuration = random.byte();
    let subframes = known.subframes(configuration) as usize;
    let count = devices * known.values(configuration);
    Set {
        part,
        devices,
        configuration,
        calibration: random.bytes(devices * known.banks()),
        global: random.below(subframes) as u8,
        individual: (0..count).map(|_| value(random, known)).collect(),
    }
}

/// A value in range.
pub fn value(random: &mut Random, part: Part) -> u16 {
    let limit = 1 << part.value_width();
    match random.below(16) {
        0 => 0,
        1 => limit - 1,
        _ => random.next() as u16 % limit,
    }
}

/// What of the configuration means something: D0 and D4.
pub const MODES: [u8; 4] = [0x00, 0x01, 0x10, 0x11];

/// A set that no number refuses, of a mode. What it draws is often at an edge: least and most calibration and global
/// bytes, and values about the edge zones.
pub fn drawing(random: &mut Random, part: u16, devices: usize, mode: u8) -> Set {
    let known = Part::of(part).expect("a part's number");
    let configuration = random.byte() & !0x11 | mode;
    let subframes = known.subframes(configuration) as usize;
    let any = random.below(subframes);
    let count = devices * known.values(configuration);
    Set {
        part,
        devices,
        configuration,
        calibration: (0..devices * known.banks())
            .map(|_| calibration_at_edges(random))
            .collect(),
        global: random.pick(&[0, subframes - 1, any, any]) as u8,
        individual: (0..count).map(|_| value_at_edges(random, known)).collect(),
    }
}

fn calibration_at_edges(random: &mut Random) -> u8 {
    let any = random.byte();
    random.pick(&[0, 255, any, any])
}

/// A value in range, often about one of the edge zones.
fn value_at_edges(random: &mut Random, part: Part) -> u16 {
    let (edge, clocks) = (part.edge_zone() as u16, part.clocks() as u16);
    let end = clocks - edge;
    match random.below(2) {
        0 => random.pick(&[edge - 1, edge, edge + 1, end - 1, end, end + 1, clocks - 1]),
        _ => value(random, part),
    }
}

/// A tail that no number refuses.
pub fn tail(random: &mut Random) -> Tail {
    let length = match random.below(4) {
        0 => 0,
        1 => random.pick(&[1, 7, 8, 9, 63, 64]),
        _ => random.below(65) as u32,
    };
    Tail {
        number: if length == 0 {
            0
        } else {
            random.next() >> (64 - length)
        },
        length,
    }
}
