//! Packing, unpacking, and the parts' numbers.

use crate::tally::{commas, Case, Tally};
use cases::Random;
use ffi::{Answer, Packed};
use model::bits::{fields, number_of, pack, unpack};
use model::part::{slice_bits, Command, Part};
use std::ops::Range;

/// Cases of packing and unpacking.
const LISTS: u64 = 30_000;

/// The library packs and unpacks 12-bit and 14-bit values in blocks of so many, and leaves the last value out of them.
const BLOCK: usize = 128;

/// A list and where it goes.
struct List {
    width: u32,
    values: Vec<u16>,
    /// Where its bytes begin.
    at: usize,
    /// What is lent: its bytes when it is unpacked, and what they are written over when it is packed.
    bytes: Vec<u8>,
}

impl List {
    /// Of any width, count, place and room: mostly of 12 or 14 bits, and with room.
    fn any(random: &mut Random) -> List {
        let any = random.between(0, 20) as u32;
        let width = random.pick(&[12, 14, 12, 14, 12, 14, any, any, u32::MAX]);
        let (count, before) = (count(random), random.between(0, 20));
        let exact = before + (count * width.min(16) as usize).div_ceil(8);
        let room = match random.below(10) {
            0 => exact.saturating_sub(1),
            1 => random.below(exact + 1),
            2..=5 => exact,
            _ => exact + random.between(1, 40),
        };
        List {
            width,
            values: random.words(count),
            at: if random.one_in(20) {
                usize::MAX
            } else {
                before
            },
            bytes: random.bytes(room),
        }
    }

    /// The bytes that it has; none where it does not fit.
    fn place(&self) -> Option<Range<usize>> {
        let length = (self.values.len() * self.width as usize).div_ceil(8);
        let end = self.at.checked_add(length)?;
        (self.width <= 16 && end <= self.bytes.len()).then_some(self.at..end)
    }

    /// All bytes after it was packed.
    fn packed(&self) -> Vec<u8> {
        let mut bytes = self.bytes.clone();
        if let Some(place) = self.place() {
            let wide = self.values.iter().map(|&v| u64::from(v));
            bytes[place].copy_from_slice(&pack(&fields(self.width, wide)));
        }
        bytes
    }

    /// All values after it was unpacked.
    fn unpacked(&self) -> Vec<u16> {
        let count = self.values.len();
        match self.place() {
            None => self.values.clone(),
            Some(_) if self.width == 0 => vec![0; count],
            Some(place) => unpack(&self.bytes[place])
                .chunks(self.width as usize)
                .map(|bits| number_of(bits) as u16)
                .take(count)
                .collect(),
        }
    }
}

/// A number of values: few, about one to three blocks, or any.
fn count(random: &mut Random) -> usize {
    let (low, high) = random.pick(&[
        (0, 12),
        (0, 40),
        (120, 140),
        (250, 270),
        (384, 400),
        (0, 2000),
    ]);
    random.between(low, high)
}

/// Lists of any width, count, place and room: packed, and their bytes unpacked. Some must have had no room, and some at
/// each of the two widths have gone in blocks.
pub fn packing() -> Tally {
    let mut tally = Tally::new("pack and unpack", 0xB175);
    let mut given = [0; 4];
    for number in 0..LISTS {
        let random = &mut Random::of_case(tally.seed(), number);
        tally.case(number, |case| {
            let list = List::any(random);
            list_case(case, &list);
            let is_in_blocks = list.values.len() > BLOCK;
            given[match (list.place(), list.width) {
                (None, _) => 0,
                (_, 12) if is_in_blocks => 1,
                (_, 14) if is_in_blocks => 2,
                _ => 3,
            }] += 1;
        });
    }
    tally.case(LISTS, |case| {
        let all = given.map(|times| times > 0);
        case.same("no room, in blocks, and others", all, [true; 4]);
    });
    tally.close(&[0]);
    let [refused, of12, of14, _] = given.map(commas);
    println!("    not done {refused}; in blocks: of 12 bits {of12}; of 14 bits {of14}");
    tally
}

fn list_case(case: &mut Case, list: &List) {
    let length = list.place().map(|place| place.len() as u64);
    let answer = Packed {
        bytes: length.unwrap_or(0),
        done: u8::from(length.is_some()),
    };
    let mut out = list.bytes.clone();
    let found = ffi::pack(&list.values, list.width, &mut out, list.at);
    case.same("pack", found, answer);
    case.same("packed", out, list.packed());

    let mut back = list.values.clone();
    let done = ffi::unpack(&list.bytes, list.at, list.width, &mut back);
    case.same("unpack", done, answer.done);
    case.same("unpacked", back, list.unpacked());
    if length.is_some() {
        case.reach(0);
    }
}

/// Every part number near the four, every configuration, every command.
pub fn parts() -> Tally {
    let mut tally = Tally::new("subframes and slice lengths", 0);
    for part in (6900..7000).chain([0, u16::MAX]) {
        for configuration in 0..=255 {
            tally.case(u64::from(part), |case| {
                let known = Part::of(part);
                let expected = known.map(|p| u64::from(p.subframes(configuration)));
                let found = ffi::subframes(part, configuration);
                case.same("subframes", found, answer(expected));
                case.reach(found.refusal);
                for command in 0..8 {
                    let named = Command::ALL[usize::from(command) & 3];
                    let bits = known.map(|p| slice_bits(named, p, configuration) as u64);
                    let found = ffi::slice_bits(command, part, configuration);
                    case.same("slice bits", found, answer(bits));
                }
            });
        }
    }
    tally.close(&[0, 1]);
    tally
}

/// The record of a model's answer.
pub fn answer(result: Result<u64, u8>) -> Answer {
    Answer {
        value: result.unwrap_or(0),
        refusal: result.err().unwrap_or(0),
    }
}
