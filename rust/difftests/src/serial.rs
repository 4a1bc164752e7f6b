//! From bytes to line states and back.

use crate::bits::answer;
use crate::tally::{Case, Tally};
use cases::Random;
use model::serial;

/// States of any bytes as a frame of any number of bits, with any edge.
pub fn states() -> Tally {
    let mut tally = Tally::new("states of a frame", 0x57A7);
    for number in 0..20_000 {
        let random = &mut Random::of_case(tally.seed(), number);
        tally.case(number, |case| {
            let length = random.below(12);
            let frame = random.bytes(length);
            let bits = match random.below(12) {
                0 => random.pick(&[usize::MAX, usize::MAX - 6, 1 << 63]),
                1 => length * 8 + 1,
                2 => random.below(100),
                _ => (length * 8).saturating_sub(random.below(8)),
            };
            let room = (length * 8 + random.below(12)).saturating_sub(random.below(12));
            let any = random.byte();
            let edge = random.pick(&[0, 1, 1, 2, any]);
            on_the_wire(case, random, &frame, bits, edge, room);
        });
    }
    tally.close(&[0, 4, 5, 13]);
    tally
}

/// Every number as the edge of a short frame: in order, with a byte too many, with a place too few, with both.
pub fn edges() -> Tally {
    let mut tally = Tally::new("states of a frame, every edge", 0xED6E);
    let mut number = 0;
    for edge in 0..=255 {
        for bits in 0..=26usize {
            for (extra, lack) in [(0, 0), (1, 0), (0, 1), (1, 1)] {
                let random = &mut Random::of_case(tally.seed(), number);
                tally.case(number, |case| {
                    let frame = random.bytes(bits.div_ceil(8) + extra);
                    let room = bits.saturating_sub(lack);
                    on_the_wire(case, random, &frame, bits, edge, room);
                });
                number += 1;
            }
        }
    }
    tally.close(&[0, 4, 5, 13]);
    tally
}

fn on_the_wire(
    case: &mut Case,
    random: &mut Random,
    frame: &[u8],
    bits: usize,
    edge: u8,
    room: usize,
) {
    let mut states = random.bytes(room);
    let mut after = states.clone();
    let expected = serial::states_of_frame(frame, bits, edge, room);
    if let Ok(list) = &expected {
        after[..list.len()].copy_from_slice(list);
    }
    let found = ffi::states(frame, bits, edge, &mut states);
    case.same("answer", found, answer(expected.map(|l| l.len() as u64)));
    case.same("states", &states, &after);
    case.reach(found.refusal);
}

/// Bytes of any states.
pub fn data_bytes() -> Tally {
    let mut tally = Tally::new("data bits of states", 0xDA7A);
    for number in 0..20_000 {
        let random = &mut Random::of_case(tally.seed(), number);
        tally.case(number, |case| {
            let count = random.below(90);
            let mut states: Vec<u8> = (0..count).map(|_| random.below(4) as u8).collect();
            if count > 0 && random.one_in(5) {
                states[random.below(count)] = random.pick(&[4, 5, 128, 255]);
            }
            let room = (count.div_ceil(8) + random.below(4)).saturating_sub(random.below(3));
            let mut out = random.bytes(room);
            let mut after = out.clone();
            let expected = serial::data_bytes(&states, room);
            if let Ok(list) = &expected {
                after[..list.len()].copy_from_slice(list);
            }
            let found = ffi::data_bytes(&states, &mut out);
            case.same("answer", found, answer(expected.map(|l| l.len() as u64)));
            case.same("bytes", &out, &after);
            case.reach(found.refusal);
        });
    }
    tally.close(&[0, 5, 13]);
    tally
}
