//! Line states.

use crate::Random;
use model::bits::bits_of;
use model::edge::Edge;
use model::frame::{header, Tail, SYNC};
use model::part::Command;
use model::serial::state;
use model::set::Set;

/// States of any kind: random ones, floods, headers and frames that are cut short.
pub fn noise(random: &mut Random, part: u16, devices: usize) -> Vec<u8> {
    let mut states = vec![];
    for _ in 0..random.between(1, 3) {
        match random.below(8) {
            0 => states.extend(any(random, 40, 0, 3)),
            1 => states.extend(any(random, 40, 0, 1)),
            2 => states.extend(any(random, 40, 2, 3)),
            3 | 4 => states.extend(damaged_header(random)),
            _ => states.extend(cut_frame(random, part, devices)),
        }
    }
    states
}

/// Up to `most` states from `low` to `high`.
fn any(random: &mut Random, most: usize, low: usize, high: usize) -> Vec<u8> {
    let count = random.below(most);
    (0..count)
        .map(|_| random.between(low, high) as u8)
        .collect()
}

/// A header of any command and count, with load rising from two clocks before the exact edge to two clocks behind it.
/// One state is changed or none, often one at the edge, such as the 0 that an early edge wants.
fn damaged_header(random: &mut Random) -> Vec<u8> {
    let count = random.below(1024) as u16;
    let bits = header(random.pick(&Command::ALL), count);
    let low = random.between(6, 10);
    let mut states = gap(random);
    let begin = states.len();
    states.extend((0..).zip(bits).map(|(k, bit)| state(k >= low, bit)));
    if random.one_in(2) {
        let any = random.below(24);
        let at = random.pick(&[any, low - 1, low]);
        states[begin + at] ^= random.between(1, 3) as u8;
    }
    states
}

/// A frame of another set, cut anywhere, with one data bit changed or none.
fn cut_frame(random: &mut Random, part: u16, devices: usize) -> Vec<u8> {
    let mut states = frame(random, part, devices);
    states.truncate(random.between(0, states.len()));
    if !states.is_empty() && random.one_in(3) {
        let at = random.below(states.len());
        states[at] ^= 1;
    }
    states
}

/// A frame of any set with any edge, and any count in its header.
pub fn frame(random: &mut Random, part: u16, devices: usize) -> Vec<u8> {
    let set: Set = crate::sets::set(random, part, devices);
    let tail: Tail = crate::sets::tail(random);
    let (edge, command) = (random.pick(&Edge::ALL), random.pick(&Command::ALL));
    let mut states = set
        .states_with(edge, command, tail)
        .expect("a set in order");
    if random.one_in(2) {
        for state in &mut states[14..24] {
            *state ^= random.below(2) as u8;
        }
    }
    states
}

/// Low clocks with any data, as they may stand between frames; often none, and often such as look like SYNC.
pub fn gap(random: &mut Random) -> Vec<u8> {
    match random.below(5) {
        0 => any(random, 20, 0, 1),
        1 | 2 => like_sync(random),
        _ => vec![],
    }
}

/// So many low clocks with any data.
pub fn lows(random: &mut Random, clocks: usize) -> Vec<u8> {
    (0..clocks).map(|_| random.below(2) as u8).collect()
}

/// SYNC at low load, once or several times, without up to two of its first bits, and ending from one bit before its end
/// to two bits behind it.
fn like_sync(random: &mut Random) -> Vec<u8> {
    let mut bits = bits_of(8, SYNC).repeat(random.between(1, 3));
    bits.extend([random.one_in(2), random.one_in(2)]);
    let begin = random.pick(&[0, 0, 1, 2]);
    let end = bits.len() - random.below(4);
    bits[begin..end].iter().map(|&b| state(false, b)).collect()
}
