//! Single calls on lent chains of any records.

use crate::bits::answer;
use crate::tally::{Case, Tally, RISES};
use cases::{records, sets, states, Random};
use record::Device;

/// Chains of records that fit, of damaged ones and of junk; too few and too many; of any two parts.
pub fn lent() -> Tally {
    let mut tally = Tally::new("calls on lent records", 0x1E27);
    tally.of_each_part(20_000, |case, random, part| {
        let chain = any_chain(random, part);
        match random.below(8) {
            0 => fresh(case, random, chain, part),
            1 => set_fault(case, random, chain),
            _ => run(case, random, chain, part),
        }
    });
    tally.close_events(&[0, 1, 2, 4, 5, 13], &[RISES]);
    tally
}

/// Up to five records of a part, or none, 1023 or 1024; in one of three chains one of them is another.
pub fn any_chain(random: &mut Random, part: u16) -> Vec<Device> {
    let count = match random.below(400) {
        0 => 1024,
        1 => 1023,
        2..=9 => 0,
        _ => random.between(1, 5),
    };
    let mut chain: Vec<Device> = if count > 1000 {
        vec![records::fitting(random, part); count]
    } else {
        (0..count).map(|_| records::fitting(random, part)).collect()
    };
    if count > 0 && random.one_in(3) {
        let at = random.below(count);
        chain[at] = match random.below(4) {
            0 => records::junk(random),
            1 => {
                let other = sets::other_part(random, part);
                records::fitting(random, other)
            }
            _ => records::damaged(random, part),
        };
    }
    chain
}

/// States for a single call, seldom with one that is over 3.
fn states(random: &mut Random, part: u16) -> Vec<u8> {
    let devices = random.between(1, 3);
    let mut states = states::noise(random, part, devices);
    if random.one_in(8) {
        states.clear();
    }
    if !states.is_empty() && random.one_in(16) {
        let at = random.below(states.len());
        states[at] = random.pick(&[4, 6, 255]);
    }
    states
}

fn run(case: &mut Case, random: &mut Random, mut chain: Vec<Device>, part: u16) {
    let mut states = states(random, part);
    if chain.len() > 1000 {
        states.truncate(40);
    }
    let room = match random.below(10) {
        0 => random.below(states.len() + 23),
        1 => states.len() + 22,
        2 => states.len() + 30,
        _ => states.len() + 23,
    };
    let mut returned = random.bytes(room);
    let mut after = returned.clone();
    let mut expected_chain = chain.clone();
    let expected = model::chain::run(&mut expected_chain, &states, room);
    if let Ok(sent) = &expected {
        after[..sent.len()].copy_from_slice(sent);
        case.rises(&chain[0], &states);
    }
    let found = ffi::run(&mut chain, &states, &mut returned);
    let expected = answer(expected.map(|s| s.len() as u64));
    case.same("run", found, expected);
    case.same("records after a run", &chain, &expected_chain);
    case.same("returned states", &returned, &after);
    case.reach(found.refusal);
}

fn fresh(case: &mut Case, random: &mut Random, mut chain: Vec<Device>, part: u16) {
    let (other, unknown) = (sets::other_part(random, part), sets::unknown_part(random));
    let part = random.pick(&[part, part, other, unknown]);
    let (bit, limit) = told_watch(random);
    let mut expected_chain = chain.clone();
    let expected = model::chain::fresh(&mut expected_chain, part, bit, limit);
    let found = ffi::fresh(&mut chain, part, bit, limit);
    case.same("fresh", found, expected.err().unwrap_or(0));
    case.same("records after fresh", &chain, &expected_chain);
    case.reach(found);
}

/// A bit and a limit, seldom one of them out of range.
fn told_watch(random: &mut Random) -> (u8, u32) {
    let (bit, limit) = (random.pick(&records::BITS), records::limit(random));
    let (any, far) = (random.byte(), random.next() as u32);
    let bit = random.pick(&[bit, bit, bit, bit, 0, 4, 8, any]);
    let limit = random.pick(&[limit, limit, limit, limit, limit, 0, 2_000_001, far]);
    (bit, limit)
}

fn set_fault(case: &mut Case, random: &mut Random, mut chain: Vec<Device>) {
    let far = random.pick(&[0, chain.len() + 1, usize::MAX]);
    let near = random.between(1, chain.len().max(1));
    let device = random.pick(&[near, near, near, far]);
    let kind = random.pick(&[0, 1, 0, 1, 2, 255]);
    let flag = random.pick(&[0, 1, 2, 255]);
    let mut expected_chain = chain.clone();
    let expected = model::chain::set_fault(&mut expected_chain, device, kind, flag != 0);
    let found = ffi::set_fault(&mut chain, device, kind, flag);
    case.same("set fault", found, expected.err().unwrap_or(0));
    case.same("records after a fault", &chain, &expected_chain);
    case.reach(found);
}
