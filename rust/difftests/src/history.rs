//! Demand 3: histories of calls, then a restore, and the same restore cut; with watchdogs that expire and that do not.
//!
//! Each call is held against the model; what the restore and its cuts leave is held against the words
//! of docs/RULES.md, "The three demands", as well.

use crate::pair::Pair;
use crate::restore::{Restore, CUTS, EXPIRIES, SHOWN};
use crate::tally::{Case, Events, Tally, RISES};
use cases::{records, sets, states, Random};
use record::Device;

/// The clocks of the wait behind a restore: most cases leave those out that reach no boundary, for the model goes
/// through each.
const WAITS: Events = Events {
    title: "waited for boundaries",
    names: &["some clocks left out", "every clock"],
};

/// 500 histories of each part.
pub fn restored() -> Tally {
    let mut tally = Tally::new("histories, restores and cuts", 0x415D);
    tally.of_each_part(500, history);
    tally.close_events(&[0, 1, 2, 5, 13], &[RISES, CUTS, EXPIRIES, SHOWN, WAITS]);
    tally
}

fn history(case: &mut Case, random: &mut Random, part: u16) {
    let devices = match random.below(50) {
        0 => random.between(13, 30),
        1..=5 => random.between(6, 12),
        _ => random.between(1, 5),
    };
    let mut chain = Pair::of((0..devices).map(|_| records::junk(random)).collect());
    fresh(case, random, &mut chain, part);
    for _ in 0..random.below(10) {
        any_call(case, random, &mut chain, part);
    }
    if random.one_in(4) {
        // No list of calls comes to it, but the rules say what such records do.
        for number in 1..=devices {
            chain.set_watch(number, records::watch(random));
        }
    }
    let set = sets::set(random, part, devices);
    let restore = Restore::new(random, &set);
    for _ in 0..4 {
        let mut chain = chain.clone();
        restore.bring(random, &mut chain);
        let cut = any_cut(random, &restore, devices);
        let old = chain.library.clone();
        chain.begin();
        chain.run_cut(case, random, &restore.states[..cut]);
        restore.is_cut(case, &old, &chain, cut);
    }
    if !random.one_in(4) {
        restore.bring(random, &mut chain);
    }
    whole(case, random, &restore, chain);
}

/// Both are made fresh with any watchdog; its limit is mostly such that no restore of the chain comes to it.
fn fresh(case: &mut Case, random: &mut Random, chain: &mut Pair, part: u16) {
    let (bit, limit) = (random.pick(&records::BITS), records::limit(random));
    let limit = random.pick(&[limit, 2_000_000]);
    chain.fresh(case, part, bit, limit);
}

fn any_call(case: &mut Case, random: &mut Random, chain: &mut Pair, part: u16) {
    let devices = chain.library.len();
    let states = match random.below(10) {
        0 => low_clocks(random, chain),
        1 | 2 => {
            let (device, kind) = (random.between(1, devices), random.below(2) as u8);
            return chain.set_fault(case, device, kind, !random.one_in(3));
        }
        3 if random.one_in(4) => return fresh(case, random, chain, part),
        3 | 4 => return refused_call(case, random, chain),
        5 => states::frame(random, part, devices),
        6 => {
            let set = sets::set(random, part, devices);
            Restore::new(random, &set).states
        }
        _ => states::noise(random, part, devices),
    };
    chain.run(case, &states);
}

/// Low clocks, often across boundaries.
fn low_clocks(random: &mut Random, chain: &mut Pair) -> Vec<u8> {
    if random.one_in(2) {
        chain.skip(random);
    }
    let most = random.pick(&[9, 3000]);
    let clocks = random.between(1, most);
    states::lows(random, clocks)
}

/// A call that is refused, and so changes nothing.
fn refused_call(case: &mut Case, random: &mut Random, chain: &mut Pair) {
    let chain = &mut chain.library;
    let before = chain.clone();
    let mut returned = [0xEE; 40];
    let (devices, part) = (chain.len(), chain[0].registers.part);
    let (found, expected) = match random.below(9) {
        0 => (ffi::fresh(chain, sets::unknown_part(random), 1, 1), 1),
        1 => (ffi::set_fault(chain, devices + 1, 0, 1), 13),
        2 => (ffi::set_fault(chain, 1, 2, 1), 13),
        3 => (ffi::run(chain, &[3, 1, 4], &mut returned).refusal, 13),
        4 => (ffi::run(chain, &[0; 18], &mut returned).refusal, 5),
        5 => (ffi::lit_now(chain, devices + 1, 0).refusal, 13),
        6 => (ffi::fresh(chain, part, 4, 1), 13),
        7 => (ffi::fresh(chain, part, 1, 0), 13),
        _ => (ffi::run(&mut chain[..0], &[0], &mut returned).refusal, 2),
    };
    case.same("refused", found, expected);
    case.same("refused", &*chain, &before);
    case.same("refused", returned, [0xEE; 40]);
    case.reach(found);
}

/// A cut anywhere, or right before or after the last bit of a slice.
fn any_cut(random: &mut Random, restore: &Restore, devices: usize) -> usize {
    let (k, number) = (random.below(4), random.between(1, devices));
    let arrival = restore.arrival(k, number);
    match random.below(4) {
        0 => arrival,
        1 => arrival - 1,
        _ => random.between(0, restore.states.len()),
    }
}

/// Given in any number of runs, with refused calls between; then the wait.
fn whole(case: &mut Case, random: &mut Random, restore: &Restore, mut chain: Pair) {
    let old = chain.library.clone();
    chain.begin();
    let mut returned = [vec![], vec![], vec![], vec![]];
    let mut at = 0;
    for (k, end) in restore.ends().into_iter().enumerate() {
        while at < end {
            let piece = match random.below(3) {
                0 => 1 + random.below(60),
                1 => 1 + random.below(2000),
                _ => end - at,
            };
            let next = end.min(at + piece);
            returned[k].extend(chain.run(case, &restore.states[at..next]));
            at = next;
            if random.one_in(4) {
                refused_call(case, random, &mut chain);
            }
        }
    }
    restore.is_cut(case, &old, &chain, at);
    let faults = [0, 1].map(|kind| count_faults(&old, kind));
    restore.are_returns(case, faults, &returned);
    wait(case, random, &mut chain);
    restore.is_restored(case, &chain);
}

/// Low clocks until each position has next returned to 0, and sometimes more; between them faults and refused calls.
fn wait(case: &mut Case, random: &mut Random, chain: &mut Pair) {
    if random.one_in(60) {
        case.event("every clock");
    } else {
        case.event("some clocks left out");
        chain.skip(random);
    }
    let clocks = model::chain::clocks_to_boundary(&chain.model).unwrap_or(0);
    let clocks = clocks + random.pick(&[0, 0, 1, 100]);
    let states = states::lows(random, clocks);
    let cut = random.between(0, clocks);
    chain.run(case, &states[..cut]);
    if random.one_in(4) {
        let device = random.between(1, chain.library.len());
        chain.set_fault(case, device, random.below(2) as u8, random.one_in(2));
        refused_call(case, random, chain);
    }
    chain.run(case, &states[cut..]);
}

fn count_faults(devices: &[Device], kind: u8) -> u16 {
    let flag = |d: &Device| match kind {
        0 => d.registers.overtemperature,
        _ => d.registers.openled,
    };
    devices.iter().map(|d| u16::from(flag(d))).sum()
}
