//! Runs with the watchdog's bit set, beside the library's own with the bit clear ("off") and beside plain Rust with it set.
//! What is asked of them is twice what the same run cost before there were watchdogs: `docs/CHANGES.md`, "Request Five".

use crate::chains::{floods_of, lows, restore, FLOODED, MOST};
use crate::frames::page;
use crate::race::{best, print};
use baseline::chain;
use record::{Device, Watch, MOST_STILL};
use std::hint::black_box;

/// The largest limit, and one that the line comes to in every long frame.
const LIMITS: [u32; 2] = [MOST_STILL as u32, 1000];

/// D1 set and D2 clear, and the other way round: as many ones in both. The bit is D1.
const ON: u8 = 0x02;
const OFF: u8 = 0x04;

/// The part of all races.
const PART: u16 = 6975;

/// Clocks of the longest stretch.
const STILL: usize = 2_000_000;

/// Restores and floods of 512 devices, and clocks of 1023, all 6975; each with both limits.
pub fn races() {
    for limit in LIMITS {
        restores(limit);
        floods(limit);
        clocks(limit);
    }
}

fn restores(limit: u32) {
    let by = |bit: u8| {
        let mut set = page(PART, FLOODED);
        set.configuration |= bit;
        let chain = chain_of(FLOODED, set.configuration, limit);
        (chain, restore(&set))
    };
    let what = format!("whole restore, N = {FLOODED}");
    race(&what, limit, by, None);
}

fn floods(limit: u32) {
    for (what, chain, states) in floods_of(PART) {
        let by = |bit: u8| {
            let mut chain = chain.clone();
            for device in &mut chain {
                device.registers.configuration |= bit;
                device.registers.watch = Watch::fresh(1, limit);
            }
            (chain, states.clone())
        };
        let (_, kind) = what.split_once(": ").expect("the kind of a flood");
        race(kind, limit, by, None);
    }
}

fn clocks(limit: u32) {
    let by = |bit: u8| (chain_of(MOST, bit, limit), lows(STILL));
    let what = format!("2,000,000 low clocks, N = {MOST}");
    race(&what, limit, by, None);
    let by = |bit: u8| (chain_of(MOST, bit, limit), vec![0; STILL]);
    let what = format!("2,000,000 still clocks, N = {MOST}");
    race(&what, limit, by, None);
    let by = |bit: u8| (chain_of(MOST, bit, limit), vec![0]);
    let what = format!("a run of one state, N = {MOST}");
    race(&what, limit, by, Some(("ns a device", MOST as f64)));
}

/// Fresh devices with a configuration and a limit.
fn chain_of(devices: usize, configuration: u8, limit: u32) -> Vec<Device> {
    let mut device = Device::watched(PART, 1, limit);
    device.registers.configuration = configuration;
    vec![device; devices]
}

/// A chain and its states, by the configuration bit that is set beside them; by the states unless said.
fn race(
    what: &str,
    limit: u32,
    by: impl Fn(u8) -> (Vec<Device>, Vec<u8>),
    per: Option<(&str, f64)>,
) {
    let (mut on, states_on) = by(ON);
    let (mut off, states_off) = by(OFF);
    let mut plain = on.clone();
    let [mut back, mut back_off, mut back_rust] = [(); 3].map(|()| vec![0; states_on.len() + 23]);
    let sent = ffi::run(&mut on, &states_on, &mut back);
    let sent_rust = chain::run(&mut plain, &states_on, &mut back_rust);
    assert_eq!(Ok(sent.value as usize), sent_rust, "run alike");
    assert!(on == plain && back == back_rust, "run alike");
    let [proved, clear, rust] = best([
        &mut || {
            black_box(ffi::run(&mut on, black_box(&states_on), &mut back));
        },
        &mut || {
            black_box(ffi::run(&mut off, black_box(&states_off), &mut back_off));
        },
        &mut || {
            let _ = black_box(chain::run(
                &mut plain,
                black_box(&states_on),
                &mut back_rust,
            ));
        },
    ]);
    let per = per.unwrap_or(("ns a state", states_on.len() as f64));
    let limit = match limit {
        1000 => "1000",
        _ => "2,000,000",
    };
    let beside = |other: &str| format!("watchdog, limit {limit}, beside {other}: {what}");
    print(&beside("off"), per, proved, clear, None);
    print(&beside("Rust"), per, proved, rust, None);
}
