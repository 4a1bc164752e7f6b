//! Whole restores, floods of states that restore nothing, and clocks that do nothing but pass.

use crate::frames::page;
use crate::race::{best, print};
use baseline::chain;
use cases::{states, Random};
use model::frame::Tail;
use model::part::Command;
use model::set::Set;
use record::{Device, Place};
use std::hint::black_box;

/// Devices of a flooded chain.
pub const FLOODED: usize = 512;

/// Devices of the longest chain.
pub const MOST: usize = 1023;

/// Clocks of a frame of light.
const FRAME: usize = 524_288;

/// Restores of N = 64, 256, 512, 1023 with 14-bit values, and of 512 with 12-bit values; floods of 512 devices; clocks
/// of 1023 devices; all of 24 outputs and of 16. A restore of 512 devices with boundaries inside.
pub fn races() {
    for [wide, narrow] in [[6975, 6974], [6973, 6972]] {
        for devices in [64, 256, 512, MOST] {
            whole_restore(wide, devices);
        }
        whole_restore(narrow, 512);
        floods(wide);
        clocks(wide);
    }
    boundaries_inside(6975, 512);
}

fn whole_restore(part: u16, devices: usize) {
    run(
        &format!("whole restore of a {part} chain through one run, N = {devices}"),
        &vec![Device::fresh(part); devices],
        &restore(&page(part, devices)),
        (devices == 512).then_some(2.0),
    );
}

/// The wait behind a restore, which brings each device to a boundary, and a single clock.
fn clocks(part: u16) {
    let chain = vec![Device::fresh(part); MOST];
    let states = lows(FRAME);
    let what = format!("524,288 low clocks of a {part} chain, N = {MOST}");
    run(&what, &chain, &states, Some(2.0));
    let what = format!("a run of one state, a {part} chain, N = {MOST}");
    run_by(&what, &chain, &[0], ("ns a device", MOST as f64), None);
}

/// GLB4 makes the frame of light shorter than the restore, so that each device has two or three boundaries in it. The
/// devices begin at positions all over the long frame.
fn boundaries_inside(part: u16, devices: usize) {
    let mut set = page(part, devices);
    (set.configuration, set.global) = (0x11, 3);
    let mut chain = vec![Device::fresh(part); devices];
    for (k, device) in chain.iter_mut().enumerate() {
        device.registers.position = (FRAME * k / devices) as u64;
    }
    let what = format!("whole restore of a {part} chain, boundaries inside, N = {devices}");
    run(&what, &chain, &restore(&set), Some(2.0));
}

/// So many clocks at low load.
pub fn lows(clocks: usize) -> Vec<u8> {
    states::lows(&mut Random::of_case(4, 0), clocks)
}

fn floods(part: u16) {
    for (what, chain, states) in floods_of(part) {
        run(&what, &chain, &states, Some(4.0));
    }
}

/// The floods of a chain: what each is, the chain, and the states. Each has as many states as an individual frame of the
/// chain, or nearly.
pub fn floods_of(part: u16) -> Vec<(String, Vec<Device>, Vec<u8>)> {
    let frame = page(part, FLOODED)
        .states(Command::Individual, Tail::default())
        .expect("a page in order");
    let slice = (frame.len() - 24) / FLOODED;
    let random = &mut Random::of_case(3, 0);
    let mut any = |low: usize, high: usize| -> Vec<u8> {
        let states = frame.iter().map(|_| random.between(low, high) as u8);
        states.collect()
    };
    let cut = |length: usize| frame[..length].repeat(frame.len() / length);
    let mut chain = vec![Device::fresh(part); FLOODED];
    for device in &mut chain {
        device.registers.configuration = 1;
    }
    let mut lost = chain.clone();
    lost[0].place = Place::of(record::LOST);

    let flood = |what: &str, chain: &[Device], states: Vec<u8>| {
        let what = format!("flood at a {part} chain, N = {FLOODED}: {what}");
        (what, chain.to_vec(), states)
    };
    let in_third = 24 + 2 * slice + 132;
    vec![
        flood("all low", &chain, any(0, 1)),
        flood("all high at a lost device", &lost, any(2, 3)),
        flood("a frame cut in its first slice", &chain, cut(200)),
        flood("a frame cut in its third slice", &chain, cut(in_third)),
        flood("random states", &chain, any(0, 3)),
    ]
}

/// The states of a set's four frames, back to back.
pub fn restore(set: &Set) -> Vec<u8> {
    let states = |command| set.states(command, Tail::default());
    Command::RESTORE
        .iter()
        .flat_map(|&command| states(command).expect("a page in order"))
        .collect()
}

fn run(what: &str, chain: &[Device], states: &[u8], limit: Option<f64>) {
    let per = ("ns a state", states.len() as f64);
    run_by(what, chain, states, per, limit);
}

/// Positions go on from one run to the next; both sides are shown to give the same in the first.
fn run_by(what: &str, chain: &[Device], states: &[u8], per: (&str, f64), limit: Option<f64>) {
    let [mut a, mut b] = [(); 2].map(|()| chain.to_vec());
    let [mut back, mut back_rust] = [(); 2].map(|()| vec![0; states.len() + 23]);
    let sent = ffi::run(&mut a, states, &mut back);
    let sent_rust = chain::run(&mut b, states, &mut back_rust);
    assert_eq!(Ok(sent.value as usize), sent_rust, "run alike");
    assert!(a == b && back == back_rust, "run alike");
    let [proved, plain] = best([
        &mut || {
            black_box(ffi::run(&mut a, black_box(states), &mut back));
        },
        &mut || {
            let _ = black_box(chain::run(&mut b, black_box(states), &mut back_rust));
        },
    ]);
    print(what, per, proved, plain, limit);
}
