//! One device: the step by value beside a step in place, and slices collected through a run of one device.

use crate::frames::page;
use crate::race::{best, print};
use baseline::{chain, device};
use model::frame::Tail;
use model::part::{slice_bits, Command, Part};
use record::Device;
use std::hint::black_box;

/// Individual frames in a run of one device.
const FRAMES: usize = 50;

/// Steps, and collecting, of a device with 24 outputs and of one with 16.
pub fn races() {
    for part in [6975, 6973] {
        let states = page(part, 1)
            .states(Command::Individual, Tail::default())
            .expect("a page in order");
        let mut start = Device::fresh(part);
        start.registers.configuration = 1;
        steps(start, &states);
        collecting(start, &states.repeat(FRAMES));
    }
}

fn steps(start: Device, states: &[u8]) {
    let [mut a, mut b] = [start; 2];
    let [judged, judged_rust] = best([
        &mut || {
            for &state in black_box(states) {
                a = ffi::step(a, state).device;
            }
        },
        &mut || {
            for &state in black_box(states) {
                if device::judge(black_box(&b)).is_ok() {
                    black_box(device::step(&mut b, state));
                }
            }
        },
    ]);
    assert!(a == b, "stepped alike");
    print(
        &format!(
            "step of a {}, judged, by value against in place",
            start.registers.part
        ),
        ("ns a state", states.len() as f64),
        judged,
        judged_rust,
        None,
    );
}

fn collecting(start: Device, states: &[u8]) {
    let [mut a, mut b] = [(); 2].map(|()| vec![start]);
    let [mut back, mut back_rust] = [(); 2].map(|()| vec![0; states.len() + 23]);
    let sent = ffi::run(&mut a, states, &mut back);
    let sent_rust = chain::run(&mut b, states, &mut back_rust);
    assert_eq!(Ok(sent.value as usize), sent_rust, "collected alike");
    assert!(a == b && back == back_rust, "collected alike");
    let [proved, plain] = best([
        &mut || {
            black_box(ffi::run(&mut a, black_box(states), &mut back));
        },
        &mut || {
            let _ = black_box(chain::run(&mut b, black_box(states), &mut back_rust));
        },
    ]);
    let r = &start.registers;
    let part = Part::of(r.part).expect("a part's number");
    let bits = slice_bits(Command::Individual, part, r.configuration);
    print(
        &format!("collect {FRAMES} slices of {bits} bits, one {}", r.part),
        ("ns a state", states.len() as f64),
        proved,
        plain,
        Some(2.0),
    );
}
