//! A set of 512 multiplexed devices against a chain that runs it.

use crate::frames::page;
use crate::race::{best, print};
use baseline::compare::{compare, compare_quickly};
use model::set::Set;
use record::Device;
use std::hint::black_box;

const DEVICES: usize = 512;

/// The comparison that looks at everything: they are the same. Of 24 outputs and of 16.
pub fn races() {
    for part in [6975, 6973] {
        race(&page(part, DEVICES));
    }
}

/// A device that runs the set as the one with this number.
fn running(set: &Set, number: usize) -> Device {
    let mut device = Device::fresh(set.part);
    let r = &mut device.registers;
    r.configuration = set.configuration;
    let calibration = set.calibration_of(number);
    r.calibration[..calibration.len()].copy_from_slice(calibration);
    r.active = set.global;
    for (k, pair) in set.individual_of(number).chunks(2).enumerate() {
        (r.active0[k], r.active1[k]) = (pair[0], pair[1]);
    }
    device
}

fn race(set: &Set) {
    let chain: Vec<Device> = (1..=DEVICES).map(|number| running(set, number)).collect();
    let lent = set.lent();
    let found = ffi::compare(&lent, &chain);
    assert_eq!((found.group, found.refusal), (0, 0), "compared alike");
    assert_eq!(compare(&lent, &chain), Ok(None), "compared alike");
    assert_eq!(compare_quickly(&lent, &chain), Ok(None), "compared alike");
    let [proved, plain, quick] = best([
        &mut || {
            black_box(ffi::compare(&lent, black_box(&chain)));
        },
        &mut || {
            let _ = black_box(compare(&lent, black_box(&chain)));
        },
        &mut || {
            let _ = black_box(compare_quickly(&lent, black_box(&chain)));
        },
    ]);
    let unit = ("ns a device", DEVICES as f64);
    let what = format!("compare a {} chain, N = {DEVICES}", set.part);
    print(&what, unit, proved, plain, Some(2.0));
    let what = format!("{what}, Rust with a quick pass");
    print(&what, unit, proved, quick, Some(2.0));
}
