//! What a set of multiplexed devices draws.

use crate::frames::page;
use crate::race::{best, print};
use baseline::current::current;
use model::set::Set;
use std::hint::black_box;

/// The limit is for 512 devices of 24 outputs with 14-bit values. Other numbers of devices show that a value costs the
/// same in each; the other parts are for information.
pub fn races() {
    race(&page(6975, 64), None);
    race(&page(6975, 512), Some(2.0));
    race(&page(6975, 1023), None);
    for part in [6974, 6973, 6972] {
        race(&page(part, 512), None);
    }
}

fn race(set: &Set, limit: Option<f64>) {
    let lent = set.lent();
    let [mut a, mut b] = [(); 2].map(|()| vec![0; 3 * set.devices]);
    let found = ffi::current(&lent, &mut a);
    let sign = [found.total, found.average, found.remainder];
    assert_eq!(current(&lent, &mut b), Ok(sign), "drawn alike");
    assert!(found.refusal == 0 && a == b, "drawn alike");
    let [proved, plain] = best([
        &mut || {
            black_box(ffi::current(black_box(&lent), &mut a));
        },
        &mut || {
            let _ = black_box(current(black_box(&lent), &mut b));
        },
    ]);
    assert!(a == b, "drawn alike");
    let what = format!("current of a {} sign, N = {}", set.part, set.devices);
    print(
        &what,
        ("ns a device", set.devices as f64),
        proved,
        plain,
        limit,
    );
}
