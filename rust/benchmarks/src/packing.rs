//! Packing and unpacking the individual values of 512 multiplexed devices of each part, beside each plain way.

use crate::frames::page;
use crate::race::{beside, print_ways, Plain};
use baseline::{bitwise, grouped, packing, part, staged, wide, words};
use std::hint::black_box;

const DEVICES: usize = 512;

const WAYS: [Plain; 7] = [
    Plain::limited("bit by bit, plain Rust", bitwise::WAY, 0.5),
    Plain::limited("accumulator, byte by byte", packing::WAY, 1.0),
    Plain::unlimited("accumulator, four bytes", packing::WORDS),
    Plain::limited("groups", grouped::WAY, 1.2),
    Plain::unlimited("groups, 8-byte words", wide::WAY),
    Plain::limited("staged words, the library's kind", words::WAY, 1.2),
    Plain::unlimited("staged lanes (best)", staged::WAY),
];

/// Of 16 and of 24 outputs, with values of 12 and of 14 bits.
pub fn races() {
    for part in [6972, 6973, 6974, 6975] {
        let values = page(part, DEVICES).individual;
        let bytes = pack(part, &values);
        unpack(part, &values, &bytes);
    }
}

fn pack(part: u16, values: &[u16]) -> Vec<u8> {
    let width = part::width(part);
    let length = values.len() * width as usize / 8;
    let mut packed = vec![0; length];
    let mut plain = WAYS.map(|plain| (plain.way.pack, vec![0; length]));
    let times = beside(
        || {
            let (values, width) = (black_box(values), black_box(width));
            black_box(ffi::pack(values, width, &mut packed, 0));
        },
        plain.iter_mut().map(|(pack, out)| {
            move || {
                let (values, width) = (black_box(values), black_box(width));
                black_box(pack(values, width, out, 0));
            }
        }),
    );
    assert!(plain.iter().all(|(_, out)| *out == packed), "packed alike");
    print_all("pack", part, values.len(), &times);
    packed
}

fn unpack(part: u16, values: &[u16], bytes: &[u8]) {
    let width = part::width(part);
    let mut unpacked = vec![0; values.len()];
    let mut plain = WAYS.map(|plain| (plain.way.unpack, vec![0; values.len()]));
    let times = beside(
        || {
            let (bytes, width) = (black_box(bytes), black_box(width));
            black_box(ffi::unpack(bytes, 0, width, &mut unpacked));
        },
        plain.iter_mut().map(|(unpack, back)| {
            move || {
                let (bytes, width) = (black_box(bytes), black_box(width));
                black_box(unpack(bytes, 0, width, back));
            }
        }),
    );
    assert!(unpacked == values, "unpacked alike");
    assert!(plain.iter().all(|(_, b)| b == values), "unpacked alike");
    print_all("unpack", part, values.len(), &times);
}

fn print_all(what: &str, part: u16, count: usize, times: &[f64]) {
    let width = part::width(part);
    let what = format!("{what} {count} values of {width} bits ({part})");
    print_ways(&what, ("ns a value", count as f64), &WAYS, times);
}
