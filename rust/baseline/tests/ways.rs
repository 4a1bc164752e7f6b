//! Every way to pack and unpack a list: bit by bit against the model, and each other way against bit by bit, for every
//! width, with values that have bits above it. What lies before and behind a list stays as it was, and so does all where
//! there is no room.

use baseline::way::Way;
use baseline::{bitwise, grouped, packing, staged, wide, words};
use cases::Random;
use model::bits;

const SEED: u64 = 0x3A75;

/// The ways that are held against bit by bit.
const WAYS: [Way; 6] = [
    packing::WAY,
    packing::WORDS,
    grouped::WAY,
    wide::WAY,
    words::WAY,
    staged::WAY,
];

/// Where lists begin.
const PLACES: [usize; 4] = [0, 1, 3, 20];

/// Widths that are refused.
const TOO_WIDE: [u32; 3] = [17, 32, u32::MAX];

/// What lies before and behind a list.
const UNTOUCHED: u8 = 0x55;

fn framed(at: usize, bytes: &[u8], behind: usize) -> Vec<u8> {
    [&vec![UNTOUCHED; at], bytes, &vec![UNTOUCHED; behind]].concat()
}

/// Packs and unpacks a list with room for it and for so many bytes more.
fn fits(way: &Way, values: &[u16], width: u32, packed: &[u8], at: usize, behind: usize) {
    let mut out = vec![UNTOUCHED; at + packed.len() + behind];
    let length = (way.pack)(values, width, &mut out, at);
    assert_eq!(length, Some(packed.len()));
    assert_eq!(out, framed(at, packed, behind));
    let mut back = vec![0xA5A5; values.len()];
    assert!((way.unpack)(&out, at, width, &mut back));
    let mask = ((1u32 << width) - 1) as u16;
    assert!(back.iter().zip(values).all(|(back, v)| *back == v & mask));
}

/// Neither packs nor unpacks a list with a room.
fn refuses(way: &Way, values: &[u16], width: u32, at: usize, room: usize) {
    let mut out = vec![UNTOUCHED; room];
    assert_eq!((way.pack)(values, width, &mut out, at), None);
    assert!(out.iter().all(|&byte| byte == UNTOUCHED));
    let mut back = values.to_vec();
    assert!(!(way.unpack)(&out, at, width, &mut back));
    assert_eq!(back, values);
}

fn agrees(way: &Way, values: &[u16], width: u32, packed: &[u8]) {
    for at in PLACES {
        for behind in [0, 1, 9] {
            fits(way, values, width, packed, at, behind);
        }
        if !packed.is_empty() {
            refuses(way, values, width, at, at + packed.len() - 1);
            refuses(way, values, width, at, packed.len() / 2);
        }
    }
}

#[test]
fn bit_by_bit_is_as_the_model() {
    for case in 0..2000 {
        let random = &mut Random::of_case(SEED, case);
        let any = random.between(0, 16) as u32;
        let (width, count) = (random.pick(&[12, 14, any]), random.below(60));
        let values = random.words(count);
        let wide = values.iter().map(|&v| u64::from(v));
        let packed = bits::pack(&bits::fields(width, wide));
        agrees(&bitwise::WAY, &values, width, &packed);
    }
}

#[test]
fn every_way_is_as_bit_by_bit() {
    let random = &mut Random::of_case(SEED, 0);
    for width in 0..=16 {
        for count in (0..=300).chain([511, 512, 513, 769, 1000, 4097, 24_576]) {
            let values = random.words(count);
            let mut packed = vec![0; (count * width as usize).div_ceil(8)];
            (bitwise::WAY.pack)(&values, width, &mut packed, 0).expect("room");
            for way in &WAYS {
                agrees(way, &values, width, &packed);
            }
        }
    }
}

#[test]
fn no_way_takes_what_no_list_can_have() {
    let values = Random::of_case(SEED, 1).words(300);
    for way in WAYS.iter().chain([&bitwise::WAY]) {
        for width in TOO_WIDE {
            refuses(way, &values, width, 0, 2000);
            refuses(way, &[], width, 0, 2000);
        }
        for width in [1, 12, 14, 16] {
            refuses(way, &values, width, usize::MAX, 2000);
            refuses(way, &values, width, 2001, 2000);
        }
        refuses(way, &[], 14, 2001, 2000);
        fits(way, &[], 14, &[], 2000, 0);
    }
}
