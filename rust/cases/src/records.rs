//! Device records.

use crate::sets::{unknown_part, value};
use crate::Random;
use model::part::{slice_bits, Command, Part};
use record::{Device, Line, Place, Registers, Watch, MOST_STILL};

/// Clocks of a frame with GLB4 on a part with 14-bit values: a quarter of any other frame.
pub const QUARTER: u64 = 131_072;

/// A record that fits, in any phase.
pub fn fitting(random: &mut Random, part: u16) -> Device {
    let known = Part::of(part).expect("a part's number");
    let configuration = random.byte();
    let mut registers = Registers {
        overtemperature: random.below(2) as u8,
        openled: random.below(2) as u8,
        configuration,
        waiting: random.byte(),
        active: random.byte(),
        position: position(random, known, configuration),
        watch: watch(random),
        ..Registers::zeros(part)
    };
    let r = &mut registers;
    let calibration = random.bytes(known.banks());
    r.calibration[..known.banks()].copy_from_slice(&calibration);
    for list in [
        &mut r.waiting0,
        &mut r.waiting1,
        &mut r.active0,
        &mut r.active1,
    ] {
        list[..known.outputs()].fill_with(|| value(random, known));
    }
    r.slice[..2 * known.outputs()].fill_with(|| value(random, known));
    let place = place(random, known, configuration);
    if place.phase == record::SLICE && place.command > 1 && random.one_in(2) {
        begin_copies(random, known, r);
    }
    Device { registers, place }
}

/// A position that fits: often at an end of the frame, or shortly before a quarter of the long frame is over, which is
/// as long as a frame with GLB4.
pub fn position(random: &mut Random, part: Part, configuration: u8) -> u64 {
    let length = part.frame_clocks(configuration);
    let any = random.next() % length;
    let before_end = length - random.between(1, 1000) as u64;
    let quarter = QUARTER * random.between(1, 4) as u64 - random.below(60) as u64;
    let picked = random.pick(&[
        0,
        1,
        QUARTER - 1,
        QUARTER,
        200_000,
        length - 2,
        length - 1,
        before_end,
        quarter,
        any,
    ]);
    picked % length
}

/// The bits of a configuration that may enable a watchdog.
pub const BITS: [u8; 6] = [1, 2, 3, 5, 6, 7];

/// A limit in range: few clocks, about as many as a slice or a header has, more, or the most.
pub fn limit(random: &mut Random) -> u32 {
    let most = random.pick(&[3, 30, 400, 3000, MOST_STILL as usize]);
    let any = random.between(1, most);
    random.pick(&[any, any, any, MOST_STILL as usize]) as u32
}

/// A watchdog that fits: counts about its limit, few, many or the most, and any levels.
pub fn watch(random: &mut Random) -> Watch {
    let (bit, limit) = (random.pick(&BITS), limit(random));
    let mut line = || Line {
        still: still(random, limit),
        level: random.below(2) as u8,
    };
    Watch {
        din: line(),
        loadi: line(),
        limit,
        bit,
    }
}

/// A count in range.
fn still(random: &mut Random, limit: u32) -> u64 {
    let (any, limit) = (random.next() % (MOST_STILL + 1), u64::from(limit));
    let before = limit - random.between(1, limit.min(400) as usize) as u64;
    random.pick(&[0, 0, 1, before, before, limit - 1, limit, MOST_STILL, any])
}

/// A watchdog that does not expire within 1,400,000 clocks: the largest limit, and small counts.
pub fn quiet(random: &mut Random) -> Watch {
    let mut watch = watch(random);
    watch.limit = MOST_STILL as u32;
    watch.din.still %= 600_000;
    watch.loadi.still %= 600_000;
    watch
}

/// The copies of one byte are in the slots, but for the last bit of the last copy.
fn begin_copies(random: &mut Random, part: Part, r: &mut Registers) {
    let byte = u16::from(random.byte());
    for slot in &mut r.slice[..part.banks()] {
        *slot = *slot & !0xFF | byte;
    }
    r.slice[part.banks() - 1] >>= 1;
}

/// A place that fits.
fn place(random: &mut Random, part: Part, configuration: u8) -> Place {
    let phase = random.below(6) as u8;
    let command = random.pick(&Command::ALL);
    let mut place = Place::of(phase);
    match phase {
        record::HUNTING => place.read = window(random),
        record::OPENING => place.read = opening(random),
        record::COUNTING => {
            place.command = command.code();
            place.read = random.between(1, 1023) as u16;
        }
        record::SLICE => {
            let bits = slice_bits(command, part, configuration);
            place.command = command.code();
            let (count, taken) = (random.below(1024), random.below(bits));
            place.count = random.pick(&[0, 1023, count]) as u16;
            place.read = random.pick(&[bits - 1, taken]) as u16;
        }
        _ => {}
    }
    place
}

/// Nine low bits: those about SYNC, from two bits before its end to two bits behind it, or any.
fn window(random: &mut Random) -> u16 {
    let any = random.next() as u16;
    let about_sync = any & !0x3FC | 0xE8 << 2;
    let kept = match random.below(3) {
        0 => any,
        _ => about_sync >> random.below(5),
    };
    kept & 0x1FF
}

/// Command bits so far, or none yet: one of the beginnings of a command, or any.
fn opening(random: &mut Random) -> u16 {
    let code = random.below(4) as u16;
    let whole = 0x40 | (code * 0x15);
    match random.below(3) {
        0 => whole >> 1,
        1 => whole >> random.between(1, 6),
        _ => random.between(1, 63) as u16,
    }
}

/// A record with one number that may not fit.
pub fn damaged(random: &mut Random, part: u16) -> Device {
    let known = Part::of(part).expect("a part's number");
    let mut device = fitting(random, part);
    let any = random.next() as u16;
    let limit = 1 << known.value_width();
    let high = random.pick(&[limit - 1, limit, any]);
    let outputs = known.outputs();
    let r = &mut device.registers;
    let kinds = if has_unused(r, known) { 20 } else { 18 };
    match random.below(kinds) {
        0 => r.part = unknown_part(random),
        1 => r.overtemperature = random.pick(&[1, 2, 255]),
        2 => r.openled = random.pick(&[1, 2, 255]),
        3 => r.waiting0[random.below(outputs)] = high,
        4 => r.waiting1[random.below(outputs)] = high,
        5 => r.active0[random.below(outputs)] = high,
        6 => r.active1[random.below(outputs)] = high,
        7 => r.slice[random.below(2 * outputs)] = high,
        8 => device.place.phase = random.pick(&[0, 1, 2, 3, 4, 5, 6, 255]),
        9 => device.place.command = random.pick(&[0, 1, 3, 4, 255]),
        10 => device.place.count = random.pick(&[0, 1, 1023, 1024, any]),
        11 => device.place.read = read(random, known, r.configuration),
        12 => r.position = past_end(random, known.frame_clocks(r.configuration)),
        13..=17 => damage_watch(random, &mut r.watch),
        _ => fill_unused(random, r, known),
    }
    device
}

/// A position at the end of a frame of so many clocks, mostly past it.
fn past_end(random: &mut Random, length: u64) -> u64 {
    let any = random.next();
    random.pick(&[
        length - 1,
        length,
        length + 1,
        4 * QUARTER,
        1 << 32,
        u64::MAX,
        any,
    ])
}

/// One number of a watchdog, about the ends of its range or far from it.
fn damage_watch(random: &mut Random, watch: &mut Watch) {
    let (byte, any) = (random.byte(), random.next());
    let most = MOST_STILL as u32;
    let level = random.pick(&[0, 1, 2, 3, 255, byte]);
    let still = random.pick(&[MOST_STILL, MOST_STILL + 1, 1 << 32, u64::MAX, any]);
    match random.below(6) {
        0 => watch.bit = random.pick(&[0, 1, 4, 5, 7, 8, 9, 255, byte]),
        1 => watch.limit = random.pick(&[0, 1, most, most + 1, u32::MAX, any as u32]),
        2 => watch.din.level = level,
        3 => watch.loadi.level = level,
        4 => watch.din.still = still,
        _ => watch.loadi.still = still,
    }
}

/// A number of bits read: about the length of a slice, or about the limit of another phase.
fn read(random: &mut Random, part: Part, configuration: u8) -> u16 {
    let (command, other) = (random.pick(&Command::ALL), random.byte());
    let mode = random.pick(&[configuration, other]);
    let bits = slice_bits(command, part, mode) as u16;
    let any = random.next() as u16;
    let limits = [0, 1, 2, 63, 64, 255, 256, 511, 512, 513, 1023, 1024, any];
    let limit = random.pick(&limits);
    random.pick(&[bits - 1, bits, limit])
}

/// Whether a record has places that its part does not use.
fn has_unused(r: &Registers, part: Part) -> bool {
    part.banks() < r.calibration.len()
}

/// Something other than 0 in a place that the part does not use.
fn fill_unused(random: &mut Random, r: &mut Registers, part: Part) {
    let any = random.next() as u16;
    let value = random.pick(&[1, 1 << 11, 1 << 15, any | 1]);
    let list: &mut [u16] = match random.below(6) {
        0 => &mut r.waiting0[part.outputs()..],
        1 => &mut r.waiting1[part.outputs()..],
        2 => &mut r.active0[part.outputs()..],
        3 => &mut r.active1[part.outputs()..],
        4 => &mut r.slice[2 * part.outputs()..],
        _ => {
            r.calibration[part.banks()..].fill(value.to_be_bytes()[0] | 1);
            return;
        }
    };
    list[random.below(list.len())] = value;
}

/// A record that holds anything at all.
pub fn junk(random: &mut Random) -> Device {
    let words = |random: &mut Random| [(); 24].map(|()| random.next() as u16);
    Device {
        registers: Registers {
            part: random.next() as u16,
            overtemperature: random.byte(),
            openled: random.byte(),
            configuration: random.byte(),
            calibration: [random.byte(), random.byte(), random.byte()],
            waiting: random.byte(),
            active: random.byte(),
            waiting0: words(random),
            waiting1: words(random),
            active0: words(random),
            active1: words(random),
            slice: [(); 48].map(|()| random.next() as u16),
            position: random.next(),
            watch: Watch {
                din: junk_line(random),
                loadi: junk_line(random),
                limit: random.next() as u32,
                bit: random.byte(),
            },
        },
        place: Place {
            phase: random.byte(),
            command: random.byte(),
            count: random.next() as u16,
            read: random.next() as u16,
        },
    }
}

fn junk_line(random: &mut Random) -> Line {
    Line {
        still: random.next(),
        level: random.byte(),
    }
}
