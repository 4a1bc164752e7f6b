//! The worked examples of the watchdog, 5a to 5l of docs/RULES.md, "Numbers to hold against": each as clocks that are
//! given to a chain, and what its devices then hold.

use model::frame::Tail;
use model::part::{slice_bits, Command, Part};
use model::set::Set;
use record::{Device, Line, Place, Registers, MOST_STILL};

/// A worked example.
pub struct Example {
    /// Its number.
    pub name: &'static str,
    /// Its runs, each of a chain of its own.
    pub runs: Vec<Run>,
}

/// A chain, the states that it is given, and what its devices then hold but for the slice that comes in.
pub struct Run {
    /// The chain.
    pub before: Vec<Device>,
    /// The states.
    pub states: Vec<u8>,
    /// What its devices hold.
    pub after: Vec<Registers>,
}

impl Run {
    /// What devices hold but for the slices that come in.
    pub fn held(chain: &[Device]) -> Vec<Registers> {
        chain.iter().map(held).collect()
    }
}

/// What a device holds but for the slice that comes in.
fn held(device: &Device) -> Registers {
    Registers {
        slice: [0; 48],
        ..device.registers
    }
}

/// The configuration bit of all examples.
const BIT: u8 = 1;
/// A configuration that enables the watchdog, and one that does not.
const ON: u8 = 1 << BIT;
const OFF: u8 = 0;

/// A device with a configuration and a limit that hunts, with values of all four kinds.
fn device(part: u16, configuration: u8, limit: u32) -> Device {
    let mut device = Device::watched(part, BIT, limit);
    let r = &mut device.registers;
    (r.configuration, r.position) = (configuration, 1000);
    (r.waiting, r.active) = (7, 9);
    fill(r);
    device
}

/// Values of all four kinds.
fn fill(r: &mut Registers) {
    (r.waiting0[0], r.waiting1[1]) = (70, 71);
    (r.active0[2], r.active1[3]) = (90, 91);
}

/// The same device before the last bit of a slice, whose fields are 0; counts and levels of data and load.
fn at_last_bit(mut device: Device, command: Command, counts: [u64; 2], levels: [u8; 2]) -> Device {
    let r = &mut device.registers;
    let part = Part::of(r.part).expect("a part's number");
    let bits = slice_bits(command, part, r.configuration);
    device.place = Place {
        phase: record::SLICE,
        command: command.code(),
        count: 0,
        read: bits as u16 - 1,
    };
    lines(r, counts, levels);
    device
}

/// Counts and levels of data and load.
fn lines(r: &mut Registers, counts: [u64; 2], levels: [u8; 2]) {
    let line = |k: usize| Line {
        still: counts[k],
        level: levels[k],
    };
    (r.watch.din, r.watch.loadi) = (line(0), line(1));
}

/// All values are 0.
fn clear(r: &mut Registers) {
    for list in [
        &mut r.waiting0,
        &mut r.waiting1,
        &mut r.active0,
        &mut r.active1,
    ] {
        *list = [0; 24];
    }
}

/// A run of one device that then holds the same but for its position and what is changed.
fn one(before: Device, states: &[u8], change: impl Fn(&mut Registers)) -> Run {
    many(vec![before], states, |k, r| {
        assert_eq!(k, 0, "one device");
        change(r);
    })
}

/// The same of several devices, each with its place from 0.
fn many(before: Vec<Device>, states: &[u8], change: impl Fn(usize, &mut Registers)) -> Run {
    let mut after = Run::held(&before);
    for (k, r) in after.iter_mut().enumerate() {
        r.position += states.len() as u64;
        change(k, r);
    }
    Run {
        before,
        states: states.to_vec(),
        after,
    }
}

/// The states of a frame of a set.
fn states(set: &Set, command: Command) -> Vec<u8> {
    let states = set.states(command, Tail::default());
    states.expect("a set in order")
}

/// The number of an example, and its runs for devices of a part.
type Named = (&'static str, fn(u16) -> Vec<Run>);

/// 5a to 5l, for devices of a part.
pub fn examples(part: u16) -> Vec<Example> {
    let runs: [Named; 12] = [
        ("5a", enabled_and_expired),
        ("5b", disabled_in_time),
        ("5c", boundary_and_expiry),
        ("5d", store_and_expiry),
        ("5e", burst_onto_its_levels),
        ("5f", sent_nothing),
        ("5g", levels_while_clear),
        ("5h", still_clocks),
        ("5i", only_load_still),
        ("5j", mux1_cleared),
        ("5k", count_at_its_most),
        ("5l", expiry_in_a_frame),
    ];
    let example = |(name, runs): Named| Example {
        name,
        runs: runs(part),
    };
    runs.map(example).into()
}

/// A configuration arrives that enables the watchdog; data and load are still with its last bit.
fn enabled_and_expired(part: u16) -> Vec<Run> {
    let before = device(part, OFF, 1);
    let frame = states(&Set::zeros(part, 1, 0x03), Command::Configuration);
    let all_but_one = &frame[..frame.len() - 1];
    vec![
        one(before, all_but_one, |r| lines(r, [0, 0], [1, 1])),
        one(before, &frame, |r| {
            r.configuration = 0x03;
            lines(r, [1, 1], [1, 1]);
            clear(r);
        }),
    ]
}

fn disabled_in_time(part: u16) -> Vec<Run> {
    let before = device(part, ON, 10);
    let before = at_last_bit(before, Command::Configuration, [9, 9], [0, 1]);
    vec![one(before, &[2], |r| {
        r.configuration = OFF;
        lines(r, [0, 0], [0, 1]);
    })]
}

fn boundary_and_expiry(part: u16) -> Vec<Run> {
    let mut before = device(part, ON, 10);
    before.registers.position = 524_287;
    lines(&mut before.registers, [9, 9], [0, 0]);
    vec![one(before, &[0], |r| {
        (r.position, r.active) = (0, 7);
        lines(r, [10, 10], [0, 0]);
        clear(r);
    })]
}

/// And the same with a limit that is one more: the slice waits.
fn store_and_expiry(part: u16) -> Vec<Run> {
    let before = |limit| {
        let device = device(part, ON, limit);
        let mut device = at_last_bit(device, Command::Individual, [0, 9], [0, 1]);
        device.registers.slice[3] = 33;
        device
    };
    vec![
        one(before(10), &[2], |r| {
            lines(r, [1, 10], [0, 1]);
            clear(r);
        }),
        one(before(11), &[2], |r| {
            lines(r, [1, 10], [0, 1]);
            (r.waiting0[0], r.waiting0[3]) = (0, 33);
        }),
    ]
}

fn burst_onto_its_levels(part: u16) -> Vec<Run> {
    let sender = device(part, ON, 501);
    let sender = at_last_bit(sender, Command::Calibration, [0, 0], [0, 1]);
    let mut receiver = device(part, ON, 501);
    lines(&mut receiver.registers, [500, 500], [0, 1]);
    vec![many(vec![sender, receiver], &[2], |k, r| {
        lines(r, [[1, 1], [0, 0]][k], [0, 1]);
    })]
}

fn sent_nothing(part: u16) -> Vec<Run> {
    let before = vec![device(part, ON, 6); 2];
    vec![many(before, &[0, 1, 0, 1, 0], |k, r| {
        lines(r, [[0, 5], [5, 5]][k], [0, 0]);
    })]
}

fn levels_while_clear(part: u16) -> Vec<Run> {
    let mut enabled = device(part, ON, 2);
    lines(&mut enabled.registers, [0, 0], [1, 1]);
    vec![
        one(device(part, OFF, 2), &[1, 3, 3], |r| {
            lines(r, [0, 0], [1, 1]);
        }),
        one(enabled, &[3], |r| lines(r, [1, 1], [1, 1])),
    ]
}

/// Two clocks, the third, and the fourth with values that were not there after the third.
fn still_clocks(part: u16) -> Vec<Run> {
    let after = |count| {
        let mut device = device(part, ON, 3);
        lines(&mut device.registers, [count; 2], [0, 0]);
        device
    };
    let expired = |count| {
        move |r: &mut Registers| {
            lines(r, [count; 2], [0, 0]);
            clear(r);
        }
    };
    vec![
        one(after(0), &[0, 0], |r| lines(r, [2, 2], [0, 0])),
        one(after(2), &[0], expired(3)),
        one(after(3), &[0], expired(4)),
    ]
}

fn only_load_still(part: u16) -> Vec<Run> {
    let before = device(part, ON, 4);
    vec![
        one(before, &[1, 0, 1], |r| lines(r, [0, 3], [1, 0])),
        one(before, &[1, 0, 1, 0], |r| {
            lines(r, [0, 4], [0, 0]);
            clear(r);
        }),
    ]
}

fn mux1_cleared(part: u16) -> Vec<Run> {
    let mut before = device(part, ON, 1);
    let r = &mut before.registers;
    clear(r);
    (r.waiting1[5], r.active1[6]) = (5, 6);
    vec![one(before, &[0], |r| {
        lines(r, [1, 1], [0, 0]);
        clear(r);
    })]
}

fn count_at_its_most(part: u16) -> Vec<Run> {
    let mut before = device(part, ON, MOST_STILL as u32);
    lines(&mut before.registers, [MOST_STILL, 5], [0, 0]);
    vec![one(before, &[0], |r| {
        lines(r, [MOST_STILL, 6], [0, 0]);
        clear(r);
    })]
}

/// Load rises with the ninth state of a calibration frame, and comes to the limit in the last byte of the slice.
fn expiry_in_a_frame(part: u16) -> Vec<Run> {
    const BYTES: [u8; 3] = [0xA9, 0x10, 0x01];
    let banks = Part::of(part).expect("a part's number").banks();
    let mut set = Set::zeros(part, 1, ON);
    set.calibration.copy_from_slice(&BYTES[..banks]);
    let frame = states(&set, Command::Calibration);
    let limit = frame.len() as u32 - 12;
    // 0x10 ends with four zeros, 0x01 with a one.
    let (count, level) = if banks == 2 { (3, 0) } else { (0, 1) };
    vec![one(device(part, ON, limit), &frame, |r| {
        r.calibration[..banks].copy_from_slice(&BYTES[..banks]);
        lines(r, [count, u64::from(limit) + 3], [level, 1]);
        clear(r);
    })]
}
