//! The watchdog: what a chain is told of it, what a record may hold of it, its worked examples, expiries about stores,
//! boundaries and the bit that enables it, bursts onto every level, pieces of a run, and stretches in which nothing
//! happens.

use crate::clock::{run_large, Sent};
use crate::pair::{frame_clocks, Pair};
use crate::tally::{Case, Events, Tally};
use cases::watch::{examples, Run};
use cases::{records, sets, states, Random};
use model::part::{slice_bits, Command, Part};
use record::{Device, Line, Place, Registers, Watch, MOST_STILL};

/// Limits in range and out of range.
const LIMITS: [u32; 9] = [
    0,
    1,
    2,
    1000,
    1_999_999,
    2_000_000,
    2_000_001,
    1 << 31,
    u32::MAX,
];

/// Counts in range and out of range.
const COUNTS: [u64; 8] = [
    0,
    1,
    1_999_999,
    MOST_STILL,
    MOST_STILL + 1,
    1 << 32,
    (1 << 32) + 1,
    u64::MAX,
];

/// A chain is made fresh with every bit and chosen limits, for known and unknown parts and any number of records.
pub fn told() -> Tally {
    let mut tally = Tally::new("fresh with a bit and a limit", 0xF4E5);
    tally.of_each_part(12, |case, random, part| {
        let unknown = sets::unknown_part(random);
        let count = random.pick(&[1, 2, 3, 1023, 0, 1024]);
        let part = random.pick(&[part, part, part, unknown]);
        let mut chain = vec![records::junk(random); count];
        for bit in 0..=255 {
            for limit in LIMITS {
                fresh(case, random, &mut chain, (part, bit, limit));
            }
        }
    });
    tally.close(&[0, 1, 2, 13]);
    tally
}

fn fresh(case: &mut Case, random: &mut Random, chain: &mut [Device], told: (u16, u8, u32)) {
    let (part, bit, limit) = told;
    if let Some(last) = chain.last_mut() {
        *last = records::junk(random);
    }
    let is_bit = [1, 2, 3, 5, 6, 7].contains(&bit);
    let is_limit = (1..=2_000_000).contains(&limit);
    let expected = match () {
        () if Part::of(part).is_err() => 1,
        () if !(1..=1023).contains(&chain.len()) => 2,
        () if !is_bit || !is_limit => 13,
        () => 0,
    };
    let before = chain.last().copied();
    let found = ffi::fresh(chain, part, bit, limit);
    case.same("fresh", found, expected);
    let after = match expected {
        0 => Some(Device::watched(part, bit, limit)),
        _ => before,
    };
    case.same("the last record", chain.last().copied(), after);
    if expected == 0 {
        let all = chain.iter().all(|device| Some(*device) == after);
        case.same("every record", all, true);
    }
    case.reach(found);
}

/// Which number of a watchdog is at the end of its range or past it.
const NUMBERS: Events = Events {
    title: "13 for",
    names: &[
        "a bit",
        "a limit",
        "a data level",
        "a load level",
        "a data count",
        "a load count",
    ],
};

/// Every bit and level, chosen limits and counts, in every call that takes a record or a chain.
pub fn judged() -> Tally {
    let mut tally = Tally::new("records by their watchdog", 0x13AB);
    tally.of_each_part(6, |case, random, part| {
        for byte in 0..=255 {
            let is_bit = [1, 2, 3, 5, 6, 7].contains(&byte);
            judge(case, random, part, 0, is_bit, |w| w.bit = byte);
            judge(case, random, part, 2, byte < 2, |w| w.din.level = byte);
            judge(case, random, part, 3, byte < 2, |w| w.loadi.level = byte);
        }
        for limit in LIMITS {
            let fits = (1..=2_000_000).contains(&limit);
            judge(case, random, part, 1, fits, |w| w.limit = limit);
        }
        for still in COUNTS {
            let fits = still <= 2_000_000;
            judge(case, random, part, 4, fits, |w| w.din.still = still);
            judge(case, random, part, 5, fits, |w| w.loadi.still = still);
        }
    });
    tally.close_events(&[0, 13], &[NUMBERS]);
    tally
}

/// One record of a chain has its watchdog changed, so that it fits or does not.
fn judge(
    case: &mut Case,
    random: &mut Random,
    part: u16,
    number: usize,
    fits: bool,
    change: impl Fn(&mut Watch),
) {
    let count = random.between(1, 3);
    let mut chain: Vec<Device> = (0..count).map(|_| records::fitting(random, part)).collect();
    let at = random.below(count);
    change(&mut chain[at].registers.watch);
    let refusal = if fits { 0 } else { 13 };
    if !fits {
        case.event(NUMBERS.names[number]);
    }
    let device = chain[at];
    let mut set = sets::set(random, part, count);
    set.global = 0;
    let mut after = chain.clone();
    let mut returned = [0xEE; 24];
    let found = [
        ffi::judge(device),
        ffi::step(device, 0).refusal,
        ffi::device_lit(device, [0; 4]).refusal,
        ffi::device_lit_clocks(device, 0, 0, 0).refusal,
        ffi::lit_now(&chain, 1, 0).refusal,
        ffi::compare(&set.lent(), &chain).refusal,
        ffi::set_fault(&mut after, 1, 0, chain[0].registers.overtemperature),
        ffi::run(&mut after, &[], &mut returned).refusal,
    ];
    case.same("refusals", found, [refusal; 8]);
    case.same("records", &after, &chain);
    let ran = ffi::run(&mut after, &[1], &mut returned).refusal;
    case.same("run", ran, refusal);
    if !fits {
        case.same("refused step", ffi::step(device, 0).device, device);
        case.same("refused run", &after, &chain);
        case.same("refused run", returned, [0xEE; 24]);
    }
    case.reach(ran);
}

/// The worked examples 5a to 5l of each part.
pub fn worked() -> Tally {
    let mut tally = Tally::new("worked examples 5a to 5l", 0);
    tally.of_each_part(1, |case, _, part| {
        for example in examples(part) {
            for run in &example.runs {
                let mut chain = run.before.clone();
                let mut returned = vec![0; run.states.len() + 23];
                let found = ffi::run(&mut chain, &run.states, &mut returned);
                case.same(example.name, &Run::held(&chain), &run.after);
                case.reach(found.refusal);
            }
        }
    });
    tally.close(&[0]);
    tally
}

/// When a watchdog expires beside the store of a frame's slice in its device.
const STORES: Events = Events {
    title: "expired by a store",
    names: &[
        "individual before",
        "individual with",
        "individual after",
        "calibration before",
        "calibration with",
        "calibration after",
        "global before",
        "global with",
        "global after",
        "configuration before",
        "configuration with",
        "configuration after",
    ],
};

/// What else there is to an expiry.
const EXPIRIES: Events = Events {
    title: "expired",
    names: &[
        "sent nothing",
        "with a boundary and a store",
        "in a clock after another",
        "with the bit just set",
    ],
};

/// What keeps a watchdog from expiring.
const KEPT: Events = Events {
    title: "not expired",
    names: &[
        "a count at the limit but for the bit just cleared",
        "a slice one clock before the limit",
    ],
};

/// Frames of each command; each device expires about the clock of its own store, and often has a boundary there.
pub fn expiries() -> Tally {
    let mut tally = Tally::new("expiries about a store", 0xE891);
    tally.of_each_part(1_500, |case, random, part| {
        let devices = random.between(1, 4);
        let set = sets::set(random, part, devices);
        for command in Command::ALL {
            let sent = Sent::new(random, &set, command);
            expiry_case(case, random, &sent, command, devices);
        }
    });
    tally.close_events(&[0], &[STORES, EXPIRIES, KEPT]);
    tally
}

fn expiry_case(
    case: &mut Case,
    random: &mut Random,
    sent: &Sent,
    command: Command,
    devices: usize,
) {
    let mut chain = sent.receivers(random, false);
    for number in 1..=devices {
        let r = chain.model[number - 1].registers;
        chain.set_watch(number, about_store(random, sent, number, &r));
        let boundary = sent.store(number) + random.below(3) - 1;
        if random.one_in(2) && boundary as u64 <= frame_clocks(&r) {
            chain.bring(number, boundary as u64);
        }
    }
    let number = random.between(1, devices);
    let store = sent.store(number);
    chain.begin();
    chain.run_cut(case, random, &sent.states[..store - 1]);
    let before = chain.library[number - 1].registers;
    let state = sent.states[store - 1];
    chain.run(case, &[state]);
    let after = chain.library[number - 1].registers;
    ends_clock(case, state, [&before, &after]);
    count_store(case, &chain, number, store, [&before, &after]);
    chain.run_cut(case, random, &sent.states[store..]);
    let names = &STORES.names[3 * usize::from(command.code())..];
    for number in 1..=devices {
        let store = sent.store(number);
        for &clock in chain.expiries(number) {
            case.event(names[usize::from(clock >= store) + usize::from(clock > store)]);
            if number > 1 && sent.states[clock - 1] < 2 {
                case.event("sent nothing");
            }
        }
        if chain.expiries(number).windows(2).any(|w| w[1] == w[0] + 1) {
            case.event("in a clock after another");
        }
    }
}

/// A watchdog that comes to its limit about the clock of its device's store: by the load line, which changes a slice
/// before it; by counts from long before; with a limit of few clocks; or at any time.
fn about_store(random: &mut Random, sent: &Sent, number: usize, r: &Registers) -> Watch {
    let mut watch = records::watch(random);
    let bits = records::BITS;
    let enabling = bits
        .into_iter()
        .filter(|bit| r.configuration >> bit & 1 == 1);
    let enabling: Vec<u8> = enabling.collect();
    if !enabling.is_empty() && !random.one_in(4) {
        watch.bit = random.pick(&enabling);
    }
    let from_rise = match number {
        1 => sent.slice() + 16,
        _ => sent.slice(),
    };
    match random.below(4) {
        0 => watch.limit = (from_rise + random.below(3)) as u32 - 1,
        1 => {
            watch.limit = MOST_STILL as u32;
            let clocks = sent.store(number) - random.below(3);
            watch.din.still = MOST_STILL - clocks as u64;
        }
        2 => watch.limit = random.between(1, 4) as u32,
        _ => {}
    }
    watch
}

/// The end of a clock in which a device was sent one state, in the words of docs/RULES.md, "The watchdog".
fn ends_clock(case: &mut Case, state: u8, held: [&Registers; 2]) {
    let [before, after] = held;
    let is_enabled = after.configuration >> before.watch.bit & 1 == 1;
    let line = |line: &Line, level: u8| Line {
        still: match (is_enabled, line.level == level) {
            (true, true) => (line.still + 1).min(2_000_000),
            _ => 0,
        },
        level,
    };
    let expected = Watch {
        din: line(&before.watch.din, state & 1),
        loadi: line(&before.watch.loadi, state >> 1),
        ..before.watch
    };
    case.same("the watchdog", after.watch, expected);
    if has_expired(&expected) {
        let held = [after.waiting0, after.waiting1, after.active0, after.active1];
        case.same("values", held, [[0; 24]; 4]);
    }
}

fn has_expired(watch: &Watch) -> bool {
    watch.din.still.max(watch.loadi.still) >= u64::from(watch.limit)
}

/// Counts what there is to the clock of a store.
fn count_store(case: &mut Case, chain: &Pair, number: usize, store: usize, held: [&Registers; 2]) {
    let [before, after] = held;
    let limit = u64::from(before.watch.limit);
    let enabled = |r: &Registers| r.configuration >> r.watch.bit & 1 == 1;
    let has_expired = chain.has_expired(number, store..=store);
    let is_boundary = before.position + 1 == frame_clocks(before);
    if has_expired {
        if is_boundary {
            case.event("with a boundary and a store");
        }
        if !enabled(before) {
            case.event("with the bit just set");
        }
        return;
    }
    let count = before.watch.din.still.max(before.watch.loadi.still);
    if count + 1 >= limit && enabled(before) && !enabled(after) {
        case.event("a count at the limit but for the bit just cleared");
    }
    if after.watch.din.still + 1 == limit || after.watch.loadi.still + 1 == limit {
        case.event("a slice one clock before the limit");
    }
}

/// The levels that a burst comes upon, and those that it leaves.
const BURSTS: Events = Events {
    title: "bursts onto data and load",
    names: &[
        "0 and 0 to 0",
        "0 and 0 to 1",
        "1 and 0 to 0",
        "1 and 0 to 1",
        "0 and 1 to 0",
        "0 and 1 to 1",
        "1 and 1 to 0",
        "1 and 1 to 1",
    ],
};

/// What the second of two devices is sent in the clock of the first one's store: a header, which changes both lines.
pub fn bursts() -> Tally {
    let mut tally = Tally::new("bursts", 0xB275);
    tally.of_each_part(2_000, |case, random, part| {
        let mut chain = [(); 2].map(|()| records::fitting(random, part));
        let known = Part::of(part).expect("a part's number");
        let command = random.pick(&Command::ALL);
        let bits = slice_bits(command, known, chain[0].registers.configuration);
        chain[0].place = Place {
            phase: record::SLICE,
            command: command.code(),
            count: random.below(1024) as u16,
            read: bits as u16 - 1,
        };
        let before = chain[1].registers;
        let mut chain = Pair::of(chain.to_vec());
        chain.run(case, &[random.between(2, 3) as u8]);
        let after = chain.library[1].registers;
        let watch = &after.watch;
        case.same("counts", [watch.din.still, watch.loadi.still], [0, 0]);
        case.same("load", watch.loadi.level, 1);
        let from = before.watch.din.level + 2 * before.watch.loadi.level;
        case.event(BURSTS.names[usize::from(2 * from + watch.din.level)]);
        // Nothing but an expiry clears values, and a burst is none.
        let is_boundary = before.position + 1 == frame_clocks(&before);
        case.same("waiting", after.waiting0, before.waiting0);
        if !is_boundary {
            case.same("active", after.active1, before.active1);
        }
    });
    tally.close_events(&[0], &[BURSTS]);
    tally
}

/// What expires, clock by clock.
const CLOCKS: Events = Events {
    title: "expired",
    names: &[
        "by data alone",
        "by load alone",
        "by both",
        "with a boundary",
        "with values of MUX1 alone while D0 is 0",
        "at a count of 2,000,000",
    ],
};

/// Any states given in one run, in pieces, and clock by clock: the same devices, and joined up the same returns.
pub fn pieces() -> Tally {
    let mut tally = Tally::new("runs in pieces", 0x91EC);
    tally.of_each_part(1_500, |case, random, part| {
        let devices = random.between(1, 5);
        let mut chain: Vec<Device> = (0..devices)
            .map(|_| records::fitting(random, part))
            .collect();
        if random.one_in(4) {
            for device in &mut chain {
                let r = &mut device.registers;
                (r.waiting0, r.active0) = ([0; 24], [0; 24]);
            }
        }
        let mut states = states::noise(random, part, devices);
        for _ in 0..random.below(3) {
            states.extend(states::frame(random, part, devices));
            states.extend(states::gap(random));
        }
        let mut whole = Pair::of(chain);
        let [mut cut, mut single] = [(); 2].map(|()| whole.library.clone());
        let expected = whole.run(case, &states);
        let (mut returned, mut at) = (vec![], 0);
        while at < states.len() {
            let most = random.pick(&[2, 60, 2000]);
            let next = states.len().min(at + random.between(1, most));
            returned.extend(run(case, &mut cut, &states[at..next]));
            at = next;
        }
        case.same("in pieces", (&cut, &returned), (&whole.library, &expected));
        returned.clear();
        for state in states.chunks(1) {
            let before = single.clone();
            returned.extend(run(case, &mut single, state));
            for (before, after) in before.iter().zip(&single) {
                count_expiry(case, [&before.registers, &after.registers]);
            }
        }
        let found = (&single, &returned);
        case.same("clock by clock", found, (&whole.library, &expected));
    });
    tally.close_events(&[0], &[CLOCKS]);
    tally
}

/// Counts what there is to a clock in which a watchdog has expired.
fn count_expiry(case: &mut Case, held: [&Registers; 2]) {
    let [before, after] = held;
    if !has_expired(&after.watch) {
        return;
    }
    let lines = [&after.watch.din, &after.watch.loadi];
    case.event(
        match lines.map(|line| line.still >= u64::from(after.watch.limit)) {
            [true, false] => "by data alone",
            [false, true] => "by load alone",
            _ => "by both",
        },
    );
    if before.position + 1 == frame_clocks(before) {
        case.event("with a boundary");
    }
    let is_mux1_alone = [before.waiting0, before.active0] == [[0; 24]; 2];
    if after.configuration & 1 == 0 && is_mux1_alone && before.waiting1 != [0; 24] {
        case.event("with values of MUX1 alone while D0 is 0");
    }
    if lines.iter().any(|line| line.still == MOST_STILL) {
        case.event("at a count of 2,000,000");
    }
}

/// A run, which must be accepted; what it returned.
fn run(case: &mut Case, chain: &mut [Device], states: &[u8]) -> Vec<u8> {
    let mut returned = vec![0; states.len() + 23];
    let found = ffi::run(chain, states, &mut returned);
    case.same("a piece", found.refusal, 0);
    returned.truncate(found.value as usize);
    returned
}

/// What a long stretch brings.
const STRETCHES: Events = Events {
    title: "stretches",
    names: &[
        "a limit of 2,000,000 not yet reached",
        "a limit of 2,000,000 reached",
        "a count that stops",
    ],
};

/// 2,000,000 still clocks and about as many: one clock before the limit all values are there, and with it none.
pub fn stretches() -> Tally {
    let mut tally = Tally::new("2,000,000 still clocks", 0x2E6);
    tally.of_each_part(1, |case, random, part| {
        let mut device = |bit: u8, configuration: u8| {
            let mut device = Device::watched(part, bit, MOST_STILL as u32);
            device.place = Place::of(random.pick(&[record::PASSING, record::LOST]));
            let r = &mut device.registers;
            (r.configuration, r.waiting0[0], r.active1[1]) = (configuration, 5, 6);
            device
        };
        // The second device's bit is clear; the load of the first is high before.
        let mut first = device(7, 0x80);
        first.registers.watch.loadi.level = 1;
        let mut chain = Pair::of(vec![first, device(5, 0xDE), device(1, 0x12)]);
        let values = |chain: &Pair| chain.library.iter().map(values).collect::<Vec<_>>();
        chain.run_cut(case, random, &vec![1; 2_000_000 - 1]);
        case.same("before", values(&chain), vec![true, true, true]);
        case.event("a limit of 2,000,000 not yet reached");
        chain.run(case, &[1]);
        case.same("with the limit", values(&chain), vec![true, true, false]);
        chain.run(case, &[1]);
        case.same("a clock later", values(&chain), vec![false, true, false]);
        case.event("a limit of 2,000,000 reached");
        chain.run(case, &[1; 50]);
        let watch = &chain.library[2].registers.watch;
        case.same(
            "count",
            [watch.din.still, watch.loadi.still],
            [MOST_STILL; 2],
        );
        case.event("a count that stops");
    });
    tally.close_events(&[0], &[STRETCHES]);
    tally
}

/// Whether a device has individual values that wait or are in use.
fn values(device: &Device) -> bool {
    let r = &device.registers;
    [r.waiting0, r.waiting1, r.active0, r.active1] != [[0; 24]; 4]
}

/// Large chains with watchdogs of any kind: restores and frames in pieces and 2,000,000 low clocks, against the
/// baseline.
pub fn large_chains() -> Tally {
    let mut tally = Tally::new("watchdogs of large chains", 0x1A55);
    tally.of_each_part(5, |case, random, part| {
        let any = random.between(2, 1023);
        let devices = random.pick(&[any, 1023]);
        let chain = (0..devices).map(|_| records::fitting(random, part));
        let mut chain: Vec<Device> = chain.collect();
        let mut expected = chain.clone();
        for _ in 0..3 {
            let frame = states::frame(random, part, devices);
            let cut = random.between(0, frame.len());
            for piece in [&frame[..cut], &frame[cut..]] {
                run_large(case, &mut chain, &mut expected, piece);
            }
            let gap = states::gap(random);
            run_large(case, &mut chain, &mut expected, &gap);
        }
        let still = vec![random.below(2) as u8; 2_000_000];
        run_large(case, &mut chain, &mut expected, &still);
    });
    tally.close(&[0]);
    tally
}
