//! Light: every subframe and window, every clock of chosen values, positions of any kind, runs of clocks, and what is
//! lit now.

use crate::bits::answer;
use crate::chain::any_chain;
use crate::pair::{frame_clocks, Pair};
use crate::tally::{Case, Events, Tally};
use cases::{records, sets, Random};
use ffi::{Answer, Clocks, LitNow, Signed};
use model::light::{is_device_lit, is_lit, is_on, lead, Position};
use model::part::{phases, Part};
use record::Device;
use std::ops::Range;

/// The four configurations that matter, with their other bits set and clear.
const CONFIGURATIONS: [u8; 8] = [0x00, 0x01, 0x10, 0x11, 0xEE, 0xEF, 0xFE, 0xFF];

fn flag(result: Result<bool, u8>) -> Answer {
    answer(result.map(u64::from))
}

fn signed(result: Result<i32, u8>) -> Signed {
    Signed {
        value: result.unwrap_or(0),
        refusal: result.err().unwrap_or(0),
    }
}

fn clocks(result: Result<Range<u32>, u8>) -> Clocks {
    let refusal = *result.as_ref().err().unwrap_or(&0);
    let Range { start, end } = result.unwrap_or(0..0);
    Clocks {
        first: start,
        end,
        refusal,
    }
}

/// Every global byte with every subframe and window, and those just outside. A case is one global byte.
pub fn schedules() -> Tally {
    let mut tally = Tally::new("ON subframes and leads", 0);
    let unknown = [0, 6971, 6976];
    for part in Part::ALL.map(Part::number).into_iter().chain(unknown) {
        for configuration in CONFIGURATIONS {
            let subframes = Part::of(part).map_or(4, |p| p.subframes(configuration));
            for global in 0..=255 {
                tally.case(u64::from(global), |case| {
                    for s in (0..=subframes + 1).chain([u32::MAX]) {
                        let found = ffi::on(part, configuration, global, s);
                        case.same("on", found, flag(is_on(part, configuration, global, s)));
                        case.reach(found.refusal);
                    }
                    let windows = (0..=subframes).flat_map(|start| {
                        let lengths =
                            (0..=subframes - start + 1).chain([u32::MAX, u32::MAX - start]);
                        lengths.map(move |length| (start, length))
                    });
                    for (start, length) in windows {
                        let found = ffi::lead(part, configuration, global, start, length);
                        let expected = lead(part, configuration, global, start, length);
                        case.same("lead", found, signed(expected));
                        case.reach(found.refusal);
                    }
                });
            }
        }
    }
    tally.close(&[0, 1, 13]);
    tally
}

/// Every clock of a subframe that is ON and of one that is not, for every output and those past the last. A case is a
/// part, a value, an output.
pub fn lit_clocks() -> Tally {
    let mut tally = Tally::new("lit clocks", 0x0117);
    for part in Part::ALL {
        let (edge, clocks) = (part.edge_zone(), part.clocks());
        let edges = [0, 1, edge - 1, edge, edge + 1, clocks - edge, clocks - 1];
        let random = &mut Random::of_case(tally.seed(), u64::from(part.number()));
        let any = [(); 2].map(|()| random.below(clocks as usize) as u32);
        for value in edges.into_iter().chain(any) {
            for output in 0..=24 {
                tally.case(u64::from(value), |case| {
                    // With global byte 0 only the last subframe is ON.
                    for subframe in [0, part.subframes(0) - 1] {
                        for clock in 0..clocks {
                            let (number, value) = (part.number(), value as u16);
                            let at = [output, subframe, clock, 0];
                            let found = ffi::lit(number, 0, 0, value, at);
                            let expected = is_lit(number, 0, 0, value, position(at));
                            case.same("lit", found, flag(expected));
                            case.reach(found.refusal);
                        }
                    }
                });
            }
        }
    }
    tally.close(&[0, 13]);
    tally
}

fn position([output, subframe, clock, phase]: ffi::Position) -> Position {
    Position {
        output,
        subframe,
        clock,
        phase,
    }
}

/// A position, seldom with one number at or past its limit.
fn any_position(random: &mut Random, part: u16, configuration: u8) -> ffi::Position {
    let known = Part::of(part).unwrap_or(Part::Max6975);
    let subframes = known.subframes(configuration);
    let limits = [
        known.outputs() as u32,
        subframes,
        known.clocks(),
        1 + u32::from(configuration & 1),
    ];
    let mut at = limits.map(|limit| random.below(limit as usize) as u32);
    if random.one_in(3) {
        let k = random.below(4);
        at[k] = random.pick(&[limits[k] - 1, limits[k], limits[k] + 1, u32::MAX]);
    }
    at
}

/// The part's number, seldom one that is no part's.
fn any_part(random: &mut Random, part: u16) -> u16 {
    match random.below(7) {
        0 => sets::unknown_part(random),
        _ => part,
    }
}

/// A record of a part, seldom one that does not fit.
fn any_record(random: &mut Random, part: u16) -> Device {
    match random.below(8) {
        0 => records::junk(random),
        1 => records::damaged(random, part),
        _ => records::fitting(random, part),
    }
}

/// Any numbers.
pub fn positions() -> Tally {
    let mut tally = Tally::new("lit from numbers", 0x9051);
    tally.of_each_part(150_000, |case, random, part| {
        let part = any_part(random, part);
        let (configuration, global) = (random.byte(), random.byte());
        let any = random.next() as u16;
        let value = random.pick(&[any, any & 0xFFF, any & 0x3FFF]);
        let at = any_position(random, part, configuration);
        let found = ffi::lit(part, configuration, global, value, at);
        let expected = is_lit(part, configuration, global, value, position(at));
        case.same("lit", found, flag(expected));
        case.reach(found.refusal);
    });
    tally.close(&[0, 1, 6, 13]);
    tally
}

/// Any device.
pub fn devices() -> Tally {
    let mut tally = Tally::new("lit of a device", 0xDE71);
    tally.of_each_part(60_000, |case, random, part| {
        let record = any_record(random, part);
        let at = any_position(random, part, record.registers.configuration);
        let found = ffi::device_lit(record, at);
        let expected = is_device_lit(&record, position(at));
        case.same("lit", found, flag(expected));
        case.reach(found.refusal);
    });
    tally.close(&[0, 1, 13]);
    tally
}

/// A value: any, one about an edge zone, or one about a part's limit.
fn any_value(random: &mut Random) -> u16 {
    let any = random.next() as u16;
    let edge = random.pick(&[0, 1, 15, 16, 17, 31, 32, 33]);
    let high = random.pick(&[
        4079, 4080, 4081, 4095, 4096, 16_351, 16_352, 16_353, 16_383, 16_384,
    ]);
    random.pick(&[any, any & 0xFFF, any & 0x3FFF, edge, high])
}

/// The run of lit clocks, from any numbers.
pub fn runs() -> Tally {
    let mut tally = Tally::new("runs of lit clocks from numbers", 0x5A11);
    tally.of_each_part(10_000, |case, random, part| {
        let part = any_part(random, part);
        let (configuration, global) = (random.byte(), random.byte());
        let value = any_value(random);
        let at = any_position(random, part, configuration);
        let [output, subframe, _, phase] = at;
        let found = ffi::lit_clocks(part, configuration, global, value, output, subframe, phase);
        let expected = model::light::lit_clocks(part, configuration, global, value, position(at));
        case.same("clocks", found, clocks(expected));
        case.reach(found.refusal);
    });
    tally.close(&[0, 1, 6, 13]);
    tally
}

/// The run of lit clocks of any device.
pub fn device_runs() -> Tally {
    let mut tally = Tally::new("runs of lit clocks of a device", 0xDE5A);
    tally.of_each_part(10_000, |case, random, part| {
        let record = any_record(random, part);
        let at = any_position(random, part, record.registers.configuration);
        let [output, subframe, _, phase] = at;
        let found = ffi::device_lit_clocks(record, output, subframe, phase);
        let expected = model::light::device_lit_clocks(&record, position(at));
        case.same("clocks", found, clocks(expected));
        case.reach(found.refusal);
    });
    tally.close(&[0, 1, 13]);
    tally
}

/// What there is to be seen of an output.
const SEEN: Events = Events {
    title: "outputs now",
    names: &["MUX0 dark", "MUX0 lit", "MUX1 dark", "MUX1 lit"],
};

/// Any output of any device of any chain, often about the clocks at which it becomes lit or dark.
pub fn now() -> Tally {
    let mut tally = Tally::new("lit now", 0x1170);
    tally.of_each_part(30_000, |case, random, part| {
        let mut chain = any_chain(random, part);
        let far = random.pick(&[0, chain.len() + 1, usize::MAX]);
        let near = random.between(1, chain.len().max(1));
        let device = random.pick(&[near, near, near, near, near, far]);
        let last = Part::of(part).map_or(0, Part::outputs) as u32 - 1;
        let any = random.between(0, last as usize) as u32;
        let output = random.pick(&[any, any, any, any, last, last + 1, u32::MAX]);
        if (1..=chain.len()).contains(&device) && output <= last && random.one_in(2) {
            bring_near(random, &mut chain[device - 1], output);
        }
        ask(case, &chain, device, output);
    });
    tally.close_events(&[0, 1, 2, 4, 13], &[SEEN]);
    tally
}

/// A device comes to a clock about one at which its output becomes lit or dark, in any subframe and phase.
fn bring_near(random: &mut Random, device: &mut Device, output: u32) {
    let r = &mut device.registers;
    let Ok(part) = Part::of(r.part) else { return };
    let (clocks, edge) = (part.clocks(), part.edge_zone());
    let run = random.below((part.subframes(r.configuration) * phases(r.configuration)) as usize);
    let phase = run as u32 % phases(r.configuration);
    let values = [r.active0, r.active1][phase as usize];
    let value = u32::from(values[output as usize]) % clocks;
    let near = random.pick(&[edge, value, clocks - value, clocks - edge, clocks]);
    let clock = (near + clocks - random.below(3) as u32) % clocks;
    r.position = run as u64 * u64::from(clocks) + u64::from(clock);
}

/// The library and the model say the same of an output, and the chain stays.
fn ask(case: &mut Case, chain: &[Device], device: usize, output: u32) -> LitNow {
    let before = chain.to_vec();
    let found = ffi::lit_now(chain, device, output);
    let expected = model::light::lit_now(chain, device, output);
    let seen = expected.map_or((0, 0), |now| (u8::from(now.lit), now.phase as u8));
    let expected = LitNow {
        lit: seen.0,
        phase: seen.1,
        refusal: expected.err().unwrap_or(0),
    };
    case.same("lit now", found, expected);
    case.same("records", chain, &before[..]);
    if expected.refusal == 0 {
        case.event(SEEN.names[usize::from(2 * seen.1 + seen.0)]);
    }
    case.reach(found.refusal);
    found
}

/// The numbers of a refusal.
const NUMBERS: [u8; 4] = [1, 2, 4, 13];

/// What number 13 is given for.
const WRONG: Events = Events {
    title: "13 for",
    names: &[
        "a record",
        "a position",
        "a watchdog",
        "a device",
        "an output",
    ],
};

/// Every choice of things that are wrong, so that each is alone and with all that have a larger number; and none.
pub fn now_refused() -> Tally {
    let mut tally = Tally::new("lit now refused", 0x1174);
    tally.of_each_part(40, |case, random, part| {
        for choice in 0..1 << NUMBERS.len() {
            let chosen = |&k: &usize| choice >> k & 1 == 1;
            let wrong: Vec<u8> = (0..NUMBERS.len())
                .filter(chosen)
                .map(|k| NUMBERS[k])
                .collect();
            let (chain, device, output) = wrong_question(case, random, part, &wrong);
            let found = ask(case, &chain, device, output);
            let lowest = wrong.first().copied().unwrap_or(0);
            case.same("number", found.refusal, lowest);
        }
    });
    tally.close_events(&[0, 1, 2, 4, 13], &[WRONG]);
    tally
}

/// A chain, a device and an output with these things wrong. Where 2 is wrong with others, there are 1024 records.
fn wrong_question(
    case: &mut Case,
    random: &mut Random,
    part: u16,
    wrong: &[u8],
) -> (Vec<Device>, usize, u32) {
    let is_wrong = |number| wrong.contains(&number);
    let count = match is_wrong(2) {
        true if wrong.len() == 1 => random.pick(&[0, 1024]),
        true => 1024,
        false => random.between(2, 5),
    };
    let mut chain = vec![records::fitting(random, part); count];
    let mut device = random.between(1, count.max(1));
    let outputs = Part::of(part).map_or(0, Part::outputs);
    let mut output = random.below(outputs) as u32;
    if is_wrong(13) {
        let kind = random.below(5);
        case.event(WRONG.names[kind]);
        match kind {
            0 => chain[random.below(count)].registers.openled = 2,
            1 => {
                let r = &mut chain[random.below(count)].registers;
                r.position = frame_clocks(r);
            }
            2 => chain[random.below(count)].registers.watch.bit = 4,
            3 => device = random.pick(&[0, count + 1, usize::MAX]),
            _ => output = random.pick(&[outputs as u32, u32::MAX]),
        }
    }
    // One record has another part and one none, so that each is wrong beside the other.
    if is_wrong(4) {
        chain[0].registers.part = sets::other_part(random, part);
    }
    if is_wrong(1) {
        chain[count - 1].registers.part = sets::unknown_part(random);
    }
    (chain, device, output)
}

/// A chain is run clock by clock across the end of a subframe, of a phase or of the frame, and asked with each clock.
pub fn clock_by_clock() -> Tally {
    let mut tally = Tally::new("lit clock by clock", 0x11CC);
    tally.of_each_part(300, |case, random, part| {
        let mut chain = Pair::of((0..2).map(|_| records::fitting(random, part)).collect());
        for number in 1..=2 {
            let r = &chain.model[number - 1].registers;
            let clocks = u64::from(Part::of(part).map_or(1, Part::clocks));
            let ends = random.below((frame_clocks(r) / clocks) as usize) as u64;
            chain.bring(number, ends * clocks + random.between(1, 40) as u64);
        }
        let outputs = Part::of(part).map_or(0, Part::outputs);
        for _ in 0..60 {
            chain.run(case, &[random.below(2) as u8]);
            let (device, output) = (random.between(1, 2), random.below(outputs) as u32);
            ask(case, &chain.library, device, output);
        }
    });
    tally.close_events(&[0], &[SEEN]);
    tally
}
