//! The watchdog: the worked examples 5a to 5l, what a chain is told of it, what a record may hold of it, and what expires
//! and what does not.

use cases::watch::{examples, Run};
use model::chain;
use model::device::Device as Judged;
use model::frame::Tail;
use model::part::{Command, Part};
use model::set::Set;
use record::{Device, Line, Watch, MOST_STILL};

/// Bit 1.
const ON: u8 = 0x02;

/// The examples of a number, for each part.
fn holds(name: &str) {
    for part in Part::ALL.map(Part::number) {
        let all = examples(part);
        let example = all.iter().find(|example| example.name == name).unwrap();
        for run in &example.runs {
            let mut chain = run.before.clone();
            chain::run(&mut chain, &run.states, run.states.len() + 23).unwrap();
            assert_eq!(Run::held(&chain), run.after, "{name} of a {part}");
        }
    }
}

/// The enabling clock counts: limit 1, and the line was still.
#[test]
fn example_5a() {
    holds("5a");
}

/// The disabling clock does not count: the count is 0.
#[test]
fn example_5b() {
    holds("5b");
}

/// A boundary and an expiry in one clock: what becomes active is 0.
#[test]
fn example_5c() {
    holds("5c");
}

/// A store and an expiry in one clock: the slice is 0.
#[test]
fn example_5d() {
    holds("5d");
}

/// A burst changes both lines, also where it ends at the levels before it.
#[test]
fn example_5e() {
    holds("5e");
}

/// A device that is sent nothing counts on.
#[test]
fn example_5f() {
    holds("5f");
}

/// Levels follow the lines while the bit is clear.
#[test]
fn example_5g() {
    holds("5g");
}

/// An expiry clears again in every further clock.
#[test]
fn example_5h() {
    holds("5h");
}

/// Either line expires by itself.
#[test]
fn example_5i() {
    holds("5i");
}

/// MUX1 values are cleared while D0 is 0.
#[test]
fn example_5j() {
    holds("5j");
}

/// A count stops at its most, and expires there.
#[test]
fn example_5k() {
    holds("5k");
}

/// The frame that comes in is stored, and what is no individual value stays.
#[test]
fn example_5l() {
    holds("5l");
}

#[test]
fn a_chain_is_told_bit_and_limit() {
    let mut chain = vec![Device::fresh(0); 1024];
    let told = |chain: &mut [Device], part, bit, limit| chain::fresh(chain, part, bit, limit);
    assert_eq!(told(&mut chain, 6971, 0, 0), Err(1));
    assert_eq!(told(&mut chain, 6972, 0, 0), Err(2));
    assert_eq!(told(&mut chain[..0], 6972, 0, 0), Err(2));
    for bit in 0..=255 {
        let is_bit = (1..8).contains(&bit) && bit != 4;
        let expected = if is_bit { Ok(()) } else { Err(13) };
        assert_eq!(told(&mut chain[..2], 6972, bit, 5), expected);
    }
    for (limit, expected) in [
        (0, Err(13)),
        (1, Ok(())),
        (2_000_000, Ok(())),
        (2_000_001, Err(13)),
        (u32::MAX, Err(13)),
    ] {
        assert_eq!(told(&mut chain[..2], 6972, 7, limit), expected);
    }
    assert_eq!(told(&mut chain[..2], 6975, 3, 40), Ok(()));
    assert_eq!(chain[..2], [Device::watched(6975, 3, 40); 2]);
}

#[test]
fn records_whose_watchdog_does_not_fit() {
    let refusal = |change: &dyn Fn(&mut Watch)| {
        let mut device = Device::fresh(6974);
        change(&mut device.registers.watch);
        Judged::of_record(&device).err().unwrap_or(0)
    };
    let over = MOST_STILL + 1;
    assert_eq!(refusal(&|_| {}), 0);
    assert_eq!(refusal(&|w| w.bit = 0), 13);
    assert_eq!(refusal(&|w| w.bit = 4), 13);
    assert_eq!(refusal(&|w| w.bit = 8), 13);
    assert_eq!(refusal(&|w| w.limit = 0), 13);
    assert_eq!(refusal(&|w| w.limit = over as u32), 13);
    assert_eq!(refusal(&|w| w.din.level = 2), 13);
    assert_eq!(refusal(&|w| w.loadi.level = 2), 13);
    assert_eq!(refusal(&|w| w.din.still = over), 13);
    assert_eq!(refusal(&|w| w.loadi.still = over), 13);
    // Counts with the bit clear, and over the limit, are in range.
    assert_eq!(refusal(&|w| w.din.still = MOST_STILL), 0);
    assert_eq!(refusal(&|w| (w.limit, w.loadi.still) = (1, 2)), 0);
}

/// No clock, no change: a count that is not 0 stays while the bit is clear.
#[test]
fn a_run_of_no_states_changes_nothing() {
    let mut device = Device::watched(6974, 1, 5);
    device.registers.watch.din = Line { still: 9, level: 1 };
    device.registers.active0 = [3; 24];
    for configuration in [0, ON] {
        device.registers.configuration = configuration;
        let mut chain = [device];
        chain::run(&mut chain, &[], 23).unwrap();
        assert_eq!(chain, [device]);
    }
}

/// The single step leaves levels and counts, and clears nothing.
#[test]
fn a_step_does_not_watch() {
    let mut device = Device::watched(6974, 1, 1);
    device.registers.configuration = ON;
    device.registers.waiting0 = [3; 24];
    let before = device.registers;
    let mut judged = Judged::of_record(&device).unwrap();
    for state in [3, 3, 2, 1, 0, 0] {
        judged.step(state);
    }
    assert_eq!(judged.to_record().registers, before);
}

/// Devices of one chain may have different bits and limits.
#[test]
fn each_device_goes_by_its_own_bit_and_limit() {
    let mut chain = [(1, 3), (2, 3), (1, 4), (7, 1)].map(|(bit, limit)| {
        let mut device = Device::watched(6975, bit, limit);
        device.registers.configuration = ON;
        device.registers.active0 = [3; 24];
        device
    });
    chain::run(&mut chain, &[0; 3], 26).unwrap();
    let counts = chain.map(|d| d.registers.watch.din.still);
    assert_eq!(counts, [3, 0, 3, 0]);
    let values = chain.map(|d| d.registers.active0[0]);
    assert_eq!(values, [0, 3, 3, 3]);
}

/// A sign whose line stands still is blank when a count comes to the limit, each device by itself: the first is sent the
/// low clocks, with which load changes and data does not, and the others nothing.
#[test]
fn a_line_that_stops() {
    let mut set = Set::zeros(6974, 3, ON);
    set.individual.fill(100);
    let mut chain = [Device::watched(6974, 1, 1000); 3];
    for command in [Command::Configuration, Command::Individual] {
        let states = set.states(command, Tail::default()).unwrap();
        chain::run(&mut chain, &states, states.len() + 23).unwrap();
    }
    let counts = chain.map(|d| [d.registers.watch.din.still, d.registers.watch.loadi.still]);
    assert_eq!(counts, [[1, 879], [1, 576], [1, 288]]);
    let mut blank = [None; 3];
    for clock in 1..=1000 {
        chain::run(&mut chain, &[0], 24).unwrap();
        for (device, blank) in chain.iter().zip(&mut blank) {
            if device.registers.waiting0 == [0; 24] {
                blank.get_or_insert(clock);
            }
        }
    }
    assert_eq!(blank, [Some(999), Some(424), Some(712)]);
}
