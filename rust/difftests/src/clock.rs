//! The clock that each device keeps: boundaries about the clock of a store, configurations that change how long a frame
//! is, runs longer than a frame, and large chains. Most chains here have watchdogs that do not expire; the others are held
//! against the model alone.

use crate::pair::{frame_clocks, Pair};
use crate::restore::{active, library_states, loaded, waiting, Restore};
use crate::tally::{Case, Events, Tally};
use cases::records::{self, QUARTER};
use cases::{sets, states, Random};
use model::edge::Edge;
use model::part::{glb4, slice_bits, Command, Part};
use model::set::Set;
use record::{Device, Place, Registers};
use std::cmp::Ordering;

/// How long the frame is that a stored configuration makes, and where the position comes to 0 in a shorter one.
pub const FRAMES: Events = Events {
    title: "frames by a configuration",
    names: &["shorter", "shorter with position 0", "longer", "as long"],
};

/// Counts what a configuration that is stored at a position makes of the frame.
pub fn configured(case: &mut Case, position: u64, before: &Registers, after: &Registers) {
    if after.configuration == before.configuration {
        return;
    }
    let is_taken_to_0 = after.position == 0 && position != 0;
    case.event(match frame_clocks(after).cmp(&frame_clocks(before)) {
        Ordering::Less if is_taken_to_0 => "shorter with position 0",
        Ordering::Less => "shorter",
        Ordering::Greater => "longer",
        Ordering::Equal => "as long",
    });
}

/// A frame of a set on the wire, with low clocks about it.
pub struct Sent<'a> {
    set: &'a Set,
    command: Command,
    /// All of its states.
    pub states: Vec<u8>,
    /// Where the frame begins in the states.
    begin: usize,
}

impl Sent<'_> {
    /// A frame with any tail and any edge.
    pub fn new<'a>(random: &mut Random, set: &'a Set, command: Command) -> Sent<'a> {
        let mut states = states::gap(random);
        let begin = states.len();
        let (edge, tail) = (random.pick(&Edge::ALL), sets::tail(random));
        states.extend(library_states(set, command, tail, edge));
        states.extend(states::lows(random, 2));
        Sent {
            set,
            command,
            states,
            begin,
        }
    }

    /// Bits of a slice.
    pub fn slice(&self) -> usize {
        let part = Part::of(self.set.part).expect("a set in order");
        slice_bits(self.command, part, self.set.configuration)
    }

    /// The clock, from 1, with which a device stores its slice.
    pub fn store(&self, number: usize) -> usize {
        self.begin + 24 + number * self.slice()
    }

    /// Records in any phase without a place in a slice, whose own slices are as long as the set's, with watchdogs of any
    /// kind, or with such as do not expire.
    pub fn receivers(&self, random: &mut Random, is_quiet: bool) -> Pair {
        let mut receiver = || {
            let mut device = records::fitting(random, self.set.part);
            if is_quiet {
                device.registers.watch = records::quiet(random);
            }
            let phase = random.pick(&[record::HUNTING, record::PASSING, record::LOST]);
            device.place = Place::of(phase);
            let r = &mut device.registers;
            r.configuration = r.configuration & !1 | self.set.configuration & 1;
            device
        };
        Pair::of((0..self.set.devices).map(|_| receiver()).collect())
    }
}

/// When a boundary falls: the clock before a store, with it, and the clock after it.
const BOUNDARIES: Events = Events {
    title: "boundaries by a store",
    names: &[
        "individual before",
        "individual with",
        "individual after",
        "calibration before",
        "calibration with",
        "calibration after",
        "global before",
        "global with",
        "global after",
        "configuration before",
        "configuration with",
        "configuration after",
    ],
};

/// Frames of each command; each device has a boundary about the clock of its own store.
pub fn boundaries() -> Tally {
    let mut tally = Tally::new("boundaries about a store", 0xB0DA);
    tally.of_each_part(1_000, |case, random, part| {
        let devices = random.between(1, 4);
        let set = sets::set(random, part, devices);
        for command in Command::ALL {
            let sent = Sent::new(random, &set, command);
            boundary_case(case, random, &sent);
        }
    });
    tally.close_events(&[0], &[BOUNDARIES]);
    tally
}

fn boundary_case(case: &mut Case, random: &mut Random, sent: &Sent) {
    let is_quiet = !random.one_in(3);
    let mut chain = sent.receivers(random, is_quiet);
    let late: Vec<usize> = chain.model.iter().map(|_| random.below(3)).collect();
    for (number, late) in (1..).zip(&late) {
        let clock = sent.store(number) - 1 + late;
        chain.bring(number, clock as u64);
        let command = usize::from(sent.command.code());
        case.event(BOUNDARIES.names[3 * command + late]);
    }
    let old = chain.model.clone();
    chain.run_cut(case, random, &sent.states);
    if !is_quiet {
        return;
    }
    for (number, late) in (1..).zip(late) {
        let [old, new] = [&old, &chain.library].map(|chain| &chain[number - 1].registers);
        is_in_use(case, sent, number, late == 2, [old, new]);
    }
}

/// What waited before the boundary's state acted is in use. A configuration may put the boundary after it off.
fn is_in_use(case: &mut Case, sent: &Sent, number: usize, is_after: bool, held: [&Registers; 2]) {
    let [old, new] = held;
    let (global, phases) = waiting(old);
    let expected = match sent.command {
        Command::Configuration if is_after && frame_clocks(new) > frame_clocks(old) => active(old),
        Command::Global if is_after => (sent.set.global, phases),
        Command::Individual if is_after => (global, loaded(sent.set, number, phases)),
        _ => (global, phases),
    };
    case.same("in use after the boundary", active(new), expected);
}

/// What else there is to a configuration's store.
const STORES: Events = Events {
    title: "stores",
    names: &[
        "copies that differ",
        "GLB4 without effect",
        "with a boundary",
        "longer with a boundary",
    ],
};

/// Configuration frames at chosen positions: GLB4 switched within a run, and copies that differ.
pub fn switched() -> Tally {
    let mut tally = Tally::new("frames made shorter and longer", 0x61B4);
    tally.of_each_part(5_000, switch_case);
    tally.close_events(&[0], &[FRAMES, STORES]);
    tally
}

fn switch_case(case: &mut Case, random: &mut Random, part: u16) {
    let devices = random.between(1, 4);
    let set = sets::set(random, part, devices);
    let mut sent = Sent::new(random, &set, Command::Configuration);
    let is_quiet = !random.one_in(3);
    let mut chain = sent.receivers(random, is_quiet);
    for number in 1..=devices {
        let length = frame_clocks(&chain.model[number - 1].registers);
        let before = length + sent.store(number) as u64 - position(random) % length;
        chain.bring(number, (before - 1) % length + 1);
    }
    let number = random.between(1, devices);
    let store = sent.store(number);
    let do_copies_differ = random.one_in(5);
    if do_copies_differ {
        let bit = random.between(1, sent.slice());
        sent.states[store - bit] ^= 1;
        case.event("copies that differ");
    }
    chain.run_cut(case, random, &sent.states[..store - 1]);
    let before = chain.library[number - 1].registers;
    chain.run(case, &sent.states[store - 1..store]);
    let after = chain.library[number - 1].registers;
    if is_quiet {
        is_stored(case, &set, do_copies_differ, [&before, &after]);
    }
    chain.run_cut(case, random, &sent.states[store..]);
}

/// A position in the long frame that a configuration may be stored at: often about a quarter's end.
fn position(random: &mut Random) -> u64 {
    let quarter = QUARTER * random.between(0, 4) as u64;
    let any = random.next() % (4 * QUARTER);
    random.pick(&[quarter, quarter + 1, quarter.max(1) - 1, 200_001, any])
}

/// The device first advances, by its old configuration. Then the new one, if its copies agree, takes the position into
/// a shorter frame.
fn is_stored(case: &mut Case, set: &Set, do_copies_differ: bool, held: [&Registers; 2]) {
    let [before, after] = held;
    let advanced = (before.position + 1) % frame_clocks(before);
    let new = match do_copies_differ {
        true => before.configuration,
        false => set.configuration,
    };
    case.same("configuration", after.configuration, new);
    let length = frame_clocks(after);
    case.same("position", after.position, advanced % length);
    let expected = match advanced {
        0 => waiting(before),
        _ => active(before),
    };
    case.same("in use after the store", active(after), expected);
    configured(case, advanced, before, after);
    if advanced == 0 {
        case.event("with a boundary");
        if length > frame_clocks(before) {
            case.event("longer with a boundary");
        }
    }
    if glb4(new) != glb4(before.configuration) && length == frame_clocks(before) {
        case.event("GLB4 without effect");
    }
}

/// Runs of a long frame's clocks and some more: at low load, and at high load for devices that pass or ignore it. There
/// are few, for the model goes through each clock.
pub fn long_runs() -> Tally {
    let mut tally = Tally::new("runs longer than a frame", 0x5248);
    tally.of_each_part(4, |case, random, part| {
        let device = |mode: u8| {
            let mut device = records::fitting(random, part);
            device.place = Place::of(random.pick(&[record::PASSING, record::LOST]));
            let r = &mut device.registers;
            (r.configuration, r.position) = (mode, r.position % QUARTER);
            r.watch = records::quiet(random);
            device
        };
        let mut chain = Pair::of([0x00, 0x10, 0x11].map(device).to_vec());
        let high = random.below(2) as u8 * 2;
        let more = random.below(3);
        let states = states::lows(random, 4 * QUARTER as usize + more);
        let states: Vec<u8> = states.into_iter().map(|state| state + high).collect();
        let old = chain.library.clone();
        chain.run_cut(case, random, &states);
        for (old, new) in old.iter().zip(&chain.library) {
            let (old, new) = (&old.registers, &new.registers);
            case.same("in use", active(new), waiting(old));
            let position = (old.position + more as u64) % frame_clocks(old);
            case.same("position", new.position, position);
        }
    });
    tally.close(&[0]);
    tally
}

/// How long the restore of a large chain takes beside its frame.
const LARGE: Events = Events {
    title: "restores",
    names: &["within a frame", "longer than a frame"],
};

/// Restores of up to 1023 devices at any positions, and a wait of a long frame, against the baseline.
pub fn large_chains() -> Tally {
    let mut tally = Tally::new("clocks of large chains", 0x1A6C);
    tally.of_each_part(25, |case, random, part| {
        let any = random.between(1, 1023);
        let devices = random.pick(&[any, 512, 1023]);
        let set = sets::set(random, part, devices);
        let states = Restore::new(random, &set).states;
        let known = Part::of(part).expect("a part's number");
        let length = known.frame_clocks(set.configuration) as usize;
        case.event(LARGE.names[usize::from(states.len() > length)]);
        let chain = (0..devices).map(|_| records::fitting(random, part));
        let mut chain: Vec<Device> = chain.collect();
        let is_quiet = random.one_in(2);
        if is_quiet {
            for device in &mut chain {
                device.registers.watch = records::quiet(random);
            }
        }
        let mut expected = chain.clone();
        let cut = random.between(0, states.len());
        let wait = states::lows(random, 4 * QUARTER as usize);
        for piece in [&states[..cut], &states[cut..], &wait] {
            run_large(case, &mut chain, &mut expected, piece);
        }
        if is_quiet {
            let compared = ffi::compare(&set.lent(), &chain);
            case.same("compare", (compared.group, compared.refusal), (0, 0));
        }
    });
    tally.close_events(&[0], &[LARGE]);
    tally
}

/// Runs a chain of the library's, and the baseline's beside it.
pub fn run_large(case: &mut Case, chain: &mut [Device], expected: &mut [Device], states: &[u8]) {
    let room = states.len() + 23;
    let [mut returned, mut after] = [(); 2].map(|()| vec![0xEE; room]);
    let found = ffi::run(chain, states, &mut returned);
    let sent = baseline::chain::run(expected, states, &mut after);
    case.same(
        "run",
        (found.refusal, found.value as usize),
        (0, sent.unwrap_or(0)),
    );
    case.same("returned", returned == after, true);
    let differs = (0..chain.len()).find(|&k| chain[k] != expected[k]);
    case.same("the first device that differs", differs, None);
    case.reach(found.refusal);
}
