//! A chain of the library's and the model's beside it, which are given the same.

use crate::tally::Case;
use cases::Random;
use model::part::Part;
use record::{Device, Watch};
use std::ops::RangeInclusive;

/// The two chains. They are alike, or a case has differed.
#[derive(Clone)]
pub struct Pair {
    /// The library's.
    pub library: Vec<Device>,
    /// The model's.
    pub model: Vec<Device>,
    /// Clocks since the two were made, or since [`Pair::begin`].
    clocks: usize,
    /// The clocks, from 1 and rising, in which each device's watchdog has expired.
    expired: Vec<Vec<usize>>,
}

impl Pair {
    /// Two chains of the same records.
    pub fn of(records: Vec<Device>) -> Pair {
        Pair {
            library: records.clone(),
            expired: vec![vec![]; records.len()],
            model: records,
            clocks: 0,
        }
    }

    /// Clocks are counted from here.
    pub fn begin(&mut self) {
        self.clocks = 0;
        self.expired.iter_mut().for_each(Vec::clear);
    }

    /// Whether the watchdog of a device, numbered from 1, has expired in one of these clocks.
    pub fn has_expired(&self, number: usize, clocks: RangeInclusive<usize>) -> bool {
        let expired = &self.expired[number - 1];
        let first = expired.partition_point(|clock| clock < clocks.start());
        expired
            .get(first)
            .is_some_and(|clock| clock <= clocks.end())
    }

    /// The clocks, from 1 and rising, in which the watchdog of a device, numbered from 1, has expired.
    pub fn expiries(&self, number: usize) -> &[usize] {
        &self.expired[number - 1]
    }

    /// Clocks that were counted.
    pub fn clocks(&self) -> usize {
        self.clocks
    }

    /// Both are made fresh, told a bit and a limit.
    pub fn fresh(&mut self, case: &mut Case, part: u16, bit: u8, limit: u32) {
        let found = ffi::fresh(&mut self.library, part, bit, limit);
        let expected = model::chain::fresh(&mut self.model, part, bit, limit);
        self.answered(case, "fresh", found, expected.err().unwrap_or(0));
    }

    /// A run with exactly the room that it needs; what it returned.
    pub fn run(&mut self, case: &mut Case, states: &[u8]) -> Vec<u8> {
        let room = states.len() + 23;
        let mut returned = vec![0xEE; room];
        case.rises(&self.model[0], states);
        let found = ffi::run(&mut self.library, states, &mut returned);
        let (before, expired) = (self.clocks, &mut self.expired);
        let note = |number: usize, clock: usize| expired[number - 1].push(before + clock);
        let expected = model::chain::run_noting(&mut self.model, states, room, note);
        let expected = expected.unwrap_or_default();
        self.clocks += states.len();
        returned.truncate((found.value as usize).min(room));
        case.same("returned", &returned, &expected);
        self.answered(case, "run", found.refusal, 0);
        returned
    }

    /// The same in two runs, cut anywhere.
    pub fn run_cut(&mut self, case: &mut Case, random: &mut Random, states: &[u8]) {
        let cut = random.between(0, states.len());
        self.run(case, &states[..cut]);
        self.run(case, &states[cut..]);
    }

    /// Sets a fault flag.
    pub fn set_fault(&mut self, case: &mut Case, device: usize, kind: u8, flag: bool) {
        let found = ffi::set_fault(&mut self.library, device, kind, u8::from(flag));
        let expected = model::chain::set_fault(&mut self.model, device, kind, flag);
        self.answered(case, "set fault", found, expected.err().unwrap_or(0));
    }

    /// A device, numbered from 1, has another watchdog.
    pub fn set_watch(&mut self, number: usize, watch: Watch) {
        for chain in [&mut self.library, &mut self.model] {
            chain[number - 1].registers.watch = watch;
        }
    }

    /// Brings a device, numbered from 1, to the position from which a boundary falls after so many clocks.
    pub fn bring(&mut self, number: usize, clocks: u64) {
        for chain in [&mut self.library, &mut self.model] {
            let r = &mut chain[number - 1].registers;
            r.position = frame_clocks(r) - clocks;
        }
    }

    /// Leaves clocks out that reach no boundary: each device comes to a position shortly before its own.
    pub fn skip(&mut self, random: &mut Random) {
        for number in 1..=self.model.len() {
            let r = &self.model[number - 1].registers;
            let left = frame_clocks(r) - r.position;
            let most = random.pick(&[3, 2000]);
            self.bring(number, random.between(1, most.min(left as usize)) as u64);
        }
    }

    fn answered(&self, case: &mut Case, what: &str, found: u8, expected: u8) {
        case.same(what, found, expected);
        case.same(what, &self.library, &self.model);
        case.reach(found);
    }
}

/// Clocks of a device's frame.
pub fn frame_clocks(r: &record::Registers) -> u64 {
    let part = Part::of(r.part).expect("a part's number");
    part.frame_clocks(r.configuration)
}
