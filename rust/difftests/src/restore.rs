//! A set's restore: its states, and what docs/RULES.md, "The three demands", says of it, held against the library in
//! these words.

use crate::frames::told_library;
use crate::pair::{frame_clocks, Pair};
use crate::tally::{Case, Events};
use cases::{sets, states, Random};
use model::edge::Edge;
use model::frame::{header, Tail};
use model::part::{multiplexed, slice_bits, Command, Part};
use model::serial::clocked;
use model::set::Set;
use record::{Device, Registers};

/// What is in use at a device after a cut: as its last boundary within the restore found it waiting.
pub const CUTS: Events = Events {
    title: "in use after a cut",
    names: &[
        "no boundary",
        "old global",
        "new global",
        "old values",
        "new values",
    ],
};

/// What the watchdog of a device did up to a cut, or to the end of a restore's wait, about the clock of the device's
/// individual slice.
pub const EXPIRIES: Events = Events {
    title: "values by the watchdog",
    names: &[
        "old, never expired",
        "0 in place of old",
        "new, never expired",
        "new, expired before their slice",
        "0 in place of new",
    ],
};

/// A set's restore.
pub struct Restore<'a> {
    set: &'a Set,
    part: Part,
    tails: [Tail; 4],
    /// All of its states.
    pub states: Vec<u8>,
    /// For each frame in order, where it begins in the states.
    begins: [usize; 4],
}

/// What a restore leaves in use.
pub const SHOWN: Events = Events {
    title: "restored",
    names: &["whole", "blank at a device that has expired"],
};

/// What an expiry leaves.
const BLANK: Phases = [[0; 24]; 2];

/// MUX0 and MUX1 values, as a record holds them.
type Phases = [[u16; 24]; 2];

/// The global byte, and MUX0 and MUX1 values.
type Values = (u8, Phases);

/// The waiting values of a device.
pub fn waiting(r: &Registers) -> Values {
    (r.waiting, [r.waiting0, r.waiting1])
}

/// The active values of a device, those of MUX1 also where D0 is 0.
pub fn active(r: &Registers) -> Values {
    (r.active, [r.active0, r.active1])
}

impl Restore<'_> {
    /// Four frames with any tails, each with any edge, low clocks before, between and after.
    pub fn new<'a>(random: &mut Random, set: &'a Set) -> Restore<'a> {
        let tails = [(); 4].map(|()| sets::tail(random));
        let mut states = states::gap(random);
        let mut begins = [0; 4];
        for (k, command) in Command::RESTORE.into_iter().enumerate() {
            begins[k] = states.len();
            let edge = random.pick(&Edge::ALL);
            states.extend(library_states(set, command, tails[k], edge));
            states.extend(states::gap(random));
        }
        Restore {
            set,
            part: Part::of(set.part).expect("a set in order"),
            tails,
            states,
            begins,
        }
    }

    /// For each frame in order, where the next one begins, or the states end.
    pub fn ends(&self) -> [usize; 4] {
        let [_, second, third, fourth] = self.begins;
        [second, third, fourth, self.states.len()]
    }

    /// After so many states the slice of a device in the k-th frame has fully arrived.
    pub fn arrival(&self, k: usize, number: usize) -> usize {
        let command = Command::RESTORE[k];
        let slice = slice_bits(command, self.part, self.set.configuration);
        self.begins[k] + 24 + number * slice
    }

    /// Each device comes to a position from which a boundary falls about the clock of one of its stores, with any state
    /// of the restore, or soon behind it.
    pub fn bring(&self, random: &mut Random, pair: &mut Pair) {
        for number in 1..=self.set.devices {
            let store = self.arrival(random.below(4), number);
            let any = random.between(1, self.states.len() + 99);
            let clock = random.pick(&[store - 1, store, store + 1, any]);
            pair.bring(number, clock as u64);
        }
    }

    /// What each frame returned: SYNC, the command three times, the number of devices whose flag of the frame's kind
    /// stands, the tail; with the exact edge, whichever was sent.
    pub fn are_returns(&self, case: &mut Case, faults: [u16; 2], returned: &[Vec<u8>; 4]) {
        for (k, command) in Command::RESTORE.into_iter().enumerate() {
            let count = faults[usize::from(command.counts_open_leds())];
            let bits = [header(command, count), self.tails[k].bits()].concat();
            case.same("returned states", &returned[k], &clocked(&bits));
            let mut bytes = vec![0; returned[k].len().div_ceil(8)];
            let packed = ffi::data_bytes(&returned[k], &mut bytes);
            let expected = model::bits::pack(&bits);
            case.same("return", (packed.refusal, &bytes), (0, &expected));
            let told = told_library(&self.set.told(command, self.tails[k]));
            let read = ffi::read_return(&told, &bytes);
            case.same("count", (read.refusal, read.value), (0, u64::from(count)));
        }
    }

    /// Every device's registers in use hold the values of its own slices, and what its part does not use holds 0; the
    /// comparison says so too. Where a watchdog has expired from the clock of its individual slice on, the values are 0.
    pub fn is_restored(&self, case: &mut Case, chain: &Pair) {
        let mut is_shown = true;
        for (number, device) in (1..).zip(&chain.library) {
            let r = &device.registers;
            case.same("configuration", r.configuration, self.set.configuration);
            let calibration = self.set.calibration_of(number);
            case.same("calibration", r.calibration, front(calibration));
            let (_, held) = active(r);
            let is_blank = chain.has_expired(number, self.arrival(3, number)..=chain.clocks());
            let phases = match is_blank {
                true => BLANK,
                false => loaded(self.set, number, held),
            };
            case.same("in use", active(r), (self.set.global, phases));
            is_shown &= !is_blank;
        }
        case.event(SHOWN.names[usize::from(!is_shown)]);
        if is_shown {
            let compared = ffi::compare(&self.set.lent(), &chain.library);
            case.same("compare", (compared.group, compared.refusal), (0, 0));
        }
    }

    /// After the first `cut` states each group is new where its slice has arrived, and old elsewhere. In use is what
    /// waited when the last boundary fell, before the state of that clock acted; where none fell, what was in use before.
    /// Individual values are 0 where the watchdog has expired since.
    pub fn is_cut(&self, case: &mut Case, old: &[Device], chain: &Pair, cut: usize) {
        for (number, (old, new)) in (1..).zip(old.iter().zip(&chain.library)) {
            let (old, new) = (&old.registers, &new.registers);
            let has_arrived = |k| cut >= self.arrival(k, number);
            let configuration = match has_arrived(0) {
                true => self.set.configuration,
                false => old.configuration,
            };
            case.same("cut: configuration", new.configuration, configuration);
            let calibration = match has_arrived(1) {
                true => front(self.set.calibration_of(number)),
                false => old.calibration,
            };
            case.same("cut: calibration", new.calibration, calibration);
            let expected = self.waiting_after(number, old, chain, cut);
            case.same("cut: waiting", waiting(new), expected);
            let (last, (global, mut phases)) = match self.last_boundary(number, old, cut) {
                None => (1, active(old)),
                Some(clock) => (clock, self.waiting_after(number, old, chain, clock - 1)),
            };
            if chain.has_expired(number, last..=cut) {
                phases = BLANK;
            }
            case.same("cut: active", active(new), (global, phases));
            self.count_cut(case, number, old, cut);
            self.count_expiries(case, number, chain, cut);
        }
    }

    /// What waits at a device after so many states.
    fn waiting_after(&self, number: usize, old: &Registers, chain: &Pair, states: usize) -> Values {
        let (mut global, mut phases) = waiting(old);
        if states >= self.arrival(2, number) {
            global = self.set.global;
        }
        let arrival = self.arrival(3, number);
        if chain.has_expired(number, 1..=states.min(arrival - 1)) {
            phases = BLANK;
        }
        if states >= arrival {
            phases = loaded(self.set, number, phases);
        }
        if chain.has_expired(number, arrival..=states) {
            phases = BLANK;
        }
        (global, phases)
    }

    /// Counts what the watchdog of a device did.
    fn count_expiries(&self, case: &mut Case, number: usize, chain: &Pair, cut: usize) {
        let arrival = self.arrival(3, number);
        let has_arrived = cut >= arrival;
        let before = chain.has_expired(number, 1..=cut.min(arrival - 1));
        let after = chain.has_expired(number, arrival..=cut);
        case.event(match (has_arrived, before, after) {
            (false, false, _) => "old, never expired",
            (false, true, _) => "0 in place of old",
            (true, false, false) => "new, never expired",
            (true, true, false) => "new, expired before their slice",
            (true, _, true) => "0 in place of new",
        });
    }

    /// The clock, from 1, of a device's last boundary within the first `cut` states.
    fn last_boundary(&self, number: usize, old: &Registers, cut: usize) -> Option<usize> {
        let (mut position, mut length) = (old.position, frame_clocks(old));
        let mut last = None;
        for clock in 1..=cut {
            position = (position + 1) % length;
            if position == 0 {
                last = Some(clock);
            }
            if clock == self.arrival(0, number) {
                length = self.part.frame_clocks(self.set.configuration);
                position %= length;
            }
        }
        last
    }

    fn count_cut(&self, case: &mut Case, number: usize, old: &Registers, cut: usize) {
        let Some(clock) = self.last_boundary(number, old, cut) else {
            return case.event("no boundary");
        };
        let is_new = |k| clock > self.arrival(k, number);
        case.event(if is_new(2) {
            "new global"
        } else {
            "old global"
        });
        case.event(if is_new(3) {
            "new values"
        } else {
            "old values"
        });
    }
}

/// MUX0 and MUX1 values of a device, once its individual slice is stored over those that are held.
pub fn loaded(set: &Set, number: usize, held: Phases) -> Phases {
    let values = set.individual_of(number);
    if !multiplexed(set.configuration) {
        return [front(values), held[1]];
    }
    let phase = |k: usize| -> Vec<u16> { values.iter().copied().skip(k).step_by(2).collect() };
    [front(&phase(0)), front(&phase(1))]
}

/// A record's list with values in use at its front, and 0 behind.
fn front<T: Copy + Default, const N: usize>(values: &[T]) -> [T; N] {
    std::array::from_fn(|k| values.get(k).copied().unwrap_or_default())
}

/// A frame's states by the library's own way: written, and put on the wire with an edge.
pub fn library_states(set: &Set, command: Command, tail: Tail, edge: Edge) -> Vec<u8> {
    let given = set.given(command);
    let told = told_library(&set.told(command, tail));
    let slice = ffi::slice_bits(command.code(), set.part, set.configuration).value as usize;
    let bits = 24 + set.devices * slice + tail.length as usize;
    let mut frame = vec![0; bits.div_ceil(8)];
    let written = ffi::write(
        &told,
        given.byte,
        given.calibration,
        given.individual,
        &mut frame,
    );
    assert_eq!(written.refusal, 0, "a set in order is written");
    let mut states = vec![0; bits];
    let answer = ffi::states(&frame, bits, edge.number(), &mut states);
    assert_eq!(answer.refusal, 0, "a written frame has states");
    states
}
