//! One device, clock by clock.

use crate::bits::{bits_of, number_of};
use crate::edge::Edge;
use crate::frame::header;
use crate::part::{field_width, multiplexed, slice_bits, Command, Part};
use crate::serial::clocked;
use crate::watch::Watch;
use crate::{refuse, Refusal};

/// Low bits that a record keeps.
const WINDOW: u32 = 9;

/// Where a device is in the frame.
#[derive(Clone, Debug, PartialEq, Eq)]
pub enum Phase {
    /// The bits of the low clocks since the last high one; of a record, the last nine of them.
    Hunting(Vec<bool>),
    /// The command bits so far.
    Opening(Vec<bool>),
    /// The command, and the count bits so far.
    Counting(Command, Vec<bool>),
    /// The command, the count, and how many bits of the slice are taken.
    Slice(Command, u16, usize),
    /// Every high state is sent on.
    Passing,
    /// High clocks are ignored.
    Lost,
}

/// A device whose numbers fit. Its lists have the record's lengths; what the part does not use of them holds 0.
#[derive(Clone, Debug, PartialEq, Eq)]
pub struct Device {
    /// The part.
    pub part: Part,
    /// A fault flag.
    pub overtemperature: bool,
    /// A fault flag.
    pub open_led: bool,
    /// The configuration byte.
    pub configuration: u8,
    /// A byte for each bank: Z, Y, or B, G, R.
    pub calibration: [u8; 3],
    /// The global byte that waits.
    pub waiting_global: u8,
    /// The global byte in use.
    pub active_global: u8,
    /// The values that wait, for MUX0 and MUX1.
    pub waiting: [[u16; 24]; 2],
    /// The values in use, for MUX0 and MUX1.
    pub active: [[u16; 24]; 2],
    /// The slice coming in, field by field.
    pub slots: [u16; 48],
    /// The position in the frame of light, in clocks.
    pub position: u64,
    /// The watchdog.
    pub watch: Watch,
    /// The phase.
    pub phase: Phase,
}

impl Device {
    /// The device that a record holds: 1 for its part, 13 where its numbers do not fit.
    pub fn of_record(record: &record::Device) -> Result<Device, Refusal> {
        let r = &record.registers;
        let part = Part::of(r.part)?;
        refuse(13, r.overtemperature > 1 || r.openled > 1)?;
        refuse(13, does_not_hold(part, r))?;
        refuse(13, r.position >= part.frame_clocks(r.configuration))?;
        Ok(Device {
            part,
            overtemperature: r.overtemperature == 1,
            open_led: r.openled == 1,
            configuration: r.configuration,
            calibration: r.calibration,
            waiting_global: r.waiting,
            active_global: r.active,
            waiting: [r.waiting0, r.waiting1],
            active: [r.active0, r.active1],
            slots: r.slice,
            position: r.position,
            watch: Watch::of_record(&r.watch)?,
            phase: phase_of(&record.place, part, r.configuration)?,
        })
    }

    /// The record of a device.
    pub fn to_record(&self) -> record::Device {
        record::Device {
            registers: record::Registers {
                part: self.part.number(),
                overtemperature: u8::from(self.overtemperature),
                openled: u8::from(self.open_led),
                configuration: self.configuration,
                calibration: self.calibration,
                waiting: self.waiting_global,
                active: self.active_global,
                waiting0: self.waiting[0],
                waiting1: self.waiting[1],
                active0: self.active[0],
                active1: self.active[1],
                slice: self.slots,
                position: self.position,
                watch: self.watch.to_record(),
            },
            place: place_of(&self.phase),
        }
    }

    /// A clock of the host begins. Where the position returns to 0, what waits becomes active: a boundary.
    pub fn advance(&mut self) {
        self.position = (self.position + 1) % self.frame_clocks();
        if self.position == 0 {
            self.active_global = self.waiting_global;
            self.active = self.waiting;
        }
    }

    /// A clock of the host ends, in which the device was sent these states. Where its watchdog has then expired, the
    /// individual values become 0, those that wait and those in use, of MUX0 and MUX1; whether it has.
    pub fn watch(&mut self, sent: &[u8]) -> bool {
        let has_expired = self.watch.end_clock(sent, self.configuration);
        if has_expired {
            self.waiting = [[0; 24]; 2];
            self.active = [[0; 24]; 2];
        }
        has_expired
    }

    /// Clocks of its frame of light.
    pub fn frame_clocks(&self) -> u64 {
        self.part.frame_clocks(self.configuration)
    }

    /// One line state in, 0 to 3: the states sent on. It does not advance, and it does not watch.
    pub fn step(&mut self, state: u8) -> Vec<u8> {
        let bit = state & 1 == 1;
        if state < 2 {
            self.low(bit);
            vec![]
        } else {
            self.high(bit, state)
        }
    }

    fn low(&mut self, bit: bool) {
        match &mut self.phase {
            Phase::Hunting(low) => low.push(bit),
            phase => *phase = Phase::Hunting(vec![bit]),
        }
    }

    fn high(&mut self, bit: bool, state: u8) -> Vec<u8> {
        self.phase = match self.phase.clone() {
            Phase::Hunting(low) => match Edge::read(&low, bit) {
                Some((_, command_bits)) => Phase::Opening(command_bits),
                None => Phase::Lost,
            },
            Phase::Opening(bits) => opened(joined(bits, bit)),
            Phase::Counting(command, bits) => counted(command, joined(bits, bit)),
            Phase::Slice(command, count, taken) => {
                return self.take(command, count, taken, bit);
            }
            Phase::Passing => return vec![state],
            Phase::Lost => Phase::Lost,
        };
        vec![]
    }

    /// One bit of the slice.
    fn take(&mut self, command: Command, count: u16, taken: usize, bit: bool) -> Vec<u8> {
        let width = field_width(command, self.part);
        let slot = &mut self.slots[taken / width as usize];
        *slot = ((u32::from(*slot) * 2 + u32::from(bit)) % (1 << width)) as u16;
        if taken + 1 < slice_bits(command, self.part, self.configuration) {
            self.phase = Phase::Slice(command, count, taken + 1);
            return vec![];
        }
        let count = (count + u16::from(self.has_fault(command))) % 1024;
        self.store(command);
        self.phase = Phase::Passing;
        clocked(&header(command, count))
    }

    fn has_fault(&self, command: Command) -> bool {
        if command.counts_open_leds() {
            self.open_led
        } else {
            self.overtemperature
        }
    }

    fn store(&mut self, command: Command) {
        let (banks, outputs) = (self.part.banks(), self.part.outputs());
        let bytes: Vec<u8> = self.slots[..banks].iter().map(|&slot| slot as u8).collect();
        let copies_agree = bytes.iter().all(|&byte| byte == bytes[0]);
        match command {
            Command::Individual if multiplexed(self.configuration) => {
                for output in 0..outputs {
                    self.waiting[0][output] = self.slots[2 * output];
                    self.waiting[1][output] = self.slots[2 * output + 1];
                }
            }
            Command::Individual => {
                self.waiting[0][..outputs].copy_from_slice(&self.slots[..outputs]);
            }
            Command::Calibration => self.calibration[..banks].copy_from_slice(&bytes),
            Command::Global if copies_agree => self.waiting_global = bytes[0],
            Command::Configuration if copies_agree => self.configure(bytes[0]),
            Command::Global | Command::Configuration => {}
        }
    }

    /// Where the frame becomes shorter, the position is taken into it. That is no boundary, also where it is then 0.
    fn configure(&mut self, configuration: u8) {
        let before = self.frame_clocks();
        self.configuration = configuration;
        let after = self.frame_clocks();
        if after < before {
            self.position %= after;
        }
    }
}

/// Whether a value or a slot is over the part's width, or a place that the part does not use holds anything.
fn does_not_hold(part: Part, r: &record::Registers) -> bool {
    let (banks, outputs) = (part.banks(), part.outputs());
    let is_wrong = |list: &[u16], used: usize| {
        let (front, behind) = list.split_at(used);
        front.iter().any(|&v| !part.holds(v)) || behind.iter().any(|&v| v != 0)
    };
    [r.waiting0, r.waiting1, r.active0, r.active1]
        .iter()
        .any(|list| is_wrong(list, outputs))
        || is_wrong(&r.slice, 2 * outputs)
        || r.calibration[banks..].iter().any(|&byte| byte != 0)
}

fn joined(mut bits: Vec<bool>, bit: bool) -> Vec<bool> {
    bits.push(bit);
    bits
}

/// After a command bit: at the sixth, the three pairs must agree.
fn opened(bits: Vec<bool>) -> Phase {
    if bits.len() < 6 {
        return Phase::Opening(bits);
    }
    if bits[0..2] != bits[2..4] || bits[0..2] != bits[4..6] {
        return Phase::Lost;
    }
    let command = Command::ALL[number_of(&bits[0..2]) as usize];
    Phase::Counting(command, vec![])
}

/// After a count bit: at the tenth, the slice begins.
fn counted(command: Command, bits: Vec<bool>) -> Phase {
    if bits.len() < 10 {
        return Phase::Counting(command, bits);
    }
    Phase::Slice(command, number_of(&bits) as u16, 0)
}

/// The phase of a record's place; 13 where its numbers fit none.
fn phase_of(place: &record::Place, part: Part, configuration: u8) -> Result<Phase, Refusal> {
    let record::Place {
        phase,
        command: code,
        count,
        read,
    } = *place;
    let command = Command::ALL.into_iter().find(|c| c.code() == code);
    match (phase, command, count, read) {
        (record::HUNTING, Some(Command::Individual), 0, 0..=511) => {
            Ok(Phase::Hunting(bits_of(WINDOW, u64::from(read))))
        }
        (record::OPENING, Some(Command::Individual), 0, 1..=63) => {
            Ok(Phase::Opening(bits_after_one(read)))
        }
        (record::COUNTING, Some(command), 0, 1..=1023) => {
            Ok(Phase::Counting(command, bits_after_one(read)))
        }
        (record::SLICE, Some(command), 0..=1023, _)
            if usize::from(read) < slice_bits(command, part, configuration) =>
        {
            Ok(Phase::Slice(command, count, usize::from(read)))
        }
        (record::PASSING, Some(Command::Individual), 0, 0) => Ok(Phase::Passing),
        (record::LOST, Some(Command::Individual), 0, 0) => Ok(Phase::Lost),
        _ => Err(13),
    }
}

/// The bits of a number after its leading one.
fn bits_after_one(number: u16) -> Vec<bool> {
    bits_of(number.ilog2(), u64::from(number))
}

/// A leading one and then the bits, as a number.
fn one_and(bits: &[bool]) -> u16 {
    (1 << bits.len()) + number_of(bits) as u16
}

/// The last low bits, as a number. SYNC begins with a one, so that no edge goes by zeros in front.
fn window(low: &[bool]) -> u16 {
    let kept = low.len().min(WINDOW as usize);
    number_of(&low[low.len() - kept..]) as u16
}

fn place_of(phase: &Phase) -> record::Place {
    let (phase, command, count, read) = match phase {
        Phase::Hunting(low) => (record::HUNTING, 0, 0, window(low)),
        Phase::Opening(bits) => (record::OPENING, 0, 0, one_and(bits)),
        Phase::Counting(command, bits) => (record::COUNTING, command.code(), 0, one_and(bits)),
        Phase::Slice(command, count, taken) => {
            (record::SLICE, command.code(), *count, *taken as u16)
        }
        Phase::Passing => (record::PASSING, 0, 0, 0),
        Phase::Lost => (record::LOST, 0, 0, 0),
    };
    record::Place {
        phase,
        command,
        count,
        read,
    }
}
