//! Current: what a set draws, added up clock by clock.

use crate::light::{lit, Position};
use crate::part::{phases, Part};
use crate::set::Set;
use crate::{refuse, Refusal};

/// The clocks over which currents are added up and averaged.
const PERIOD: u32 = 524_288;

/// What is drawn over the period, in eighths of a microamp.
#[derive(Clone, Copy, Debug, PartialEq, Eq)]
pub struct Figure {
    /// The current of each clock, added up.
    pub total: u64,
    /// The total over the clocks, rounded down.
    pub average: u64,
    /// What the average leaves of the total.
    pub remainder: u64,
}

impl Figure {
    fn of(total: u64) -> Figure {
        Figure {
            total,
            average: total / u64::from(PERIOD),
            remainder: total % u64::from(PERIOD),
        }
    }
}

/// What a set draws.
#[derive(Clone, Debug, PartialEq, Eq)]
pub struct Current {
    /// All devices together.
    pub sign: Figure,
    /// Each device, device 1 first.
    pub devices: Vec<Figure>,
}

/// What a set draws, with room for so many numbers.
pub fn current(set: &Set, room: usize) -> Result<Current, Refusal> {
    let part = judge(set, room)?;
    let totals: Vec<u64> = (1..=set.devices)
        .map(|device| Driver::of(set, part, device).drawn())
        .collect();
    Ok(Current {
        sign: Figure::of(totals.iter().sum()),
        devices: totals.into_iter().map(Figure::of).collect(),
    })
}

fn judge(set: &Set, room: usize) -> Result<Part, Refusal> {
    let part = Part::of(set.part)?;
    refuse(2, !(1..=1023).contains(&set.devices))?;
    refuse(4, set.has_other_length(part))?;
    refuse(5, room < 3 * set.devices)?;
    refuse(6, set.is_out_of_range(part))?;
    Ok(part)
}

/// One driver of a sign: its part, and what of a set in order is its own.
struct Driver<'a> {
    part: Part,
    configuration: u8,
    calibration: &'a [u8],
    global: u8,
    individual: &'a [u16],
}

impl Driver<'_> {
    /// The one with this number, from 1.
    fn of(set: &Set, part: Part, device: usize) -> Driver<'_> {
        Driver {
            part,
            configuration: set.configuration,
            calibration: set.calibration_of(device),
            global: set.global,
            individual: set.individual_of(device),
        }
    }

    /// What it draws: at every clock, frame after frame, until the period is over.
    fn drawn(&self) -> u64 {
        let (mut total, mut clocks) = (0, 0);
        while clocks < PERIOD {
            for subframe in 0..self.part.subframes(self.configuration) {
                for phase in 0..phases(self.configuration) {
                    for clock in 0..self.part.clocks() {
                        total += self.drawn_at(subframe, clock, phase);
                        clocks += 1;
                    }
                }
            }
        }
        assert_eq!(clocks, PERIOD, "whole frames");
        total
    }

    /// What its outputs together draw at a clock.
    fn drawn_at(&self, subframe: u32, clock: u32, phase: u32) -> u64 {
        let at = |output| Position {
            output,
            subframe,
            clock,
            phase,
        };
        let outputs = 0..self.part.outputs() as u32;
        outputs.map(|output| self.sunk(at(output))).sum()
    }

    /// What one output sinks.
    fn sunk(&self, at: Position) -> u64 {
        let value = self.individual[(at.output * phases(self.configuration) + at.phase) as usize];
        if lit(self.part, self.configuration, self.global, value, at) {
            let byte = self.calibration[Part::bank_of(at.output)];
            self.part.sink_current(byte)
        } else {
            0
        }
    }
}
