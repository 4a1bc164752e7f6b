//! A set: the settings of a whole sign.

use crate::edge::Edge;
use crate::frame::{frame_bits, Tail, Told};
use crate::part::{slice_fields, Command, Part};
use crate::serial::states_of_frame;
use crate::writer::{write, Given};
use crate::{refuse, Refusal};
use std::ops::Range;

/// The settings of a sign. Any numbers may stand here.
#[derive(Clone, Debug)]
pub struct Set {
    /// The part's number.
    pub part: u16,
    /// N.
    pub devices: usize,
    /// One configuration byte.
    pub configuration: u8,
    /// A byte for each bank of each device: Z, Y, or B, G, R.
    pub calibration: Vec<u8>,
    /// One global byte.
    pub global: u8,
    /// A value for each output of each device; multiplexed, two.
    pub individual: Vec<u16>,
}

impl Set {
    /// A set of a part that is known, whose bytes and values are 0 but for the configuration.
    pub fn zeros(part: u16, devices: usize, configuration: u8) -> Set {
        let known = Part::of(part).expect("the part is known");
        Set {
            part,
            devices,
            configuration,
            calibration: vec![0; known.banks() * devices],
            global: 0,
            individual: vec![0; known.values(configuration) * devices],
        }
    }

    /// Numbers 1, 2, 4 and 6, as its four frames are refused.
    pub fn judge(&self) -> Result<Part, Refusal> {
        let part = Part::of(self.part)?;
        refuse(2, !(1..=1023).contains(&self.devices))?;
        refuse(4, self.has_other_length(part))?;
        refuse(6, self.is_out_of_range(part))?;
        Ok(part)
    }

    /// Whether a list has another length than its rule says.
    pub fn has_other_length(&self, part: Part) -> bool {
        self.calibration.len() != self.devices * part.banks()
            || self.individual.len() != self.devices * part.values(self.configuration)
    }

    /// Whether the global byte or an individual value is out of range.
    pub fn is_out_of_range(&self, part: Part) -> bool {
        u32::from(self.global) >= part.subframes(self.configuration)
            || self.individual.iter().any(|&value| !part.holds(value))
    }

    /// The set as it is lent to the library and to the baseline.
    pub fn lent(&self) -> record::Set<'_> {
        record::Set {
            part: self.part,
            devices: self.devices,
            configuration: self.configuration,
            calibration: &self.calibration,
            global: self.global,
            individual: &self.individual,
        }
    }

    /// What the writer is told for one of the set's frames.
    pub fn told(&self, command: Command, tail: Tail) -> Told {
        Told {
            part: self.part,
            devices: self.devices,
            command,
            configuration: self.configuration,
            tail,
        }
    }

    /// What the writer is given for one of the set's frames.
    pub fn given(&self, command: Command) -> Given<'_> {
        Given {
            byte: match command {
                Command::Global => self.global,
                _ => self.configuration,
            },
            calibration: &self.calibration,
            individual: &self.individual,
        }
    }

    /// The line states of one frame, with the exact edge.
    pub fn states(&self, command: Command, tail: Tail) -> Result<Vec<u8>, Refusal> {
        self.states_with(Edge::Exact, command, tail)
    }

    /// The line states of one frame, with an edge.
    pub fn states_with(
        &self,
        edge: Edge,
        command: Command,
        tail: Tail,
    ) -> Result<Vec<u8>, Refusal> {
        let told = self.told(command, tail);
        let frame = write(&told, &self.given(command), usize::MAX)?;
        let bits = frame_bits(&told, Part::of(self.part)?);
        states_of_frame(&frame, bits, edge.number(), usize::MAX)
    }

    /// Where one device's own share of a command's list stands, in a set in order; devices are numbered from 1.
    fn share(&self, command: Command, device: usize) -> Range<usize> {
        let part = Part::of(self.part).expect("a set in order");
        let n = slice_fields(command, part, self.configuration);
        (device - 1) * n..device * n
    }

    /// The values of one device, numbered from 1, in the order of its slice.
    pub fn individual_of(&self, device: usize) -> &[u16] {
        &self.individual[self.share(Command::Individual, device)]
    }

    /// The calibration bytes of one device, numbered from 1.
    pub fn calibration_of(&self, device: usize) -> &[u8] {
        &self.calibration[self.share(Command::Calibration, device)]
    }
}
