//! Is it running? A set against a chain.

use crate::chain::{devices_of, judge_parts};
use crate::device::Device;
use crate::part::{multiplexed, Part};
use crate::set::Set;
use crate::{refuse, Refusal};

/// What differs, in the order of comparison.
#[derive(Clone, Copy, Debug, PartialEq, Eq)]
pub enum Group {
    /// The configuration byte.
    Configuration,
    /// A calibration byte.
    Calibration,
    /// The global byte in use.
    ActiveGlobal,
    /// An individual value in use.
    ActiveIndividual,
}

/// A difference.
#[derive(Clone, Copy, Debug, PartialEq, Eq)]
pub struct Difference {
    /// The device's number, from 1.
    pub device: usize,
    /// The group.
    pub group: Group,
    /// The place in the device's slice, from 0.
    pub place: usize,
}

/// The first difference, or none.
pub fn compare(set: &Set, records: &[record::Device]) -> Result<Option<Difference>, Refusal> {
    judge(set, records)?;
    let devices = devices_of(records)?;
    Ok((1..)
        .zip(&devices)
        .find_map(|(number, device)| first_difference(set, number, device)))
}

/// The set and the chain are refused under one table: the lowest number of either.
fn judge(set: &Set, records: &[record::Device]) -> Result<(), Refusal> {
    let part = Part::of(set.part)?;
    let chain = judge_parts(records);
    refuse(1, chain == Err(1))?;
    refuse(2, !(1..=1023).contains(&set.devices) || chain == Err(2))?;
    let chain_differs = records.len() != set.devices || chain != Ok(part);
    refuse(4, set.has_other_length(part) || chain_differs)?;
    refuse(6, set.is_out_of_range(part))
}

fn first_difference(set: &Set, number: usize, device: &Device) -> Option<Difference> {
    let found = |group, place| {
        Some(Difference {
            device: number,
            group,
            place,
        })
    };
    if device.configuration != set.configuration {
        return found(Group::Configuration, 0);
    }
    let calibration = set.calibration_of(number);
    if let Some(place) = (0..calibration.len()).find(|&k| device.calibration[k] != calibration[k]) {
        return found(Group::Calibration, place);
    }
    if device.active_global != set.global {
        return found(Group::ActiveGlobal, 0);
    }
    let individual = set.individual_of(number);
    let held = |place: usize| match multiplexed(set.configuration) {
        true => device.active[place % 2][place / 2],
        false => device.active[0][place],
    };
    let place = (0..individual.len()).find(|&k| held(k) != individual[k])?;
    found(Group::ActiveIndividual, place)
}
