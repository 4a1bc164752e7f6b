//! What is judged of a set whose part is known and whose devices are 1 to 1023.

use crate::part::{banks, subframes, values, width};
use record::Set;

/// Whether both lists are as long as the shares of its devices.
#[inline]
pub fn lists_fit(set: &Set) -> bool {
    set.calibration.len() == banks(set.part) * set.devices
        && set.individual.len() == values(set.part, set.configuration) * set.devices
}

/// Whether the global byte and all values are in range: one pass without a branch, for all values have one width.
#[inline]
pub fn settings_fit(set: &Set) -> bool {
    let all = set.individual.iter().fold(0, |all, &value| all | value);
    let limit = subframes(set.part, set.configuration);
    u16::from(set.global) < limit && all >> width(set.part) == 0
}
