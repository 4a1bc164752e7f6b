//! A set against a chain: judged, then compared device by device.

use crate::chain::judge_parts;
use crate::device::all_fit;
use crate::part::{banks, is_known, values};
use crate::sets::{lists_fit, settings_fit};
use crate::Refusal;
use record::{Device, Registers, Set};

/// The first difference: device from 1, group (1 configuration, 2 calibration, 3 active global, 4 active individual),
/// place.
pub type Difference = (usize, u8, usize);

/// The first difference, or none: value by value, up to the first that differs.
pub fn compare(set: &Set, chain: &[Device]) -> Result<Option<Difference>, Refusal> {
    compare_by(first_in_turn, set, chain)
}

/// The same with a quick pass over the values of a multiplexed device that tells whether any differs at all.
pub fn compare_quickly(set: &Set, chain: &[Device]) -> Result<Option<Difference>, Refusal> {
    compare_by(first_in_pairs, set, chain)
}

/// Where the MUX0 and MUX1 values of a device first differ from a set's.
type InTurns = fn(&Registers, &[u16]) -> Option<usize>;

#[inline(always)]
fn compare_by(
    in_turns: InTurns,
    set: &Set,
    chain: &[Device],
) -> Result<Option<Difference>, Refusal> {
    judge(set, chain)?;
    Ok(match banks(set.part) {
        2 => first_of_banks::<2>(in_turns, set, chain),
        _ => first_of_banks::<3>(in_turns, set, chain),
    })
}

/// The first difference of a judged set and chain of a part with so many banks.
#[inline(always)]
fn first_of_banks<const BANKS: usize>(
    in_turns: InTurns,
    set: &Set,
    chain: &[Device],
) -> Option<Difference> {
    let calibration = set.calibration.chunks_exact(BANKS);
    let individual = set
        .individual
        .chunks_exact(values(set.part, set.configuration));
    for (k, (device, (calibration, individual))) in
        chain.iter().zip(calibration.zip(individual)).enumerate()
    {
        let r = &device.registers;
        if let Some((group, place)) = first_difference(in_turns, set, r, calibration, individual) {
            return Some((k + 1, group, place));
        }
    }
    None
}

fn judge(set: &Set, chain: &[Device]) -> Result<(), Refusal> {
    let of_chain = judge_parts(chain).err().unwrap_or(0);
    if !is_known(set.part) || of_chain == 1 {
        return Err(1);
    }
    if set.devices == 0 || set.devices > 1023 || of_chain == 2 {
        return Err(2);
    }
    if !lists_fit(set)
        || chain.len() != set.devices
        || of_chain == 4
        || chain[0].registers.part != set.part
    {
        return Err(4);
    }
    if !settings_fit(set) {
        return Err(6);
    }
    if all_fit(chain) {
        Ok(())
    } else {
        Err(13)
    }
}

#[inline(always)]
fn first_difference(
    in_turns: InTurns,
    set: &Set,
    r: &Registers,
    calibration: &[u8],
    individual: &[u16],
) -> Option<(u8, usize)> {
    if r.configuration != set.configuration {
        return Some((1, 0));
    }
    if let Some(place) = first_other(calibration, &r.calibration) {
        return Some((2, place));
    }
    if r.active != set.global {
        return Some((3, 0));
    }
    let place = if set.configuration & 1 == 0 {
        first_other(individual, &r.active0)
    } else {
        in_turns(r, individual)
    };
    Some((4, place?))
}

/// Where a device's share of a list first differs from what is held.
#[inline]
fn first_other<T: PartialEq>(share: &[T], held: &[T]) -> Option<usize> {
    share.iter().zip(held).position(|(a, b)| a != b)
}

/// MUX0 and MUX1 values in turn, up to the first that differs.
fn first_in_turn(r: &Registers, individual: &[u16]) -> Option<usize> {
    for (k, ((pair, v0), v1)) in individual
        .chunks_exact(2)
        .zip(&r.active0)
        .zip(&r.active1)
        .enumerate()
    {
        if pair[0] != *v0 {
            return Some(2 * k);
        }
        if pair[1] != *v1 {
            return Some(2 * k + 1);
        }
    }
    None
}

/// MUX0 and MUX1 values in turn: a quick pass that tells whether any differs, and then where.
fn first_in_pairs(r: &Registers, individual: &[u16]) -> Option<usize> {
    let mut differ = 0;
    for ((pair, v0), v1) in individual.chunks_exact(2).zip(&r.active0).zip(&r.active1) {
        differ |= (pair[0] ^ v0) | (pair[1] ^ v1);
    }
    if differ == 0 {
        return None;
    }
    let held = |k: usize| [r.active0, r.active1][k % 2][k / 2];
    (0..individual.len()).find(|&k| held(k) != individual[k])
}
