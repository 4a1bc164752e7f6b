//! What a set draws, in closed form: judged, then one pass device by device.
//!
//! In an ON subframe of P clocks with edge zone e, an output with value v is lit at min(v, P - e) - e clocks, or at
//! none where v is not over e; even or odd, as many. So a bank's clocks are a sum over its values without a branch: in
//! eight 16-bit lanes, which hold two values of 14 bits each, and then over the lanes. The bank's current, and how many
//! ON subframes the period has, multiply the sum. There is one body for each number of banks and phases, so that loops
//! over a bank have a known length.

use crate::part::{banks, clocks, currents, edge_zone, is_known, subframes};
use crate::sets::{lists_fit, settings_fit};
use crate::Refusal;
use record::Set;

/// The clocks over which currents are added up.
const PERIOD: u64 = 524_288;

/// Outputs of a bank.
const BANK: usize = 8;

/// Total, average rounded down, and remainder.
pub type Figure = [u64; 3];

/// What the sign draws, and in front of `figures` what each device draws.
pub fn current(set: &Set, figures: &mut [u64]) -> Result<Figure, Refusal> {
    judge(set, figures.len())?;
    let drive = Drive::of(set);
    let total = match (banks(set.part), set.configuration & 1) {
        (2, 0) => write_figures::<2, BANK>(&drive, set, figures),
        (2, _) => write_figures::<2, { 2 * BANK }>(&drive, set, figures),
        (_, 0) => write_figures::<3, BANK>(&drive, set, figures),
        _ => write_figures::<3, { 2 * BANK }>(&drive, set, figures),
    };
    Ok(figure(total))
}

fn judge(set: &Set, room: usize) -> Result<(), Refusal> {
    if !is_known(set.part) {
        return Err(1);
    }
    if set.devices == 0 || set.devices > 1023 {
        return Err(2);
    }
    if !lists_fit(set) {
        return Err(4);
    }
    if room < 3 * set.devices {
        return Err(5);
    }
    if settings_fit(set) {
        Ok(())
    } else {
        Err(6)
    }
}

/// What is the same for every device of a sign.
struct Drive {
    /// The first clock behind one edge zone.
    edge: u16,
    /// The first clock of the other.
    end: u16,
    /// What a lit output sinks at calibration byte 0.
    least: u32,
    /// What each 1 of the calibration byte adds.
    step: u32,
    /// ON subframes in the period, each with all its phases.
    repeats: u64,
}

impl Drive {
    fn of(set: &Set) -> Drive {
        let (edge, clocks) = (edge_zone(set.part), clocks(set.part));
        let (least, step) = currents(set.part);
        let subframes = u64::from(subframes(set.part, set.configuration));
        let frame = (subframes * u64::from(clocks)) << (set.configuration & 1);
        Drive {
            edge,
            end: clocks - edge,
            least,
            step,
            repeats: PERIOD / frame * (u64::from(set.global) + 1),
        }
    }

    /// Clocks of an ON subframe at which the outputs of a bank are lit, added up.
    #[inline(always)]
    fn lit_clocks<const EACH: usize>(&self, values: &[u16; EACH]) -> u32 {
        let mut lanes = [0; BANK];
        for row in values.as_chunks::<BANK>().0 {
            for (lane, &value) in lanes.iter_mut().zip(row) {
                *lane += value.min(self.end).saturating_sub(self.edge);
            }
        }
        lanes.iter().map(|&lane: &u16| u32::from(lane)).sum()
    }

    #[inline(always)]
    fn sink(&self, calibration: u8) -> u32 {
        self.least + self.step * u32::from(calibration)
    }
}

/// The figures of each device, of a judged set with so many banks and values of a bank; their sum. Not inlined: among
/// its siblings the lanes are taken apart, and it takes twice as long.
#[inline(never)]
fn write_figures<const BANKS: usize, const EACH: usize>(
    drive: &Drive,
    set: &Set,
    figures: &mut [u64],
) -> u64 {
    let values = set.individual.as_chunks::<EACH>().0;
    let mut banks = set.calibration.iter().zip(values);
    let mut sum = 0;
    for out in &mut figures.as_chunks_mut::<3>().0[..set.devices] {
        let mut total = 0;
        for (&byte, values) in banks.by_ref().take(BANKS) {
            total += u64::from(drive.lit_clocks(values)) * u64::from(drive.sink(byte));
        }
        total *= drive.repeats;
        *out = figure(total);
        sum += total;
    }
    sum
}

#[inline]
fn figure(total: u64) -> Figure {
    [total, total / PERIOD, total % PERIOD]
}
