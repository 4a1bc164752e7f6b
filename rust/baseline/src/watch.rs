//! The watchdog in place, many clocks at a time.
//!
//! While it is not enabled, a device's levels follow the last state that it was sent, and nothing else is looked at.
//! While it is, the last change of a line says where its count ends, and whether it came to the limit on the way is asked
//! at the places where it would. All devices that pass one stretch of high states on hear the end of the same stretch.

use record::{Line, Registers, Watch, MOST_STILL};

/// The data bit of a line state.
const DATA: u8 = 1;
/// Its load bit.
const LOAD: u8 = 2;

/// Whether all its numbers are in range.
#[inline]
pub fn fits(watch: &Watch) -> bool {
    let Watch {
        din,
        loadi,
        limit,
        bit,
    } = watch;
    is_told(*bit, *limit)
        && (din.level | loadi.level) < 2
        && din.still <= MOST_STILL
        && loadi.still <= MOST_STILL
}

/// Whether a chain can be told this bit and this limit.
#[inline]
pub fn is_told(bit: u8, limit: u32) -> bool {
    bit < 8 && 0b1110_1110 >> bit & 1 == 1 && limit.wrapping_sub(1) < MOST_STILL as u32
}

/// Whether the configuration enables it.
#[inline]
pub fn is_enabled(r: &Registers) -> bool {
    r.configuration >> r.watch.bit & 1 == 1
}

/// So many clocks in which the device is sent nothing.
#[inline]
pub fn idle(r: &mut Registers, clocks: usize) {
    if clocks == 0 {
        return;
    }
    if !is_enabled(r) {
        return stop(&mut r.watch);
    }
    r.watch.din.still += clocks as u64;
    r.watch.loadi.still += clocks as u64;
    settle(r);
}

/// A clock in which the device is sent a header, which changes both lines and ends at high load.
#[inline]
pub fn burst(r: &mut Registers, count: u16) {
    let level = (count & 1) as u8;
    (r.watch.din, r.watch.loadi) = (Line { still: 0, level }, Line { still: 0, level: 1 });
}

/// Clocks in each of which the device is sent one state.
pub fn hear(r: &mut Registers, states: &[u8]) {
    let Some(&last) = states.last() else {
        return;
    };
    if !is_enabled(r) {
        stop(&mut r.watch);
        return stand(&mut r.watch, last);
    }
    let (data, load) = (last_change(states, DATA), last_change(states, LOAD));
    let Watch { din, loadi, .. } = r.watch;
    follow(&mut r.watch.din, states, DATA, data);
    follow(&mut r.watch.loadi, states, LOAD, load);
    if !has_come_to_limit(&r.watch) {
        let limit = r.watch.limit as usize;
        if comes_to(din, states, DATA, limit) || comes_to(loadi, states, LOAD, limit) {
            clear(r);
        }
    }
    settle(r);
}

/// The same, where all states are at high load.
pub fn hear_highs(r: &mut Registers, states: &[u8]) {
    Stretch::end_of(states).heard_by(r, 0);
}

/// Where the last change of a line is among states, the first of which is none.
fn last_change(states: &[u8], bit: u8) -> Option<usize> {
    last_other(states, *states.last()?, bit).map(|before| before + 1)
}

/// The last of some states that has another bit than a state.
fn last_other(states: &[u8], than: u8, bit: u8) -> Option<usize> {
    const CHUNK: usize = 64;
    let mut end = states.len();
    while end >= CHUNK {
        let chunk = &states[end - CHUNK..end];
        if chunk.iter().fold(0, |all, state| all | (state ^ than)) & bit != 0 {
            break;
        }
        end -= CHUNK;
    }
    let is_other = |state: &u8| (state ^ than) & bit != 0;
    states[..end].iter().rposition(is_other)
}

/// A line at the end of states, of which the last change is known. The count may be over its most.
fn follow(line: &mut Line, states: &[u8], bit: u8, change: Option<usize>) {
    let level = |state: u8| u8::from(state & bit != 0);
    line.still = match change {
        Some(change) => (states.len() - 1 - change) as u64,
        None if level(states[0]) != line.level => states.len() as u64 - 1,
        None => line.still + states.len() as u64,
    };
    line.level = level(states[states.len() - 1]);
}

/// Whether the count of a line comes to a limit within states. Looked at is each place at which it would, and back from
/// there to a change.
fn comes_to(line: Line, states: &[u8], bit: u8, limit: usize) -> bool {
    let mut at = match u8::from(states[0] & bit != 0) == line.level {
        true => match limit.checked_sub(line.still as usize + 1) {
            Some(at) => at,
            None => return true,
        },
        false => limit,
    };
    let mut from = 0;
    while at < states.len() {
        match last_change(&states[from..=at], bit) {
            None => return true,
            Some(change) => {
                from += change;
                at = from + limit;
            }
        }
    }
    false
}

/// The load line is high for so many clocks.
#[inline]
fn hold_high(line: &mut Line, clocks: usize) {
    match line.level {
        1 => line.still += clocks as u64,
        _ => (line.level, line.still) = (1, clocks as u64 - 1),
    }
}

/// Not enabled: the counts are 0.
#[inline]
fn stop(watch: &mut Watch) {
    (watch.din.still, watch.loadi.still) = (0, 0);
}

/// The levels are those of a state.
#[inline]
fn stand(watch: &mut Watch, state: u8) {
    (watch.din.level, watch.loadi.level) = (state & 1, state >> 1);
}

/// Whether a count is at the limit or over it.
#[inline]
fn has_come_to_limit(watch: &Watch) -> bool {
    watch.din.still.max(watch.loadi.still) >= u64::from(watch.limit)
}

/// The clocks are over: an expiry clears the individual values, and the counts stop at their most.
#[inline]
fn settle(r: &mut Registers) {
    let has_expired = has_come_to_limit(&r.watch);
    r.watch.din.still = r.watch.din.still.min(MOST_STILL);
    r.watch.loadi.still = r.watch.loadi.still.min(MOST_STILL);
    if has_expired {
        clear(r);
    }
}

/// An expiry.
fn clear(r: &mut Registers) {
    for list in [
        &mut r.waiting0,
        &mut r.waiting1,
        &mut r.active0,
        &mut r.active1,
    ] {
        *list = [0; 24];
    }
}

/// A stretch of high states, of which devices hear the end: its last change of the data line, as far as it was looked for.
pub struct Stretch<'a> {
    states: &'a [u8],
    /// Where the looking began.
    from: usize,
    last: Option<usize>,
}

impl<'a> Stretch<'a> {
    /// The end of the states, which are all at high load from where it is heard on.
    pub fn end_of(states: &'a [u8]) -> Stretch<'a> {
        Stretch {
            states,
            from: states.len(),
            last: None,
        }
    }

    /// A device hears the states from `from` on; what was heard before began no earlier.
    pub fn heard_by(&mut self, r: &mut Registers, from: usize) {
        let heard = &self.states[from..];
        let Some(&last) = heard.last() else {
            return;
        };
        if !is_enabled(r) {
            stop(&mut r.watch);
            return stand(&mut r.watch, last);
        }
        if self.last.is_none() && from < self.from {
            let before = last_other(&self.states[from..self.from], last, DATA);
            self.last = before.map(|before| from + before + 1);
            self.from = from;
        }
        let change = self.last.filter(|&change| change > from);
        let before = r.watch.din;
        follow(&mut r.watch.din, heard, DATA, change.map(|at| at - from));
        hold_high(&mut r.watch.loadi, heard.len());
        // While load is high, data is seldom still for longer.
        let limit = r.watch.limit as usize;
        if !has_come_to_limit(&r.watch) && comes_to(before, heard, DATA, limit) {
            clear(r);
        }
        settle(r);
    }
}
