//! The watchdog: two lines that a device watches, each by itself.

use crate::{refuse, Refusal};

/// The most clocks of a limit, and where a count stops.
pub const MOST: u64 = 2_000_000;

/// A line: where it stands, and for how many clocks it has not changed.
#[derive(Clone, Debug, PartialEq, Eq)]
pub struct Line {
    /// High.
    pub level: bool,
    /// The count.
    pub count: u64,
}

/// A watchdog whose numbers are in range.
#[derive(Clone, Debug, PartialEq, Eq)]
pub struct Watch {
    /// The number of the configuration bit that enables it.
    pub bit: u8,
    /// The limit of both counts.
    pub limit: u32,
    /// The data line.
    pub data: Line,
    /// The load line.
    pub load: Line,
}

/// A configuration bit that means nothing else: not D0, multiplex, and not D4, GLB4.
pub fn is_bit(bit: u8) -> bool {
    [1, 2, 3, 5, 6, 7].contains(&bit)
}

/// A limit in range.
pub fn is_limit(limit: u32) -> bool {
    limit >= 1 && u64::from(limit) <= MOST
}

impl Watch {
    /// The watchdog that a record holds; 13 where a number is out of range.
    pub fn of_record(watch: &record::Watch) -> Result<Watch, Refusal> {
        refuse(13, !is_bit(watch.bit) || !is_limit(watch.limit))?;
        Ok(Watch {
            bit: watch.bit,
            limit: watch.limit,
            data: Line::of_record(&watch.din)?,
            load: Line::of_record(&watch.loadi)?,
        })
    }

    /// The record of a watchdog.
    pub fn to_record(&self) -> record::Watch {
        record::Watch {
            din: self.data.to_record(),
            loadi: self.load.to_record(),
            limit: self.limit,
            bit: self.bit,
        }
    }

    /// A clock ends in which the device was sent these states, and it holds this configuration: whether the watchdog
    /// has expired.
    pub fn end_clock(&mut self, sent: &[u8], configuration: u8) -> bool {
        let is_enabled = configuration >> self.bit & 1 == 1;
        let data = sent.iter().map(|state| state & 1 == 1);
        let load = sent.iter().map(|state| state & 2 == 2);
        self.data.end_clock(data, is_enabled);
        self.load.end_clock(load, is_enabled);
        self.data.count.max(self.load.count) >= u64::from(self.limit)
    }
}

impl Line {
    fn of_record(line: &record::Line) -> Result<Line, Refusal> {
        refuse(13, line.level > 1 || line.still > MOST)?;
        Ok(Line {
            level: line.level == 1,
            count: line.still,
        })
    }

    fn to_record(&self) -> record::Line {
        record::Line {
            still: self.count,
            level: u8::from(self.level),
        }
    }

    /// The level follows what was sent, also while the watchdog is not enabled. The count goes on where nothing changed.
    fn end_clock(&mut self, sent: impl Iterator<Item = bool>, is_enabled: bool) {
        let mut has_changed = false;
        for level in sent {
            has_changed |= level != self.level;
            self.level = level;
        }
        self.count = match (is_enabled, has_changed) {
            (true, false) => MOST.min(self.count + 1),
            _ => 0,
        };
    }
}
