//! docs/RULES.md, written out a second time.
//!
//! This model shares no code or definition with the proved library. The record's layout, its
//! slots and its phase numbers are those of include/bractbeacon.h, and so are the same on both sides of a differential
//! test. It is clear and slow: frames are lists of bits, a chain goes state by state and device by device, light is
//! counted, each watchdog looks at what its device was sent in each clock, and current is added up clock by clock. An operation answers a `Result`, with the refusal number as its
//! error, and a refused one changes nothing.

pub mod bits;
pub mod chain;
pub mod compare;
pub mod current;
pub mod device;
pub mod edge;
pub mod frame;
pub mod light;
pub mod part;
pub mod reader;
pub mod serial;
pub mod set;
pub mod watch;
pub mod writer;

/// A number of the table in docs/RULES.md, "Refusal numbers".
pub type Refusal = u8;

/// Refuses with a number where it applies. Tests stand in the table's order, so the lowest number is given.
pub fn refuse(number: Refusal, applies: bool) -> Result<(), Refusal> {
    if applies {
        Err(number)
    } else {
        Ok(())
    }
}
