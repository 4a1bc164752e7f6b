//! Random cases from fixed seeds: sets, tails, line states and device records, in order and damaged;
//! and the worked examples of the watchdog.

pub mod random;
pub mod records;
pub mod sets;
pub mod states;
pub mod watch;

pub use random::Random;
