//! Where load rises in a frame: on the first command bit, or a clock early or late.

use crate::bits::bits_of;
use crate::frame::SYNC;
use crate::Refusal;

/// A rising edge of load.
#[derive(Clone, Copy, Debug, PartialEq, Eq)]
pub enum Edge {
    /// With the last bit of SYNC.
    Early,
    /// With the first command bit: what every device sends on.
    Exact,
    /// With the second command bit.
    Late,
}

impl Edge {
    /// The three edges, by their numbers.
    pub const ALL: [Edge; 3] = [Edge::Early, Edge::Exact, Edge::Late];

    /// The edge of a number, or 13.
    pub fn of(number: u8) -> Result<Edge, Refusal> {
        Edge::ALL.get(usize::from(number)).copied().ok_or(13)
    }

    /// Its number.
    pub fn number(self) -> u8 {
        self as u8
    }

    /// Bits of a frame before it, at low load.
    pub fn low_bits(self) -> usize {
        match self {
            Edge::Early => 7,
            Edge::Exact => 8,
            Edge::Late => 9,
        }
    }

    /// The edge that load rises with, after the bits of an unbroken run of low clocks and with a first high bit; and
    /// the command bits that a device has then.
    pub fn read(low: &[bool], first: bool) -> Option<(Edge, Vec<bool>)> {
        let fits = |edge: Edge| Some((edge, edge.command_bits(low, first)?));
        Edge::ALL.into_iter().find_map(fits)
    }

    /// The command bits so far, where the low bits and the first high bit fit this edge.
    pub fn command_bits(self, low: &[bool], first: bool) -> Option<Vec<bool>> {
        let sync = bits_of(8, SYNC);
        match self {
            Edge::Early => (low.ends_with(&sync[..7]) && first == sync[7]).then(Vec::new),
            Edge::Exact => low.ends_with(&sync).then(|| vec![first]),
            Edge::Late => {
                let (&command, before) = low.split_last()?;
                before.ends_with(&sync).then(|| vec![command, first])
            }
        }
    }
}
