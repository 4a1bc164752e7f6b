//! Line states: data bit plus twice the load bit.

use crate::bits::{pack, unpack};
use crate::edge::Edge;
use crate::{refuse, Refusal};

/// A line state of a data bit at low or high load.
pub fn state(high: bool, bit: bool) -> u8 {
    u8::from(bit) + 2 * u8::from(high)
}

/// The clocks of a frame or a header with the exact edge: SYNC at low load and the rest at high.
pub fn clocked(bits: &[bool]) -> Vec<u8> {
    clocked_with(Edge::Exact, bits)
}

/// The clocks of a frame or a header with an edge: the bits before it at low load and the rest at high.
pub fn clocked_with(edge: Edge, bits: &[bool]) -> Vec<u8> {
    bits.iter()
        .enumerate()
        .map(|(k, &bit)| state(k >= edge.low_bits(), bit))
        .collect()
}

/// The line states of a packed frame of so many bits, sent with the edge of a number, for a list with room for `room`
/// states.
pub fn states_of_frame(
    frame: &[u8],
    bits: usize,
    edge: u8,
    room: usize,
) -> Result<Vec<u8>, Refusal> {
    refuse(4, frame.len() != bits.div_ceil(8))?;
    refuse(5, room < bits)?;
    let edge = Edge::of(edge)?;
    Ok(clocked_with(edge, &unpack(frame)[..bits]))
}

/// The data bits of line states, packed, for an output with room for `room` bytes.
pub fn data_bytes(states: &[u8], room: usize) -> Result<Vec<u8>, Refusal> {
    refuse(5, room < states.len().div_ceil(8))?;
    refuse(13, states.iter().any(|&s| s > 3))?;
    Ok(pack(
        &states.iter().map(|&s| s & 1 == 1).collect::<Vec<_>>(),
    ))
}
