//! Load that rises a clock early or late: the worked examples 2a to 2i, that no history fits two edges, and frames on
//! the wire.

mod common;

use common::wait;
use model::bits::{bits_of, pack};
use model::chain;
use model::edge::Edge;
use model::frame::{header, Tail};
use model::part::Command;
use model::serial::{clocked, state, states_of_frame};
use model::set::Set;
use record::{Device, Place};

/// The line states of a history: runs of data bits, each behind `L` or `H` for the load that they are at.
fn line(history: &str) -> Vec<u8> {
    let mut high = false;
    let mut states = vec![];
    for sign in history.chars() {
        match sign {
            'L' => high = false,
            'H' => high = true,
            '0' | '1' => states.push(state(high, sign == '1')),
            _ => {}
        }
    }
    states
}

/// Where a fresh device stands after a history. It sends nothing.
fn place(history: &str) -> Place {
    let mut devices = [Device::fresh(6974)];
    let sent = chain::run(&mut devices, &line(history), 100).unwrap();
    assert_eq!(sent, []);
    devices[0].place
}

const LOST: Place = Place::of(record::LOST);

/// In the header with command bits so far, behind a leading one.
fn opening(read: u16) -> Place {
    Place {
        read,
        ..Place::of(record::OPENING)
    }
}

/// Early, but the first high bit is not the last of SYNC.
#[test]
fn example_2a() {
    assert_eq!(place("L1110100 H1"), LOST);
}

/// Seven low clocks are enough for the early edge: a frame right behind another has no more.
#[test]
fn example_2b() {
    assert_eq!(place("H0 L1110100 H0"), opening(0b1));
}

#[test]
fn example_2c() {
    assert_eq!(place("L11101000 L1 H0"), opening(0b1_10));
}

/// Two clocks late.
#[test]
fn example_2d() {
    assert_eq!(place("L11101000 L1 L1 H1"), LOST);
}

/// A high clock within SYNC.
#[test]
fn example_2e() {
    assert_eq!(place("L111 H0 L0100 H0"), LOST);
}

/// SYNC's first bit is not there.
#[test]
fn example_2f() {
    assert_eq!(place("L0 L1101000 L1 H1"), LOST);
}

/// A set of two devices.
fn set() -> Set {
    Set {
        part: 6974,
        devices: 2,
        configuration: 0,
        calibration: vec![1, 2, 3, 4, 5, 6],
        global: 96,
        individual: (1..=48).collect(),
    }
}

/// Each slice is stored with its last bit, whatever the edge.
#[test]
fn example_2g() {
    for edge in Edge::ALL {
        let states = set().states_with(edge, Command::Calibration, Tail::default());
        let states = states.unwrap();
        assert_eq!(states.len(), 72);
        for cut in 0..=72 {
            let mut devices = [Device::fresh(6974); 2];
            chain::run(&mut devices, &states[..cut], 100).unwrap();
            let first = if cut < 48 { [0; 3] } else { [1, 2, 3] };
            let second = if cut < 72 { [0; 3] } else { [4, 5, 6] };
            let held = devices.map(|device| device.registers.calibration);
            assert_eq!(held, [first, second]);
        }
    }
}

/// A one before SYNC loses nothing.
#[test]
fn example_2h() {
    assert_eq!(place("L1 L11101000 H1"), opening(0b1_1));
}

/// What a device sends on has SYNC at low load and the rest at high, whatever the edge.
#[test]
fn example_2i() {
    let tail = Tail {
        number: 0xA5,
        length: 8,
    };
    let header = header(Command::Calibration, 0);
    let slice = bits_of(24, 0x04_05_06);
    let expected = clocked(&[header, slice, tail.bits()].concat());
    assert!(expected[..8].iter().all(|&state| state < 2));
    assert!(expected[8..].iter().all(|&state| state > 1));
    for edge in Edge::ALL {
        let states = set().states_with(edge, Command::Calibration, tail).unwrap();
        let mut devices = [Device::fresh(6974)];
        let sent = chain::run(&mut devices, &states, 103).unwrap();
        assert_eq!(sent, expected);
    }
}

/// Every run of up to twelve low clocks, and both first high bits.
#[test]
fn no_history_fits_two_edges() {
    let mut times = [0; 3];
    for length in 0..=12 {
        for number in 0..1 << length {
            let low = bits_of(length, number);
            for first in [false, true] {
                let fits = Edge::ALL.map(|edge| edge.command_bits(&low, first).is_some());
                assert!(fits.iter().filter(|&&fit| fit).count() < 2);
                for (count, fit) in times.iter_mut().zip(fits) {
                    *count += u32::from(fit);
                }
            }
        }
    }
    // Early: the bits before SYNC. Exact: these and the first high bit. Late: the first command bit as well.
    assert_eq!(times, [63, 2 * 31, 2 * 2 * 15]);
}

/// Any low clocks before a frame, among them those that end like SYNC, leave its edge what it is.
#[test]
fn low_clocks_before_a_frame_lose_nothing() {
    for edge in Edge::ALL {
        let states = set().states_with(edge, Command::Global, Tail::default());
        let states = states.unwrap();
        for number in 0..1 << 9 {
            let gap = bits_of(9, number).into_iter().map(|bit| state(false, bit));
            let states: Vec<u8> = gap.chain(states.iter().copied()).collect();
            let mut devices = [Device::fresh(6974); 2];
            let sent = chain::run(&mut devices, &states, 104).unwrap();
            assert_eq!(sent, clocked(&header(Command::Global, 0)));
            assert_eq!(devices.map(|device| device.registers.waiting), [96; 2]);
        }
    }
}

/// Four frames, each with an edge of its own and with no clock between them.
#[test]
fn frames_back_to_back_with_any_edges() {
    for choice in 0..81usize {
        let edges = [1, 3, 9, 27].map(|power| Edge::ALL[choice / power % 3]);
        let states: Vec<u8> = Command::RESTORE
            .into_iter()
            .zip(edges)
            .flat_map(|(command, edge)| set().states_with(edge, command, Tail::default()).unwrap())
            .collect();
        let mut devices = [Device::fresh(6974); 2];
        for device in &mut devices {
            device.registers.position = 524_288 - states.len() as u64 - 1;
        }
        chain::run(&mut devices, &states, states.len() + 23).unwrap();
        wait(&mut devices);
        assert_eq!(model::compare::compare(&set(), &devices), Ok(None));
    }
}

/// The record keeps nine bits, so that a run may be cut anywhere.
#[test]
fn runs_cut_anywhere() {
    for history in ["L11110100 H0", "L111101000 H1", "L0011101000 L1 H1"] {
        let states = line(history);
        for cut in 0..=states.len() {
            let mut devices = [Device::fresh(6974)];
            chain::run(&mut devices, &states[..cut], 100).unwrap();
            chain::run(&mut devices, &states[cut..], 100).unwrap();
            assert_eq!(devices[0].place, place(history));
            assert_eq!(devices[0].place.phase, record::OPENING);
        }
    }
}

#[test]
fn states_of_a_frame() {
    let states = |edge| states_of_frame(&[0xE8, 0xC0], 10, edge, 10);
    assert_eq!(states(0), Ok(line("L1110100 H011")));
    assert_eq!(states(1), Ok(line("L11101000 H11")));
    assert_eq!(states(2), Ok(line("L111010001 H1")));
    for edge in 3..=255 {
        assert_eq!(states(edge), Err(13));
        assert_eq!(states_of_frame(&[0xE8], 10, edge, 10), Err(4));
        assert_eq!(states_of_frame(&[0xE8, 0xC0], 10, edge, 9), Err(5));
        assert_eq!(states_of_frame(&[], 0, edge, 0), Err(13));
    }
}

/// A frame that ends before its edge is all at low load.
#[test]
fn states_of_a_short_frame() {
    for edge in Edge::ALL {
        for length in 0..=edge.low_bits() {
            let bits = &bits_of(9, 0x1D1)[..length];
            let low: Vec<u8> = bits.iter().map(|&bit| u8::from(bit)).collect();
            let states = states_of_frame(&pack(bits), length, edge.number(), length);
            assert_eq!(states, Ok(low));
        }
    }
}
