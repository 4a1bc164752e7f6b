//! Every baseline against the model, on random cases; packing and unpacking lists are in `ways.rs`. The four parts take
//! turns.

use baseline::way::{Way, FASTEST};
use baseline::writer::Told;
use baseline::{chain, compare, current, device, grouped, reader, writer};
use cases::{records, sets, states, Random};
use model::current::Figure;
use model::frame::Tail;
use model::part::{slice_bits, Command, Part};
use model::reader::Contents;
use model::set::Set;

const SEED: u64 = 0xBA5E;

/// The ways in which the benchmarks write and read frames.
const WAYS: [Way; 2] = [FASTEST, grouped::WAY];

fn told(set: &Set, command: Command, tail: Tail) -> Told {
    Told {
        part: set.part,
        devices: set.devices,
        command: command.code(),
        configuration: set.configuration,
        tail: tail.number,
        tail_length: tail.length,
    }
}

fn any_set(random: &mut Random, case: u64) -> Set {
    let devices = random.between(1, 5);
    sets::set(random, sets::part(case), devices)
}

#[test]
fn frames_written_and_read() {
    for case in 0..8000 {
        let random = &mut Random::of_case(SEED, case);
        let devices = random.between(1, 8);
        let mut set = sets::set(random, sets::part(case), devices);
        let (command, mut tail) = (random.pick(&Command::ALL), sets::tail(random));
        if random.one_in(8) {
            set.global = random.byte();
        }
        if random.one_in(8) {
            set.individual[0] = random.next() as u16;
        }
        if random.one_in(8) {
            tail.number = random.next();
        }
        let given = set.given(command);
        let room = random.pick(&[4, 5, 6, 2000, 2000, 2000]);
        let expected = model::writer::write(&set.told(command, tail), &given, room);
        for way in &WAYS {
            let mut out = vec![0x55; room];
            let written = writer::write_by(
                way,
                &told(&set, command, tail),
                given.byte,
                given.calibration,
                given.individual,
                &mut out,
            );
            assert_eq!(written, expected.as_ref().map(Vec::len).map_err(|&n| n));
            let frame = expected.as_deref().unwrap_or_default();
            assert_eq!(out[..frame.len()], *frame);
            assert!(out[frame.len()..].iter().all(|&byte| byte == 0x55));
        }
        let Ok(mut frame) = expected else { continue };
        if random.one_in(2) {
            let at = random.below(frame.len().min(8));
            frame[at] ^= 1 << random.below(8);
        }
        if random.one_in(3) {
            *frame.last_mut().unwrap() ^= 1 << random.below(8);
        }
        for way in &WAYS {
            reads_alike(way, &set, command, tail, &frame);
        }
    }
}

fn reads_alike(way: &Way, set: &Set, command: Command, tail: Tail, frame: &[u8]) {
    let (mut bytes, mut values) = (vec![0; 100], vec![0; 1000]);
    let told_frame = told(set, command, tail);
    let read = reader::read_by(way, &told_frame, frame, &mut bytes, &mut values);
    match model::reader::read(&set.told(command, tail), frame, 100_000) {
        Err(number) => assert_eq!(read, Err(number)),
        Ok(Contents::Byte(byte)) => assert_eq!(read, Ok(usize::from(byte))),
        Ok(Contents::Calibration(list)) => {
            assert_eq!(read, Ok(list.len()));
            assert_eq!(bytes[..list.len()], list);
        }
        Ok(Contents::Individual(list)) => {
            assert_eq!(read, Ok(list.len()));
            assert_eq!(values[..list.len()], list);
        }
    }
    let back = &frame[..(24 + tail.length as usize).div_ceil(8).min(frame.len())];
    assert_eq!(
        reader::read_return(&told_frame, back),
        model::reader::read_return(set.part, set.devices, command, tail, back)
    );
}

fn any_record(random: &mut Random, part: u16) -> record::Device {
    match random.below(4) {
        0 => records::junk(random),
        1 => records::damaged(random, part),
        _ => records::fitting(random, part),
    }
}

#[test]
fn judgement_and_step_of_any_record() {
    for case in 0..80_000 {
        let random = &mut Random::of_case(SEED, case);
        let mut record = any_record(random, sets::part(case));
        let judged = model::device::Device::of_record(&record);
        assert_eq!(device::judge(&record).err(), judged.as_ref().err().copied());
        let Ok(mut known) = judged else { continue };
        let state = random.below(4) as u8;
        let states = known.step(state);
        let mut sent = vec![];
        match device::step(&mut record, state) {
            device::Sent::Nothing => {}
            device::Sent::State(state) => sent.push(state),
            device::Sent::Header(command, count) => {
                sent.resize(24, 0);
                chain::write_header(&mut sent, command, count);
            }
        }
        assert_eq!((record, sent), (known.to_record(), states));
    }
}

#[test]
fn judgement_of_any_chain() {
    for case in 0..8000 {
        let random = &mut Random::of_case(SEED, case);
        let part = sets::part(case);
        let count = random.pick(&[0, 1, 2, 3, 4, 1023, 1024]);
        let mut chain = vec![records::fitting(random, part); count];
        if count > 0 && random.one_in(2) {
            let other = sets::other_part(random, part);
            let (alike, another) = (any_record(random, part), records::fitting(random, other));
            chain[random.below(count)] = random.pick(&[alike, another]);
        }
        // A run of no states judges, and changes nothing.
        let expected = model::chain::run(&mut chain.clone(), &[], 23);
        assert_eq!(chain::judge(&chain), expected.map(|_| ()));
    }
}

#[test]
fn runs_of_any_chain() {
    for case in 0..3000 {
        let random = &mut Random::of_case(SEED, case);
        let (part, devices) = (sets::part(case), random.between(1, 4));
        let mut records: Vec<_> = (0..devices)
            .map(|_| records::fitting(random, part))
            .collect();
        let mut copy = records.clone();
        for _ in 0..4 {
            let states = states::noise(random, part, devices);
            runs_alike(&mut records, &mut copy, &states);
        }
    }
}

/// Frames of a set, given to records of which each has a boundary about the clock of its own store; in two pieces.
#[test]
fn runs_across_boundaries() {
    for case in 0..4000 {
        let random = &mut Random::of_case(SEED, case);
        let set = any_set(random, case);
        let part = Part::of(set.part).unwrap();
        let command = random.pick(&Command::ALL);
        let mut states = set.states(command, sets::tail(random)).unwrap();
        states.extend(states::gap(random));
        let mut records: Vec<_> = (1..=set.devices)
            .map(|number| {
                let mut record = records::fitting(random, set.part);
                let r = &mut record.registers;
                let slice = slice_bits(command, part, r.configuration);
                let b = 22 + number * slice + random.below(5);
                r.position = part.frame_clocks(r.configuration) - b as u64;
                record
            })
            .collect();
        let mut copy = records.clone();
        let cut = random.between(0, states.len());
        for piece in [&states[..cut], &states[cut..]] {
            runs_alike(&mut records, &mut copy, piece);
        }
    }
}

/// More clocks than a frame has: at low load, and at high load for devices that ignore or pass it.
#[test]
fn runs_longer_than_a_frame() {
    for case in 0..8 {
        let random = &mut Random::of_case(SEED, case);
        let mut records: Vec<_> = (0..3)
            .map(|_| records::fitting(random, sets::part(case)))
            .collect();
        let high = 2 * (case / 4) as u8;
        let clocks = 524_288 + random.below(9);
        let states: Vec<u8> = states::lows(random, clocks);
        let states: Vec<u8> = states.into_iter().map(|state| state + high).collect();
        let mut copy = records.clone();
        runs_alike(&mut records, &mut copy, &states);
    }
}

/// Frames whose data is still for long, in pieces, for longer chains whose watchdogs are mostly enabled.
#[test]
fn runs_with_watchdogs() {
    for case in 0..1500 {
        let random = &mut Random::of_case(SEED, case);
        let (part, devices) = (sets::part(case), random.between(1, 12));
        let mut set = sets::set(random, part, devices);
        let first = random.below(set.individual.len());
        set.individual[first..].fill(0);
        let mut records: Vec<_> = (0..devices)
            .map(|_| {
                let mut record = records::fitting(random, part);
                let r = &mut record.registers;
                r.configuration |= random.pick(&[0, 1 << r.watch.bit, 0xEE]);
                if random.one_in(2) {
                    record.place = record::Place::of(record::PASSING);
                }
                record
            })
            .collect();
        let mut copy = records.clone();
        for _ in 0..3 {
            let command = random.pick(&Command::ALL);
            let mut states = set.states(command, sets::tail(random)).unwrap();
            states.extend(vec![random.below(2) as u8; random.below(400)]);
            let cut = random.between(0, states.len());
            for piece in [&states[..cut], &states[cut..]] {
                runs_alike(&mut records, &mut copy, piece);
            }
        }
    }
}

/// Both give the same, and leave the same in their chains.
fn runs_alike(of_model: &mut [record::Device], of_baseline: &mut [record::Device], states: &[u8]) {
    let mut returned = vec![0; states.len() + 23];
    let expected = model::chain::run(of_model, states, returned.len()).unwrap();
    let sent = chain::run(of_baseline, states, &mut returned);
    assert_eq!(sent, Ok(expected.len()));
    assert_eq!(returned[..expected.len()], expected);
    assert_eq!(of_baseline, of_model);
}

#[test]
fn comparisons() {
    for case in 0..6000 {
        let random = &mut Random::of_case(SEED, case);
        let set = any_set(random, case);
        let part = Part::of(set.part).unwrap();
        let mut records = vec![record::Device::fresh(set.part); set.devices];
        let states = |command| set.states(command, Tail::default()).unwrap();
        let mut states: Vec<u8> = Command::RESTORE.into_iter().flat_map(states).collect();
        // With one low clock behind the restore, each device comes to its boundary.
        states.push(0);
        for record in &mut records {
            record.registers.position = 524_288 - states.len() as u64;
        }
        model::chain::run(&mut records, &states, states.len() + 23).unwrap();
        for _ in 0..random.below(3) {
            let at = random.below(set.devices);
            let r = &mut records[at].registers;
            match random.below(5) {
                0 => r.configuration ^= 2,
                1 => r.calibration[random.below(part.banks())] ^= 1,
                2 => r.active ^= 64,
                3 => r.active0[random.below(part.outputs())] ^= 1,
                _ => r.active1[random.below(part.outputs())] ^= 1,
            }
        }
        let expected = model::compare::compare(&set, &records)
            .map(|found| found.map(|d| (d.device, d.group as u8 + 1, d.place)));
        assert_eq!(compare::compare(&set.lent(), &records), expected);
        assert_eq!(compare::compare_quickly(&set.lent(), &records), expected);
    }
}

/// The sign's figures and the lent list, which is as long as the random `before`.
fn draws_alike(set: &Set, before: &[u64]) {
    let mut figures = before.to_vec();
    let drawn = current::current(&set.lent(), &mut figures);
    let expected = model::current::current(set, before.len());
    let listed = |f: &Figure| [f.total, f.average, f.remainder];
    assert_eq!(
        drawn,
        expected.as_ref().map(|c| listed(&c.sign)).map_err(|&n| n)
    );
    let front: Vec<u64> = expected
        .iter()
        .flat_map(|c| c.devices.iter().flat_map(listed))
        .collect();
    assert_eq!(figures, [&front, &before[front.len()..]].concat());
}

/// Each part with each of the configurations that matter.
#[test]
fn currents() {
    for case in 0..16 {
        let random = &mut Random::of_case(SEED, case);
        let mode = sets::MODES[case as usize / 4];
        let set = sets::drawing(random, sets::part(case), 2, mode);
        draws_alike(&set, &random.longs(7));
    }
}

/// A global byte of 255 is always refused; lower numbers may apply as well.
#[test]
fn refused_currents() {
    for case in 0..4000 {
        let random = &mut Random::of_case(SEED, case);
        let mut set = any_set(random, case);
        set.global = 255;
        for _ in 0..random.below(3) {
            match random.below(6) {
                0 => set.part = sets::unknown_part(random),
                1 => set.devices = random.pick(&[0, 1024, usize::MAX]),
                2 => set.calibration.push(0),
                3 => drop(set.individual.pop()),
                4 => set.configuration ^= 1,
                _ => set.part = sets::other_part(random, set.part),
            }
        }
        let room = random.below(20);
        draws_alike(&set, &random.longs(room));
    }
}
