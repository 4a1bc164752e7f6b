//! Frames and returns: written and read, in order and damaged.

use crate::bits::answer;
use crate::tally::{Case, Tally};
use cases::{sets, Random};
use model::bits::{bits_of, pack};
use model::frame::{frame_bits, header, Tail, Told};
use model::part::{Command, Part};
use model::reader::{self, Contents};
use model::set::Set;
use model::writer;

/// What the library is told.
pub fn told_library(told: &Told) -> ffi::Told {
    ffi::Told {
        part: told.part,
        devices: told.devices,
        command: told.command.code(),
        configuration: told.configuration,
        tail: told.tail.number,
        tail_length: told.tail.length,
    }
}

/// Higher bits of a command are ignored, so any may stand there.
fn told_with_any_bits(told: &Told, random: &mut Random) -> ffi::Told {
    let mut told = told_library(told);
    told.command |= random.byte() & 0xFC;
    told
}

/// A number of devices: mostly few, and often enough for lists of several blocks.
fn devices(random: &mut Random) -> usize {
    match random.below(1000) {
        0 => 1023,
        1..=10 => random.between(31, 60),
        11..=150 => random.between(7, 30),
        _ => random.between(1, 6),
    }
}

/// Changes what is told so that a number of 1, 2, 3, 4 or 6 may apply.
fn mistell(random: &mut Random, told: &mut Told) {
    match random.below(60) {
        0 => told.part = sets::unknown_part(random),
        1 => told.devices = random.pick(&[0, 1024, 1025, usize::MAX]),
        2 => told.tail.length = random.pick(&[65, 128, u32::MAX]),
        3 => told.tail.number = random.next(),
        4 => told.tail.number |= 1 << (told.tail.length % 64),
        5 => told.configuration = random.byte(),
        6 => told.devices = devices(random),
        7 => told.part = sets::other_part(random, told.part),
        _ => {}
    }
}

/// The writer: the answer, and the whole of the lent output.
pub fn written() -> Tally {
    let mut tally = Tally::new("write", 0x3217);
    tally.of_each_part(30_000, write_case);
    tally.close(&[0, 1, 2, 3, 4, 5, 6]);
    tally
}

fn write_case(case: &mut Case, random: &mut Random, part: u16) {
    let count = devices(random);
    let mut set = sets::set(random, part, count);
    let command = random.pick(&Command::ALL);
    let mut told = set.told(command, sets::tail(random));
    mistell(random, &mut told);
    if random.one_in(2) {
        mistell(random, &mut told);
    }
    misset(random, &mut set);
    let given = set.given(command);

    let few = Told {
        devices: told.devices.min(2000),
        ..told
    };
    let needed = frame_bits(&few, part_of(&told, part))
        .div_ceil(8)
        .min(100_000);
    let room = any_room(random, needed);
    let mut out = random.bytes(room);
    let expected = writer::write(&told, &given, room);
    let mut after = out.clone();
    if let Ok(frame) = &expected {
        after[..frame.len()].copy_from_slice(frame);
    }
    let found = ffi::write(
        &told_with_any_bits(&told, random),
        given.byte,
        given.calibration,
        given.individual,
        &mut out,
    );
    let expected = answer(expected.map(|frame| frame.len() as u64));
    case.same("answer", found, expected);
    case.same("output", &out, &after);
    case.reach(found.refusal);
    if found.refusal == 0 {
        let frame = &out[..found.value as usize];
        reads_back(case, random, &told, &given, frame);
    }
}

/// Room for so many bytes, seldom too little.
fn any_room(random: &mut Random, needed: usize) -> usize {
    match random.below(30) {
        0 => needed.saturating_sub(1),
        1 => random.below(needed + 1),
        2..=15 => needed,
        _ => needed + random.below(20),
    }
}

/// The told part; where it is unknown, the set's.
fn part_of(told: &Told, part: u16) -> Part {
    let known = Part::of(told.part).or(Part::of(part));
    known.expect("a part's number")
}

/// Demand 2: what was written reads back as those settings.
fn reads_back(
    case: &mut Case,
    random: &mut Random,
    told: &Told,
    given: &writer::Given,
    frame: &[u8],
) {
    let mut bytes = vec![0; given.calibration.len()];
    let mut values = vec![0; given.individual.len()];
    let told_frame = told_with_any_bits(told, random);
    let found = ffi::read(&told_frame, frame, &mut bytes, &mut values);
    match told.command {
        Command::Calibration => case.same("read back", &bytes[..], given.calibration),
        Command::Individual => case.same("read back", &values[..], given.individual),
        _ => case.same("read back", found.value, u64::from(given.byte)),
    }
    case.same("accepted", found.refusal, 0);
}

/// Changes a set so that 4 or 6 may apply.
fn misset(random: &mut Random, set: &mut Set) {
    let known = Part::of(set.part).expect("a part's number");
    let any = random.next() as u16;
    let limit = 1 << known.value_width();
    let at = random.below(set.individual.len());
    match random.below(24) {
        0 => set.individual[at] = limit,
        1 => set.individual[at] = any,
        2 => set.individual.push(0),
        3 => set.individual.truncate(at),
        4 => set.calibration.push(0),
        5 => set.calibration.truncate(at),
        6 | 7 => set.global = random.byte(),
        8 => set.global = known.subframes(set.configuration) as u8,
        _ => {}
    }
}

/// The reader: the answer, and the whole of both lent lists.
pub fn read() -> Tally {
    let mut tally = Tally::new("read", 0x2EAD);
    tally.of_each_part(40_000, read_case);
    tally.close(&(0..=12).collect::<Vec<_>>());
    tally
}

fn read_case(case: &mut Case, random: &mut Random, part: u16) {
    let count = devices(random);
    let set = sets::set(random, part, count);
    let command = random.pick(&Command::ALL);
    let mut told = set.told(command, sets::tail(random));
    let mut frame = writer::write(&told, &set.given(command), usize::MAX).expect("a set in order");
    for _ in 0..random.below(3) {
        damage(random, &told, &mut frame);
    }
    if random.one_in(4) {
        mistell(random, &mut told);
    }
    if random.one_in(40) {
        told.command = random.pick(&Command::ALL);
    }
    if random.one_in(40) {
        told.tail = sets::tail(random);
    }

    let [bytes_room, values_room] = any_list_rooms(random, &told, part_of(&told, part));
    let (mut bytes, mut values) = (random.bytes(bytes_room), random.words(values_room));
    let room = match told.command {
        Command::Individual => values_room,
        _ => bytes_room,
    };
    let expected = reader::read(&told, &frame, room);
    let (mut bytes_after, mut values_after) = (bytes.clone(), values.clone());
    let value = match &expected {
        Ok(Contents::Byte(byte)) => Ok(u64::from(*byte)),
        Ok(Contents::Calibration(list)) => {
            bytes_after[..list.len()].copy_from_slice(list);
            Ok(list.len() as u64)
        }
        Ok(Contents::Individual(list)) => {
            values_after[..list.len()].copy_from_slice(list);
            Ok(list.len() as u64)
        }
        Err(number) => Err(*number),
    };
    let told_frame = told_with_any_bits(&told, random);
    let found = ffi::read(&told_frame, &frame, &mut bytes, &mut values);
    case.same("answer", found, answer(value));
    case.same("calibration", &bytes, &bytes_after);
    case.same("individual", &values, &values_after);
    case.reach(found.refusal);
    if let Ok(contents) = expected {
        writes_again(case, random, &told, &contents, &frame);
    }
}

/// Room for the calibration bytes and for the values of a frame, seldom too little.
fn any_list_rooms(random: &mut Random, told: &Told, part: Part) -> [usize; 2] {
    let (is_short, is_long) = (random.one_in(20), random.one_in(2));
    [part.banks(), part.values(told.configuration)].map(|of_device| {
        let full = of_device * told.devices.min(1023);
        match (is_short, is_long) {
            (true, _) => full.saturating_sub(random.between(1, 3)),
            (false, true) => full + random.below(4),
            (false, false) => full,
        }
    })
}

/// Demand 2: an accepted frame is written again to the same bytes.
fn writes_again(
    case: &mut Case,
    random: &mut Random,
    told: &Told,
    contents: &Contents,
    frame: &[u8],
) {
    let (mut byte, mut bytes, mut values) = (0, vec![], vec![]);
    match contents {
        Contents::Byte(held) => byte = *held,
        Contents::Calibration(list) => bytes.clone_from(list),
        Contents::Individual(list) => values.clone_from(list),
    }
    let mut out = vec![0; frame.len()];
    let told_frame = told_with_any_bits(told, random);
    let found = ffi::write(&told_frame, byte, &bytes, &values, &mut out);
    case.same("written again", (found.refusal, &out[..]), (0, frame));
}

/// Changes a frame somewhere that a number looks at, or anywhere.
fn damage(random: &mut Random, told: &Told, frame: &mut Vec<u8>) {
    let Ok(part) = Part::of(told.part) else {
        return;
    };
    let bits = frame_bits(told, part);
    let tail = told.tail.length as usize;
    let unused = frame.len() * 8 - bits;
    let flip = |frame: &mut Vec<u8>, bit: usize| {
        if let Some(byte) = frame.get_mut(bit / 8) {
            *byte ^= 0x80 >> (bit % 8);
        }
    };
    match random.below(10) {
        0 => flip(frame, random.below(8)),
        1 => flip(frame, random.between(8, 13)),
        2 => flip(frame, random.between(14, 23)),
        3 | 4 => flip(frame, random.between(24, bits - tail - 1)),
        5 if unused > 0 => flip(frame, bits + random.below(unused)),
        6 if tail > 0 => flip(frame, bits - 1 - random.below(tail)),
        7 => frame.push(random.pick(&[0, 0xFF])),
        8 => frame.truncate(random.below(frame.len() + 1)),
        _ => {
            let at = random.below(frame.len() * 8 + 1);
            flip(frame, at);
        }
    }
}

/// The return reader.
pub fn returned() -> Tally {
    let mut tally = Tally::new("read a return", 0x2E72);
    tally.of_each_part(20_000, return_case);
    tally.close(&[0, 1, 2, 3, 4, 6, 7, 8, 9, 11, 12]);
    tally
}

fn return_case(case: &mut Case, random: &mut Random, part: u16) {
    let tail = sets::tail(random);
    let any = random.between(1, 1023);
    let mut told = Told {
        part,
        devices: random.pick(&[1, 2, 1023, any]),
        command: random.pick(&Command::ALL),
        configuration: random.byte(),
        tail,
    };
    let most = (told.devices + 2).min(1023);
    let count = random.between(most.saturating_sub(4), most) as u16;
    let tail_bits = bits_of(tail.length, tail.number);
    let mut bytes = pack(&[header(told.command, count), tail_bits].concat());
    for _ in 0..random.below(3) {
        damage_return(random, tail, &mut bytes);
    }
    if random.one_in(3) {
        mistell(random, &mut told);
    }
    if random.one_in(30) {
        told.tail = sets::tail(random);
    }
    let expected = reader::read_return(told.part, told.devices, told.command, told.tail, &bytes);
    let found = ffi::read_return(&told_with_any_bits(&told, random), &bytes);
    case.same("answer", found, answer(expected.map(u64::from)));
    case.reach(found.refusal);
}

fn damage_return(random: &mut Random, tail: Tail, bytes: &mut Vec<u8>) {
    let bits = 24 + tail.length as usize;
    let at = match random.below(8) {
        0 => random.below(8),
        1 => random.between(8, 13),
        2 => random.between(14, 23),
        3 | 4 => random.below(bytes.len() * 8 + 1),
        5 => bits,
        6 => bits - 1,
        _ => {
            bytes.truncate(random.below(bytes.len() + 1));
            bytes.extend(random.bytes(1));
            return;
        }
    };
    if let Some(byte) = bytes.get_mut(at / 8) {
        *byte ^= 0x80 >> (at % 8);
    }
}
