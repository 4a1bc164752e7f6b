//! docs/RULES.md, "Numbers to hold against", by their letters; those without a letter follow, and then those of the
//! 16-output parts.

use model::chain;
use model::frame::{Tail, Told};
use model::light::{self, is_lit, is_on, lead, Position};
use model::part::{Command, Part};
use model::reader::{read, read_return, Contents};
use model::serial::data_bytes;
use model::set::Set;
use model::writer::{write, Given};
use record::Device;

const NO_TAIL: Tail = Tail {
    number: 0,
    length: 0,
};

/// The set's frame of a command, read back.
fn frame(set: &Set, command: Command, tail: Tail) -> Result<Vec<u8>, u8> {
    let told = set.told(command, tail);
    let bytes = write(&told, &set.given(command), 100_000)?;
    let contents = match command {
        Command::Individual => Contents::Individual(set.individual.clone()),
        Command::Calibration => Contents::Calibration(set.calibration.clone()),
        Command::Global => Contents::Byte(set.global),
        Command::Configuration => Contents::Byte(set.configuration),
    };
    assert_eq!(read(&told, &bytes, 100_000), Ok(contents));
    Ok(bytes)
}

fn tail(number: u64, length: u32) -> Tail {
    Tail { number, length }
}

#[test]
fn a_configuration() {
    let bytes = frame(&Set::zeros(6974, 1, 0), Command::Configuration, NO_TAIL);
    assert_eq!(bytes, Ok(vec![0xE8, 0xFC, 0, 0, 0, 0]));
}

#[test]
fn b_configuration_of_two() {
    let bytes = frame(&Set::zeros(6974, 2, 1), Command::Configuration, NO_TAIL);
    assert_eq!(bytes, Ok(vec![0xE8, 0xFC, 0, 1, 1, 1, 1, 1, 1]));
}

#[test]
fn c_calibration() {
    let mut set = Set::zeros(6974, 1, 0);
    set.calibration = vec![0xA9, 0x10, 0x01];
    let bytes = frame(&set, Command::Calibration, NO_TAIL);
    assert_eq!(bytes, Ok(vec![0xE8, 0x54, 0, 0xA9, 0x10, 0x01]));
}

#[test]
fn d_global() {
    let mut set = Set::zeros(6974, 1, 0);
    set.global = 96;
    let bytes = frame(&set, Command::Global, NO_TAIL);
    assert_eq!(bytes, Ok(vec![0xE8, 0xA8, 0, 0x60, 0x60, 0x60]));
}

#[test]
fn e_individual_of_a_6974() {
    let mut set = Set::zeros(6974, 1, 0);
    set.individual = vec![2560; 24];
    let expected = [vec![0xE8, 0, 0], [0xA0, 0x0A, 0x00].repeat(12)].concat();
    assert_eq!(frame(&set, Command::Individual, NO_TAIL), Ok(expected));
}

#[test]
fn f_individual_of_a_6975() {
    let mut set = Set::zeros(6975, 1, 0);
    set.individual = vec![1; 24];
    let group = [0x00, 0x04, 0x00, 0x10, 0x00, 0x40, 0x01];
    let expected = [vec![0xE8, 0, 0], group.repeat(6)].concat();
    assert_eq!(frame(&set, Command::Individual, NO_TAIL), Ok(expected));
}

/// What three devices with two open LEDs return for a calibration frame with tail 0xA5. It reads as 2.
fn returned_of_three(part: u16) -> Vec<u8> {
    let sent = tail(0xA5, 8);
    let mut devices = [Device::fresh(0); 3];
    chain::fresh(&mut devices, part, 1, 2_000_000).unwrap();
    chain::set_fault(&mut devices, 1, 1, true).unwrap();
    chain::set_fault(&mut devices, 3, 1, true).unwrap();
    let states = Set::zeros(part, 3, 0)
        .states(Command::Calibration, sent)
        .unwrap();
    let returned = chain::run(&mut devices, &states, states.len() + 23).unwrap();
    let bytes = data_bytes(&returned, 100).unwrap();
    let count = read_return(part, 3, Command::Calibration, sent, &bytes);
    assert_eq!(count, Ok(2));
    bytes
}

#[test]
fn g_return_of_three() {
    assert_eq!(returned_of_three(6974), [0xE8, 0x54, 0x02, 0xA5]);
}

#[test]
fn h_tail() {
    let sent = tail(0b101, 3);
    let set = Set::zeros(6974, 1, 0);
    let mut bytes = frame(&set, Command::Configuration, sent).unwrap();
    assert_eq!(bytes, [0xE8, 0xFC, 0, 0, 0, 0, 0xA0]);
    bytes[6] = 0xA1;
    let told = set.told(Command::Configuration, sent);
    assert_eq!(read(&told, &bytes, 0), Err(11));
}

#[test]
fn i_subframes_and_leads() {
    let on = [0, 1, 2, 3, 4].map(|s| is_on(6974, 0, 96, s).unwrap());
    assert_eq!(on, [false, true, true, true, false]);
    assert_eq!(lead(6974, 0, 96, 0, 1), Ok(-97));
    assert_eq!(lead(6974, 0, 96, 1, 3), Ok(93));
}

/// The clocks at which an output with a value is lit, in a subframe that is ON, which are those of the model's run.
fn lit_clocks(part: u16, value: u16, output: u32) -> Vec<u32> {
    let clocks = Part::of(part).unwrap().clocks();
    let at = |clock| Position {
        output,
        subframe: 0,
        clock,
        phase: 0,
    };
    let lit: Vec<u32> = (0..clocks)
        .filter(|&clock| is_lit(part, 0, 255, value, at(clock)).unwrap())
        .collect();
    let run = light::lit_clocks(part, 0, 255, value, at(0)).unwrap();
    assert!(run.eq(lit.iter().copied()));
    lit
}

const B7: u32 = 0;
const R0: u32 = 23;
const Z7: u32 = 0;
const Y0: u32 = 15;

#[test]
fn j_lit_clocks_of_a_6974() {
    assert!(lit_clocks(6974, 2560, R0).into_iter().eq(16..=2559));
    assert!(lit_clocks(6974, 2560, B7).into_iter().eq(1536..=4079));
}

#[test]
fn k_lit_clocks_of_a_6975() {
    assert!(lit_clocks(6975, 32, R0).is_empty());
    assert!(lit_clocks(6975, 32, B7).is_empty());
    assert_eq!(lit_clocks(6975, 33, R0), [32]);
    assert_eq!(lit_clocks(6975, 33, B7), [16_351]);
}

/// What a shorter chain returns is what the next one is sent.
#[test]
fn all_1023_with_open_leds() {
    let mut states = Set::zeros(6974, 1023, 0)
        .states(Command::Configuration, NO_TAIL)
        .unwrap();
    for length in [341; 3] {
        let mut devices = vec![Device::fresh(6974); length];
        for device in 1..=length {
            chain::set_fault(&mut devices, device, 1, true).unwrap();
        }
        let room = states.len() + 23;
        states = chain::run(&mut devices, &states, room).unwrap();
    }
    let bytes = data_bytes(&states, 3).unwrap();
    assert_eq!(bytes, [0xE8, 0xFF, 0xFF]);
    let count = read_return(6974, 1023, Command::Configuration, NO_TAIL, &bytes);
    assert_eq!(count, Ok(1023));
}

/// What a writer of a one-byte frame answers.
fn written(part: u16, devices: usize, configuration: u8, command: Command, sent: Tail) -> u8 {
    let told = Told {
        part,
        devices,
        command,
        configuration,
        tail: sent,
    };
    let given = Given {
        byte: 0,
        calibration: &[],
        individual: &[],
    };
    write(&told, &given, 100_000).err().unwrap_or(0)
}

#[test]
fn numbers_of_devices_and_tail_lengths() {
    let of = |devices, sent| written(6974, devices, 0, Command::Configuration, sent);
    assert_eq!(of(0, NO_TAIL), 2);
    assert_eq!(of(1024, NO_TAIL), 2);
    assert_eq!(of(1023, NO_TAIL), 0);
    assert_eq!(of(1, tail(0, 65)), 3);
    assert_eq!(of(1, tail(u64::MAX, 64)), 0);
    assert_eq!(of(1, tail(8, 3)), 6);
}

#[test]
fn the_largest_value_of_a_6974() {
    let mut set = Set::zeros(6974, 1, 0);
    set.individual[23] = 4095;
    assert!(frame(&set, Command::Individual, NO_TAIL).is_ok());
    set.individual[23] = 4096;
    assert_eq!(frame(&set, Command::Individual, NO_TAIL), Err(6));
}

#[test]
fn the_largest_global_byte_of_a_multiplexed_glb4_6975() {
    let mut set = Set::zeros(6975, 1, 0x11);
    set.global = 3;
    assert!(frame(&set, Command::Global, NO_TAIL).is_ok());
    set.global = 4;
    assert_eq!(frame(&set, Command::Global, NO_TAIL), Err(6));
}

#[test]
fn configuration_of_a_6972() {
    let bytes = frame(&Set::zeros(6972, 1, 0), Command::Configuration, NO_TAIL);
    assert_eq!(bytes, Ok(vec![0xE8, 0xFC, 0, 0, 0]));
}

#[test]
fn calibration_of_a_6972() {
    let mut set = Set::zeros(6972, 1, 0);
    set.calibration = vec![0xA9, 0x10];
    let bytes = frame(&set, Command::Calibration, NO_TAIL);
    assert_eq!(bytes, Ok(vec![0xE8, 0x54, 0, 0xA9, 0x10]));
}

#[test]
fn global_of_a_6972() {
    let mut set = Set::zeros(6972, 1, 0);
    set.global = 96;
    let bytes = frame(&set, Command::Global, NO_TAIL);
    assert_eq!(bytes, Ok(vec![0xE8, 0xA8, 0, 0x60, 0x60]));
}

#[test]
fn individual_of_a_6972() {
    let mut set = Set::zeros(6972, 1, 0);
    set.individual = vec![2560; 16];
    let expected = [vec![0xE8, 0, 0], [0xA0, 0x0A, 0x00].repeat(8)].concat();
    assert_eq!(frame(&set, Command::Individual, NO_TAIL), Ok(expected));
}

#[test]
fn individual_of_a_6973() {
    let mut set = Set::zeros(6973, 1, 0);
    set.individual = vec![1; 16];
    let group = [0x00, 0x04, 0x00, 0x10, 0x00, 0x40, 0x01];
    let expected = [vec![0xE8, 0, 0], group.repeat(4)].concat();
    assert_eq!(frame(&set, Command::Individual, NO_TAIL), Ok(expected));
}

#[test]
fn returns_of_the_16_output_parts() {
    for part in [6972, 6973] {
        assert_eq!(returned_of_three(part), [0xE8, 0x54, 0x02, 0xA5]);
    }
}

#[test]
fn lit_clocks_of_the_16_output_parts() {
    assert!(lit_clocks(6972, 2560, Y0).into_iter().eq(16..=2559));
    assert!(lit_clocks(6972, 2560, Z7).into_iter().eq(1536..=4079));
    assert!(lit_clocks(6973, 32, Y0).is_empty());
    assert!(lit_clocks(6973, 32, Z7).is_empty());
    assert_eq!(lit_clocks(6973, 33, Y0), [32]);
    assert_eq!(lit_clocks(6973, 33, Z7), [16_351]);
}

#[test]
fn subframes_and_leads_of_a_6972() {
    let on = [0, 1, 2, 3, 4].map(|s| is_on(6972, 0, 96, s).unwrap());
    assert_eq!(on, [false, true, true, true, false]);
    assert_eq!(lead(6972, 0, 96, 0, 1), Ok(-97));
    assert_eq!(lead(6972, 0, 96, 1, 3), Ok(93));
}

#[test]
fn the_largest_value_of_a_6972() {
    let mut set = Set::zeros(6972, 1, 0);
    set.individual[15] = 4095;
    assert!(frame(&set, Command::Individual, NO_TAIL).is_ok());
    set.individual[15] = 4096;
    assert_eq!(frame(&set, Command::Individual, NO_TAIL), Err(6));
}

#[test]
fn the_largest_global_byte_of_a_multiplexed_glb4_6973() {
    let mut set = Set::zeros(6973, 1, 0x11);
    set.global = 3;
    assert!(frame(&set, Command::Global, NO_TAIL).is_ok());
    set.global = 4;
    assert_eq!(frame(&set, Command::Global, NO_TAIL), Err(6));
}
