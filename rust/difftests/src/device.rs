//! One device by value: its judgement and its step.

use crate::clock::{configured, FRAMES};
use crate::tally::{Case, Tally, RISES};
use cases::{records, sets};
use ffi::Stepped;
use model::device::Device;
use model::frame::header;
use model::part::Command;
use model::serial::clocked;

/// Records that fit, records with one number changed, and records of anything; states 0 to 3, and others. Among them
/// last bits of configuration slices.
pub fn judged_and_stepped() -> Tally {
    let mut tally = Tally::new("judge and step", 0x57E9);
    tally.of_each_part(60_000, |case, random, part| {
        let record = match random.below(4) {
            0 => records::junk(random),
            1 => records::damaged(random, part),
            _ => records::fitting(random, part),
        };
        let any = random.byte();
        let state = random.pick(&[0, 1, 2, 3, 2, 3, 3, any]);
        judge_and_step(case, record, state);
    });
    tally.close_events(&[0, 1, 13], &[RISES, FRAMES]);
    tally
}

/// Every window and every number of bits read, in every phase and past the last; every state.
pub fn every_read() -> Tally {
    let mut tally = Tally::new("judge and step, every window", 0);
    let mut number = 0;
    for phase in 0..=6 {
        for read in 0..=1025 {
            for state in 0..=4 {
                let mut record = record::Device::fresh(sets::part(number));
                record.place.phase = phase;
                record.place.read = read;
                tally.case(number, |case| judge_and_step(case, record, state));
                number += 1;
            }
        }
    }
    tally.close_events(&[0, 13], &[RISES]);
    tally
}

fn judge_and_step(case: &mut Case, record: record::Device, state: u8) {
    let judged = Device::of_record(&record);
    let refusal = judged.as_ref().err().copied().unwrap_or(0);
    case.same("judgement", ffi::judge(record), refusal);

    let stepped = ffi::step(record, state);
    case.reach(stepped.refusal);
    let refusal = match refusal {
        0 if state > 3 => 13,
        other => other,
    };
    case.same("refusal", stepped.refusal, refusal);
    match judged {
        Ok(mut device) if state < 4 => {
            case.rises(&record, &[state]);
            let sent = device.step(state);
            let next = device.to_record();
            case.same("next device", stepped.device, next);
            let at = record.registers.position;
            configured(case, at, &record.registers, &next.registers);
            case.same("sent", states_of(&stepped), sent);
        }
        _ => case.same("refused", stepped, kept(record, refusal)),
    }
}

/// The answer of a refused step: the device as it came in, and nothing else.
fn kept(device: record::Device, refusal: u8) -> Stepped {
    Stepped {
        device,
        count: 0,
        command: 0,
        state: 0,
        sent: 0,
        refusal,
    }
}

/// The states that a step's answer stands for. Numbers that it does not use are 0.
fn states_of(stepped: &Stepped) -> Vec<u8> {
    match (stepped.sent, stepped.state, stepped.command, stepped.count) {
        (0, 0, 0, 0) => vec![],
        (1, state, 0, 0) => vec![state],
        (24, 0, command @ 0..=3, count) => {
            clocked(&header(Command::ALL[usize::from(command)], count))
        }
        other => panic!("a step that sends {other:?}"),
    }
}
