//! `include/bractbeacon.h`, declared again.

use crate::{Answer, Clocks, Compared, LitNow, Packed, SignCurrent, Signed, Stepped};
use record::Device;

extern "C" {
    pub fn bb_pack(
        values: *const u16,
        count: usize,
        width: u32,
        out: *mut u8,
        room: usize,
        at: usize,
    ) -> Packed;
    pub fn bb_unpack(
        bytes: *const u8,
        length: usize,
        at: usize,
        width: u32,
        values: *mut u16,
        count: usize,
    ) -> u8;
    pub fn bb_subframes(part: u16, configuration: u8) -> Answer;
    pub fn bb_slice_bits(command: u8, part: u16, configuration: u8) -> Answer;
    pub fn bb_write(
        part: u16,
        devices: usize,
        command: u8,
        configuration: u8,
        tail: u64,
        tail_length: u32,
        byte: u8,
        bytes: *const u8,
        bytes_length: usize,
        values: *const u16,
        values_length: usize,
        out: *mut u8,
        room: usize,
    ) -> Answer;
    pub fn bb_read(
        part: u16,
        devices: usize,
        command: u8,
        configuration: u8,
        tail: u64,
        tail_length: u32,
        frame: *const u8,
        frame_length: usize,
        bytes: *mut u8,
        bytes_length: usize,
        values: *mut u16,
        values_length: usize,
    ) -> Answer;
    pub fn bb_read_return(
        part: u16,
        devices: usize,
        command: u8,
        tail: u64,
        tail_length: u32,
        bytes: *const u8,
        length: usize,
    ) -> Answer;
    pub fn bb_states(
        frame: *const u8,
        frame_length: usize,
        bits: usize,
        edge: u8,
        states: *mut u8,
        room: usize,
    ) -> Answer;
    pub fn bb_data_bytes(states: *const u8, count: usize, out: *mut u8, room: usize) -> Answer;
    pub fn bb_judge(device: Device) -> u8;
    pub fn bb_step(device: Device, state: u8) -> Stepped;
    pub fn bb_fresh(devices: *mut Device, count: usize, part: u16, bit: u8, limit: u32) -> u8;
    pub fn bb_run(
        devices: *mut Device,
        count: usize,
        states: *const u8,
        states_count: usize,
        returned: *mut u8,
        room: usize,
    ) -> Answer;
    pub fn bb_set_fault(
        devices: *mut Device,
        count: usize,
        device: usize,
        kind: u8,
        flag: u8,
    ) -> u8;
    pub fn bb_on(part: u16, configuration: u8, global: u8, subframe: u32) -> Answer;
    pub fn bb_lead(part: u16, configuration: u8, global: u8, start: u32, length: u32) -> Signed;
    pub fn bb_lit(
        part: u16,
        configuration: u8,
        global: u8,
        value: u16,
        output: u32,
        subframe: u32,
        clock: u32,
        phase: u32,
    ) -> Answer;
    pub fn bb_device_lit(
        device: Device,
        output: u32,
        subframe: u32,
        clock: u32,
        phase: u32,
    ) -> Answer;
    pub fn bb_lit_clocks(
        part: u16,
        configuration: u8,
        global: u8,
        value: u16,
        output: u32,
        subframe: u32,
        phase: u32,
    ) -> Clocks;
    pub fn bb_device_lit_clocks(device: Device, output: u32, subframe: u32, phase: u32) -> Clocks;
    pub fn bb_lit_now(chain: *const Device, count: usize, device: usize, output: u32) -> LitNow;
    pub fn bb_compare(
        part: u16,
        devices: usize,
        configuration: u8,
        calibration: *const u8,
        calibration_length: usize,
        global: u8,
        individual: *const u16,
        individual_length: usize,
        chain: *const Device,
        chain_length: usize,
    ) -> Compared;
    pub fn bb_current(
        part: u16,
        devices: usize,
        configuration: u8,
        calibration: *const u8,
        calibration_length: usize,
        global: u8,
        individual: *const u16,
        individual_length: usize,
        figures: *mut u64,
        figures_length: usize,
    ) -> SignCurrent;
}
