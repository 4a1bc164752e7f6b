//! The parts with their constants, the commands, and the slices.

use crate::Refusal;

/// A part.
#[derive(Clone, Copy, Debug, PartialEq, Eq)]
pub enum Part {
    /// 16 outputs, 12-bit values.
    Max6972,
    /// 16 outputs, 14-bit values.
    Max6973,
    /// 24 outputs, 12-bit values.
    Max6974,
    /// 24 outputs, 14-bit values.
    Max6975,
}

/// The constants of a part.
struct Row {
    number: u16,
    banks: usize,
    value_width: u32,
    edge_zone: u32,
    clocks: u32,
    /// Plain, multiplexed, with GLB4, with both.
    subframes: [u32; 4],
    /// Of a lit output at calibration byte 0, in eighths of a microamp.
    least_current: u64,
    /// What each 1 of the calibration byte adds.
    current_step: u64,
}

/// Outputs of a bank.
const BANK: usize = 8;

/// Configuration bit D0.
pub fn multiplexed(configuration: u8) -> bool {
    configuration & 1 == 1
}

/// Configuration bit D4.
pub fn glb4(configuration: u8) -> bool {
    configuration >> 4 & 1 == 1
}

/// MUX0 alone or, multiplexed, MUX0 and MUX1: how often a subframe runs, and values of an output.
pub fn phases(configuration: u8) -> u32 {
    if multiplexed(configuration) {
        2
    } else {
        1
    }
}

impl Part {
    /// The four parts.
    pub const ALL: [Part; 4] = [Part::Max6972, Part::Max6973, Part::Max6974, Part::Max6975];

    /// Value width, edge zone, clocks and subframes do not go by the banks.
    fn row(self) -> Row {
        match self {
            Part::Max6972 => Row {
                number: 6972,
                banks: 2,
                least_current: 88_000,
                current_step: 1375,
                ..Part::Max6974.row()
            },
            Part::Max6973 => Row {
                number: 6973,
                banks: 2,
                least_current: 88_000,
                current_step: 1375,
                ..Part::Max6975.row()
            },
            Part::Max6974 => Row {
                number: 6974,
                banks: 3,
                value_width: 12,
                edge_zone: 16,
                clocks: 4096,
                subframes: [128, 64, 128, 64],
                least_current: 48_000,
                current_step: 750,
            },
            Part::Max6975 => Row {
                number: 6975,
                banks: 3,
                value_width: 14,
                edge_zone: 32,
                clocks: 16_384,
                subframes: [32, 16, 8, 4],
                least_current: 48_000,
                current_step: 750,
            },
        }
    }

    /// The part of a number; any other number is refusal 1.
    pub fn of(number: u16) -> Result<Part, Refusal> {
        let mut parts = Part::ALL.into_iter();
        parts.find(|part| part.number() == number).ok_or(1)
    }

    /// The part's number.
    pub fn number(self) -> u16 {
        self.row().number
    }

    /// Banks of outputs: bytes of a calibration slice, and copies of a global or configuration byte in a slice.
    pub fn banks(self) -> usize {
        self.row().banks
    }

    /// Outputs.
    pub fn outputs(self) -> usize {
        BANK * self.banks()
    }

    /// Bits of an individual value.
    pub fn value_width(self) -> u32 {
        self.row().value_width
    }

    /// Whether an individual value is in range.
    pub fn holds(self, value: u16) -> bool {
        u32::from(value) < 1 << self.value_width()
    }

    /// Clocks at either end of a subframe in which nothing is lit.
    pub fn edge_zone(self) -> u32 {
        self.row().edge_zone
    }

    /// Clocks per subframe.
    pub fn clocks(self) -> u32 {
        self.row().clocks
    }

    /// Subframes per frame, S.
    pub fn subframes(self, configuration: u8) -> u32 {
        let [plain, muxed, with_glb4, with_both] = self.row().subframes;
        match (multiplexed(configuration), glb4(configuration)) {
            (false, false) => plain,
            (true, false) => muxed,
            (false, true) => with_glb4,
            (true, true) => with_both,
        }
    }

    /// Clocks of a frame of light, each of which runs once in every phase.
    pub fn frame_clocks(self, configuration: u8) -> u64 {
        let runs = self.subframes(configuration) * phases(configuration);
        u64::from(runs * self.clocks())
    }

    /// Individual values of one device.
    pub fn values(self, configuration: u8) -> usize {
        self.outputs() * phases(configuration) as usize
    }

    /// What an output of a bank with this calibration byte sinks while it is lit, in eighths of a microamp.
    pub fn sink_current(self, calibration: u8) -> u64 {
        let row = self.row();
        row.least_current + row.current_step * u64::from(calibration)
    }

    /// The bank of an output, both in wire order.
    pub fn bank_of(output: u32) -> usize {
        output as usize / BANK
    }
}

/// What a frame loads.
#[derive(Clone, Copy, Debug, PartialEq, Eq)]
pub enum Command {
    /// 00
    Individual,
    /// 01
    Calibration,
    /// 10
    Global,
    /// 11
    Configuration,
}

impl Command {
    /// The four, by their bits C1 C0.
    pub const ALL: [Command; 4] = [
        Command::Individual,
        Command::Calibration,
        Command::Global,
        Command::Configuration,
    ];

    /// The four in the order of a restore.
    pub const RESTORE: [Command; 4] = [
        Command::Configuration,
        Command::Calibration,
        Command::Global,
        Command::Individual,
    ];

    /// C1 C0.
    pub fn code(self) -> u8 {
        match self {
            Command::Individual => 0,
            Command::Calibration => 1,
            Command::Global => 2,
            Command::Configuration => 3,
        }
    }

    /// Whether its frames count open LEDs (C0 = 1), and not overtemperature (C0 = 0).
    pub fn counts_open_leds(self) -> bool {
        self.code() & 1 == 1
    }
}

/// Fields of one device's slice: its values, or a byte for each bank.
pub fn slice_fields(command: Command, part: Part, configuration: u8) -> usize {
    match command {
        Command::Individual => part.values(configuration),
        _ => part.banks(),
    }
}

/// Bits of one field of a slice: a value or a byte.
pub fn field_width(command: Command, part: Part) -> u32 {
    match command {
        Command::Individual => part.value_width(),
        _ => 8,
    }
}

/// Bits of one device's slice.
pub fn slice_bits(command: Command, part: Part, configuration: u8) -> usize {
    slice_fields(command, part, configuration) * field_width(command, part) as usize
}
