//! Counts of the cases of a kind, and what one that differs shows.

use cases::{sets, Random};
use model::bits::bits_of;
use model::edge::Edge;
use model::part::Part;
use record::Device;
use std::collections::BTreeMap;
use std::fmt::Debug;

/// Cases that differ are printed up to so many for each kind.
const SHOWN: u64 = 3;

/// What cases come upon beside answers, by names that are counted. A kind of test that closes with events must have
/// come upon each of them.
pub struct Events {
    /// What they have in common.
    pub title: &'static str,
    /// Their names.
    pub names: &'static [&'static str],
}

/// How load can rise at a hunting device: with each edge, or with none, and the device is lost.
pub const RISES: Events = Events {
    title: "load rose",
    names: &["early", "exact", "late", "lost"],
};

/// One kind of test: many cases, which pass or fail together.
pub struct Tally {
    name: &'static str,
    seed: u64,
    /// Cases in which all was the same.
    same: u64,
    /// Cases in which something differed.
    different: u64,
    /// Cases of each part, where they go by the part.
    of_each_part: Option<u64>,
    /// Answers that should have been given, and never were.
    missing: u64,
    reached: [u64; 14],
    /// How often cases came upon each event.
    events: BTreeMap<&'static str, u64>,
}

/// One case.
pub struct Case {
    differences: Vec<String>,
    refusals: Vec<u8>,
    events: Vec<&'static str>,
}

impl Tally {
    /// No cases yet.
    pub fn new(name: &'static str, seed: u64) -> Tally {
        Tally {
            name,
            seed,
            same: 0,
            different: 0,
            of_each_part: None,
            missing: 0,
            reached: [0; 14],
            events: BTreeMap::new(),
        }
    }

    /// The seed of its cases.
    pub fn seed(&self) -> u64 {
        self.seed
    }

    /// How many cases were run.
    pub fn cases(&self) -> u64 {
        self.same + self.different
    }

    /// There were cases, all was the same in each, and every answer was given that should have been.
    pub fn passed(&self) -> bool {
        self.same > 0 && self.different == 0 && self.missing == 0
    }

    /// Runs so many cases of each part: the parts take turns. A case is given its generator and its part's number.
    pub fn of_each_part(&mut self, cases: u64, mut run: impl FnMut(&mut Case, &mut Random, u16)) {
        self.of_each_part = Some(cases);
        for number in 0..cases * Part::ALL.len() as u64 {
            let random = &mut Random::of_case(self.seed, number);
            self.case(number, |case| run(case, random, sets::part(number)));
        }
    }

    /// Runs one case.
    pub fn case(&mut self, number: u64, run: impl FnOnce(&mut Case)) {
        let mut case = Case {
            differences: vec![],
            refusals: vec![],
            events: vec![],
        };
        run(&mut case);
        for event in case.events {
            *self.events.entry(event).or_default() += 1;
        }
        for refusal in case.refusals {
            match self.reached.get_mut(usize::from(refusal)) {
                Some(count) => *count += 1,
                None => case.differences.push(format!("refusal {refusal}")),
            }
        }
        if case.differences.is_empty() {
            self.same += 1;
            return;
        }
        if self.different < SHOWN {
            let (name, seed) = (self.name, self.seed);
            println!("{name}: seed {seed:#x} case {number} differs");
            for difference in case.differences {
                println!("    {difference}");
            }
        }
        self.different += 1;
    }

    /// Prints the lines of this kind. Each number that should have been given, 0 for acceptance, must have been.
    pub fn close(&mut self, numbers: &[u8]) {
        let name = self.name;
        for &number in numbers {
            if self.reached[usize::from(number)] == 0 {
                println!("{name}: answer {number} was never given");
                self.missing += 1;
            }
        }
        let mut cases = format!("{} cases", commas(self.cases()));
        if let Some(count) = self.of_each_part {
            cases += &format!(", {} of each part", commas(count));
        }
        match self.different {
            0 => println!("{name}: {cases}; the same"),
            different => println!("{name}: {cases}; {} differ", commas(different)),
        }
        println!("    seed {:#x}; answers {}", self.seed, self.answers());
    }

    /// Prints the same and how often cases came upon each of some events, which they must have.
    pub fn close_events(&mut self, numbers: &[u8], all: &[Events]) {
        let mut lines = vec![];
        for events in all {
            let mut counts = vec![];
            for name in events.names {
                let count = self.events.get(name).copied().unwrap_or(0);
                if count == 0 {
                    println!("{}: {}: never {name}", self.name, events.title);
                    self.missing += 1;
                }
                counts.push(format!("{name} {}", commas(count)));
            }
            lines.push(format!("    {}: {}", events.title, counts.join("; ")));
        }
        self.close(numbers);
        lines.iter().for_each(|line| println!("{line}"));
    }

    /// How often each answer was given.
    fn answers(&self) -> String {
        let reached = self
            .reached
            .iter()
            .enumerate()
            .filter(|(_, &count)| count > 0);
        let texts = reached.map(|(number, &count)| match number {
            0 => format!("accepted {}", commas(count)),
            _ => format!("refused {number}: {}", commas(count)),
        });
        texts.collect::<Vec<String>>().join("; ")
    }
}

/// A number with a comma before each three digits.
pub fn commas(number: u64) -> String {
    let digits = number.to_string();
    let mut text = String::new();
    for (i, digit) in digits.chars().enumerate() {
        if i > 0 && (digits.len() - i) % 3 == 0 {
            text.push(',');
        }
        text.push(digit);
    }
    text
}

impl Case {
    /// The library and the model, or the rule itself, say the same.
    pub fn same<T: PartialEq + Debug>(&mut self, what: &str, library: T, model: T) {
        if library != model {
            let (library, model) = (format!("{library:?}"), format!("{model:?}"));
            let at = library
                .bytes()
                .zip(model.bytes())
                .position(|(a, b)| a != b)
                .unwrap_or(library.len().min(model.len()));
            self.differences.push(format!(
                "{what}: library ..{} but model ..{}",
                around(&library, at),
                around(&model, at)
            ));
        }
    }

    /// Counts how load rises at a device that is given states.
    pub fn rises(&mut self, device: &Device, states: &[u8]) {
        let hunting = device.place.phase == record::HUNTING;
        let mut low = hunting.then(|| bits_of(9, u64::from(device.place.read)));
        for &state in states {
            let bit = state & 1 == 1;
            if state < 2 {
                low.get_or_insert_with(Vec::new).push(bit);
            } else if let Some(low) = low.take() {
                let read = Edge::read(&low, bit);
                let rise = read.map_or(3, |(edge, _)| usize::from(edge.number()));
                self.event(RISES.names[rise]);
            }
        }
    }

    /// Counts an event, by its name.
    pub fn event(&mut self, name: &'static str) {
        self.events.push(name);
    }

    /// Counts the number of an answer, 0 for acceptance.
    pub fn reach(&mut self, refusal: u8) {
        self.refusals.push(refusal);
    }
}

/// The text near a byte of it.
fn around(text: &str, at: usize) -> String {
    text.chars().skip(at.saturating_sub(60)).take(100).collect()
}
