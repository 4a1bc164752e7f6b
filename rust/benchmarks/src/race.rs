//! Times of several ways to do one thing, taken in turn.

use baseline::way::Way;
use std::time::{Duration, Instant};

/// Rounds of each race at least.
const ROUNDS: usize = 25;

/// Time that a race takes at least.
const RACE: Duration = Duration::from_millis(400);

/// Time of one measurement at least: short work is repeated.
const MEASURED: f64 = 100e-6;

/// A plain way to pack and unpack, beside which the library is timed.
#[derive(Clone, Copy)]
pub struct Plain {
    /// What it is called.
    pub name: &'static str,
    /// The way.
    pub way: Way,
    /// The most that the ratio to it may be.
    pub limit: Option<f64>,
}

impl Plain {
    /// With a limit.
    pub const fn limited(name: &'static str, way: Way, most: f64) -> Plain {
        let limit = Some(most);
        Plain { name, way, limit }
    }

    /// For information.
    pub const fn unlimited(name: &'static str, way: Way) -> Plain {
        let limit = None;
        Plain { name, way, limit }
    }
}

/// The best time of each way over all rounds, in nanoseconds. In a round each way has its turn.
pub fn best<const N: usize>(mut ways: [&mut dyn FnMut(); N]) -> [f64; N] {
    let times = best_of_each(&mut ways);
    std::array::from_fn(|k| times[k])
}

/// The same of the proved library, which is first, and of any number of others.
pub fn beside<F: FnMut()>(mut proved: impl FnMut(), others: impl Iterator<Item = F>) -> Vec<f64> {
    let mut others: Vec<F> = others.collect();
    let mut ways: Vec<&mut dyn FnMut()> = vec![&mut proved];
    for other in &mut others {
        ways.push(other);
    }
    best_of_each(&mut ways)
}

fn best_of_each(ways: &mut [&mut dyn FnMut()]) -> Vec<f64> {
    let repeats: Vec<usize> = ways
        .iter_mut()
        .map(|way| (MEASURED / seconds(*way, 1).max(1e-9)).ceil() as usize)
        .collect();
    let mut best = vec![f64::MAX; ways.len()];
    let start = Instant::now();
    let mut round = 0;
    while round < ROUNDS || start.elapsed() < RACE {
        for (k, way) in ways.iter_mut().enumerate() {
            let time = seconds(*way, repeats[k]) / repeats[k] as f64;
            best[k] = best[k].min(time * 1e9);
        }
        round += 1;
    }
    best
}

fn seconds(way: &mut dyn FnMut(), repeats: usize) -> f64 {
    let start = Instant::now();
    for _ in 0..repeats {
        way();
    }
    start.elapsed().as_secs_f64()
}

/// Prints a race of the proved library, whose time is first, and of plain ways: a line for each of these.
pub fn print_ways(what: &str, per: (&str, f64), ways: &[Plain], times: &[f64]) {
    for (plain, other) in ways.iter().zip(&times[1..]) {
        let what = format!("{what}; {}", plain.name);
        print(&what, per, times[0], *other, plain.limit);
    }
}

/// Prints a race: the proved library's time, another's, their ratio, and the most that the ratio may be.
pub fn print(what: &str, per: (&str, f64), proved: f64, other: f64, limit: Option<f64>) {
    let (unit, count) = per;
    let ratio = (proved / other * 100.0).round() / 100.0;
    let verdict = match limit {
        Some(most) if ratio > most => format!("at most {most:.1}: OVER"),
        Some(most) => format!("at most {most:.1}: met"),
        None => String::new(),
    };
    println!(
        "{what:72} {:10.2} {:10.2} {unit:12} {ratio:6.2}  {verdict}",
        proved / count,
        other / count
    );
}
