//! The proved library against the independent model, on random cases from fixed seeds; currents also against the
//! baseline, which takes large signs, and clocks of large chains against the baseline alone.
//!
//! Every kind of test prints its cases, its seed and how often each answer was given, and of some events, as load that
//! rises with each edge, how often cases came upon them. A kind is one test: it fails if a case differs, if an answer
//! that it must reach was never given, or if no case came upon an event that it must. The last line is `N passed, M
//! failed` and counts kinds; the exit status is 0 only if none failed. Arguments choose kinds by the beginnings of
//! their names, as `frames` or `light::lit`.

mod bits;
mod chain;
mod clock;
mod compare;
mod current;
mod device;
mod frames;
mod history;
mod light;
mod pair;
mod restore;
mod serial;
mod tally;
mod watch;

use tally::{commas, Tally};

/// A kind of test, with its name.
type Kind = (&'static str, fn() -> Tally);

const KINDS: [Kind; 37] = [
    ("bits::packing", bits::packing),
    ("bits::parts", bits::parts),
    ("frames::written", frames::written),
    ("frames::read", frames::read),
    ("frames::returned", frames::returned),
    ("serial::states", serial::states),
    ("serial::edges", serial::edges),
    ("serial::data_bytes", serial::data_bytes),
    ("device::judged_and_stepped", device::judged_and_stepped),
    ("device::every_read", device::every_read),
    ("chain::lent", chain::lent),
    ("clock::boundaries", clock::boundaries),
    ("clock::switched", clock::switched),
    ("clock::long_runs", clock::long_runs),
    ("clock::large_chains", clock::large_chains),
    ("watch::told", watch::told),
    ("watch::judged", watch::judged),
    ("watch::worked", watch::worked),
    ("watch::expiries", watch::expiries),
    ("watch::bursts", watch::bursts),
    ("watch::pieces", watch::pieces),
    ("watch::stretches", watch::stretches),
    ("watch::large_chains", watch::large_chains),
    ("history::restored", history::restored),
    ("light::schedules", light::schedules),
    ("light::lit_clocks", light::lit_clocks),
    ("light::positions", light::positions),
    ("light::devices", light::devices),
    ("light::runs", light::runs),
    ("light::device_runs", light::device_runs),
    ("light::now", light::now),
    ("light::now_refused", light::now_refused),
    ("light::clock_by_clock", light::clock_by_clock),
    ("compare::compared", compare::compared),
    ("current::clock_by_clock", current::clock_by_clock),
    ("current::large_signs", current::large_signs),
    ("current::refused", current::refused),
];

fn main() {
    let wanted: Vec<String> = std::env::args().skip(1).collect();
    let (mut passed, mut failed, mut cases) = (0, 0, 0);
    for (name, kind) in KINDS {
        if !wanted.is_empty() && !wanted.iter().any(|start| name.starts_with(start)) {
            continue;
        }
        let tally = kind();
        cases += tally.cases();
        if tally.passed() {
            passed += 1;
        } else {
            println!("{name}: failed");
            failed += 1;
        }
    }
    println!("{} cases in {} kinds", commas(cases), passed + failed);
    println!("{passed} passed, {failed} failed");
    std::process::exit(i32::from(failed > 0));
}
