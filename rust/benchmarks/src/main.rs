//! The proved library beside plain Rust, in one run: times, ratios, and the limits that were asked for. Arguments choose
//! among `packing`, `frames`, `steps`, `chains`, `watch`, `compare` and `current`. Rows that say "beside off" have the
//! library's own time with the watchdog's bit clear in place of Rust's.

mod chains;
mod compare;
mod current;
mod frames;
mod packing;
mod race;
mod steps;
mod watch;

fn main() {
    let wanted: Vec<String> = std::env::args().skip(1).collect();
    println!("Best of many rounds; in a round all sides have their turn, on the same input.");
    println!("All sides are shown to give the same. Output memory is not cleared before a call:");
    println!("each side writes over what its last call left there.");
    println!();
    println!(
        "{:72} {:>10} {:>10} {:12} {:>6}",
        "", "proved", "Rust", "in", "ratio"
    );
    let kinds: [(&str, fn()); 7] = [
        ("packing", packing::races),
        ("frames", frames::races),
        ("steps", steps::races),
        ("chains", chains::races),
        ("watch", watch::races),
        ("compare", compare::races),
        ("current", current::races),
    ];
    for (name, races) in kinds {
        if wanted.is_empty() || wanted.iter().any(|word| word == name) {
            races();
        }
    }
}
