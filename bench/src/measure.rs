//! Times two ways of the same work in turn, and prints a line for each pair.

use std::time::Instant;

/// Rounds of each pair; in a round each side takes about ROUND seconds.
pub const ROUNDS: usize = 9;
const ROUND: f64 = 0.030;

/// Nanoseconds of a call or slot on each side (medians), and the smallest and largest ratio of a round.
pub struct Outcome {
    pub rust: f64,
    pub library: f64,
    pub least: f64,
    pub most: f64,
}

/// Times both sides alternately. Each closure does `units` calls or slots.
pub fn compare(units: usize, rust: &mut dyn FnMut(), library: &mut dyn FnMut()) -> Outcome {
    let (rust_times, library_times) = (times_in_round(rust), times_in_round(library));
    let (mut of_rust, mut of_library, mut ratios) = (Vec::new(), Vec::new(), Vec::new());
    for _ in 0..ROUNDS {
        let rust = seconds(rust_times, rust) / f64::from(rust_times);
        let library = seconds(library_times, library) / f64::from(library_times);
        of_rust.push(rust);
        of_library.push(library);
        ratios.push(library / rust);
    }
    ratios.sort_by(f64::total_cmp);
    let per_unit = 1e9 / units as f64;
    Outcome {
        rust: median(of_rust) * per_unit,
        library: median(of_library) * per_unit,
        least: ratios[0],
        most: ratios[ROUNDS - 1],
    }
}

/// Nanoseconds of a call of one side alone: the median of the rounds, and the least and the most.
pub struct Alone {
    pub median: f64,
    pub least: f64,
    pub most: f64,
}

/// Times one side alone. The closure does `units` calls.
pub fn time(units: usize, work: &mut dyn FnMut()) -> Alone {
    let times = times_in_round(work);
    let per_unit = 1e9 / (units as f64 * f64::from(times));
    let mut taken: Vec<f64> = (0..ROUNDS).map(|_| seconds(times, work) * per_unit).collect();
    taken.sort_by(f64::total_cmp);
    Alone {
        median: taken[ROUNDS / 2],
        least: taken[0],
        most: taken[ROUNDS - 1],
    }
}

/// How many times the work fits in a round.
fn times_in_round(work: &mut dyn FnMut()) -> u32 {
    let mut times = 1;
    loop {
        let taken = seconds(times, work);
        if taken > ROUND / 10.0 {
            let fit = f64::from(times) * ROUND / taken;
            return (fit as u32).max(1);
        }
        times *= 2;
    }
}

fn seconds(times: u32, work: &mut dyn FnMut()) -> f64 {
    let begin = Instant::now();
    for _ in 0..times {
        work();
    }
    begin.elapsed().as_secs_f64()
}

fn median(mut values: Vec<f64>) -> f64 {
    values.sort_by(f64::total_cmp);
    values[values.len() / 2]
}

pub fn print_head() {
    println!(
        "ratio = Channelfox time / Rust time for the same answer: 1.00 equally fast, 2.00 Channelfox twice as slow"
    );
    println!("ns = median of {ROUNDS} rounds, for one call (plan, slot) or one slot (advance)");
    println!("spread = least..most ratio of a round");
    println!();
    println!(
        "{:<8}| {:>7} | {:<37}| {:>9} | {:>13} | {:>6} | spread",
        "what", "objects", "input", "Rust ns", "Channelfox ns", "ratio"
    );
    print_rule();
}

pub fn print_rule() {
    println!("{}", "-".repeat(108));
}

pub fn print_line(what: &str, objects: usize, input: &str, outcome: &Outcome) {
    let Outcome {
        rust,
        library,
        least,
        most,
    } = outcome;
    let ratio = library / rust;
    println!(
        "{what:<8}| {objects:>7} | {input:<37}| {rust:>9.1} | {library:>13.1} | {ratio:>6.2} | {least:.2}..{most:.2}"
    );
}
