//! Compares the paper, written again in this package, with libchannelfox.a on random and damaged input.
//!
//! `second [seed]`, with the seed in decimal or as 0x and hexadecimal digits. It ends with 0 if all answers agree, with
//! 1 at the first that does not or if something that must be seen was not, and with 2 if the seed is no number.

#![deny(unsafe_code)]

mod buffers;
mod cform;
#[allow(unsafe_code)]
mod ffi;
mod generate;
mod header;
mod part_converting;
mod part_form_numbers;
mod part_forms;
mod part_holds;
mod part_numbers;
mod part_plans;
mod part_runs;
mod part_sheets;
mod part_starting;
mod part_states;
mod part_tables;
mod part_writing;
mod random;
mod random_sheets;
mod stored;
mod tally;

use std::env;
use std::process::ExitCode;
use std::time::Instant;

const SEED: u64 = 0x4D4C_2026_0001;

/// A part of the comparison: its title, and what it does with a seed.
type Part = (&'static str, fn(u64) -> Result<(), String>);

const PARTS: [Part; 13] = [
    ("part 1: stored tables", part_tables::stored_tables),
    ("part 2: the choice and the second door", part_tables::choices_and_lists),
    ("part 3: row tables planned", part_plans::row_tables),
    ("part 4: starts and runs", part_runs::starts_and_runs),
    ("part 5: damaged run states", part_states::damaged_states),
    ("part 6: the paper's own numbers", part_numbers::numbers),
    ("part 7: tables written in form one", part_writing::written_tables),
    ("part 8: the reseller's sheet", part_sheets::sheets),
    ("part 9: numbers with holds", part_holds::numbers),
    ("part 10: both forms written", part_forms::written_forms),
    ("part 11: one form converted to the other", part_converting::conversions),
    ("part 12: starts from stored bytes", part_starting::starts),
    (
        "part 13: stored bytes of both forms, by hand",
        part_form_numbers::numbers,
    ),
];

fn main() -> ExitCode {
    let seed = match env::args().nth(1).map(|told| seed_of(&told)) {
        None => SEED,
        Some(Some(seed)) => seed,
        Some(None) => {
            eprintln!("usage: second [seed], in decimal or 0x and hexadecimal digits");
            return ExitCode::from(2);
        }
    };
    println!("second program: seed {seed:#X}");
    for (title, part) in PARTS {
        println!("{title}");
        let begun = Instant::now();
        if let Err(told) = part(seed) {
            println!("second program: seed {seed:#X}: failed in {title}\n{told}");
            return ExitCode::FAILURE;
        }
        println!("  in {:.1} seconds", begun.elapsed().as_secs_f64());
    }
    println!("second program: all agree");
    ExitCode::SUCCESS
}

fn seed_of(told: &str) -> Option<u64> {
    match told.strip_prefix("0x").or_else(|| told.strip_prefix("0X")) {
        Some(digits) => u64::from_str_radix(digits, 16).ok(),
        None => told.parse().ok(),
    }
}
