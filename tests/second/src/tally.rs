//! What a part of the comparison tells: how often each thing was seen, and the first disagreement.

use std::fmt::Debug;

use paper::forms::Form;

use crate::random::Random;

/// Counts of what was seen, in the order in which they are printed.
pub struct Tally {
    lines: Vec<Line>,
}

struct Line {
    what: String,
    times: u64,
    /// How often it must have been seen for the part to say anything.
    least: u64,
}

impl Tally {
    pub fn new() -> Tally {
        Tally { lines: Vec::new() }
    }

    /// This must be seen at least so many times.
    pub fn expect(&mut self, what: impl Into<String>, least: u64) {
        self.line(&what.into()).least = least;
    }

    /// This was seen so many times more.
    pub fn add(&mut self, what: &str, times: u64) {
        self.line(what).times += times;
    }

    fn line(&mut self, what: &str) -> &mut Line {
        let at = self.lines.iter().position(|line| line.what == what);
        let at = at.unwrap_or_else(|| {
            self.lines.push(Line {
                what: what.to_string(),
                times: 0,
                least: 0,
            });
            self.lines.len() - 1
        });
        &mut self.lines[at]
    }

    /// Prints the counts, and tells the first that is too low.
    pub fn close(&self) -> Result<(), String> {
        for line in &self.lines {
            println!("  {:>10}  {}", line.times, line.what);
        }
        match self.lines.iter().find(|line| line.times < line.least) {
            None => Ok(()),
            Some(line) => Err(format!(
                "seen {} times, and not at least {}: {}",
                line.times, line.least, line.what
            )),
        }
    }
}

/// The classes of places that are counted apart.
pub const FIRST: &str = "place 0";
pub const PLACES: [&str; 4] = [FIRST, "a middle place", "the last place", "place 63"];

/// The class of a place among so many. 0 and 63 are classes of their own, though they may be the last place too.
pub fn class(place: u32, count: usize) -> &'static str {
    match place as usize {
        0 => FIRST,
        63 => PLACES[3],
        place if place + 1 == count => PLACES[2],
        _ => PLACES[1],
    }
}

/// A line of the tally for what is counted apart for the forms.
pub fn in_form(form: Form, what: &str) -> String {
    match form {
        Form::One => format!("form one: {what}"),
        Form::Two => format!("form two: {what}"),
    }
}

/// Holds the answers of the paper and of the library together. The input is only told where they differ.
pub fn agree<T: PartialEq + Debug + ?Sized>(
    what: &str,
    paper: &T,
    library: &T,
    input: impl FnOnce() -> String,
) -> Result<(), String> {
    if paper == library {
        return Ok(());
    }
    Err(format!(
        "{what}\n  input: {}\n  paper: {paper:?}\n  library: {library:?}",
        input()
    ))
}

/// Goes through so many cases. Each has random numbers of its own, fixed by the seed, the series and the case.
pub fn for_cases(
    seed: u64,
    series: u64,
    cases: u64,
    mut each: impl FnMut(&mut Random) -> Result<(), String>,
) -> Result<(), String> {
    for case in 0..cases {
        let mut random = Random::of_case(seed, series, case);
        each(&mut random).map_err(|told| format!("series {series}, case {case}: {told}"))?;
    }
    Ok(())
}

/// Bytes as hexadecimal digits.
pub fn hex(bytes: &[u8]) -> String {
    bytes.iter().map(|byte| format!("{byte:02X}")).collect()
}
