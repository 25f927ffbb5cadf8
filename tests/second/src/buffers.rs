//! Tables, good and bad, written into lent buffers of any length: what is the same for all that writes tables.

use paper::forms::Form;
use paper::tables::{ObjectRow, Refusal, MOST_HOLD, MOST_OBJECTS};

use crate::generate::handed_in;
use crate::random::Random;
use crate::tally::{agree, hex, in_form, Tally};
use crate::{cform, ffi};

/// A function that writes a table into a buffer, on paper.
type OnPaper = fn(usize, &[ObjectRow], &mut [u8]) -> Result<usize, Refusal>;

/// The same in the library, with what has become of the buffer.
type InLibrary = fn(&ffi::Table, &[u8]) -> Result<(ffi::Written, Vec<u8>), ffi::BesideTouched>;

/// A function that writes tables, on paper and in the library.
pub struct Writer {
    pub name: &'static str,
    pub paper: OnPaper,
    pub library: InLibrary,
    /// How many bytes these rows take.
    pub needed: fn(&[ObjectRow]) -> usize,
    /// Looks whether the library reads these bytes, which this has written, as these rows in the same order.
    pub reads_back: fn(&[u8], &[ObjectRow]) -> Result<(), String>,
}

/// The classes of buffers that are counted apart.
const TOO_SMALL: [&str; 3] = ["an empty buffer", "a buffer too small", "a buffer too small by one"];
const LARGE_ENOUGH: [&str; 3] = ["an exact buffer", "a buffer larger by one", "a larger buffer"];

impl Writer {
    /// What must be seen when this goes through many tables.
    pub fn expect(&self, tally: &mut Tally) {
        tally.expect("tables to write", 100_000);
        expect_buffers(None, tally);
        for number in [4, 6, 7, 8, 9] {
            tally.expect(format!("refusal {number}"), 500);
            tally.expect(format!("refusal {number}, before a buffer too small"), 100);
        }
        tally.expect("written with 64 objects", 1000);
        tally.expect("written with rows beyond the count that are not zero", 1000);
        tally.expect("written with holds above 1", 1000);
        tally.expect("written with a hold of 65,536", 1000);
    }

    /// A table, good or bad, is written to a buffer of any length; what was written is read, and has the same rows.
    pub fn compare(&self, random: &mut Random, tally: &mut Tally) -> Result<(), String> {
        let (count, rows) = handed_in(random);
        let needed = (self.needed)(&rows[..count.min(MOST_OBJECTS)]);
        let given = buffer(random, needed);
        let table = cform::handed_in(count, &rows);
        let input = || format!("{table:?}\n  buffer of {} bytes {}", given.len(), hex(&given));

        let mut bytes = given.clone();
        let answer = (self.paper)(count, &rows, &mut bytes);
        let expected = (cform::written(&answer), bytes);
        let library = (self.library)(&table, &given);
        agree(self.name, &Ok(&expected), &library.as_ref(), input)?;
        tally.add("tables to write", 1);
        match answer {
            Ok(length) => {
                (self.reads_back)(&expected.1[..length], &rows[..count])?;
                tell_written(count, &rows, tally);
            }
            Err(refusal) => tell_refused(refusal, given.len() < needed, tally),
        }
        tell_buffer(None, &answer, given.len(), needed, tally);
        Ok(())
    }
}

/// A buffer of random bytes for so many that are needed.
fn buffer(random: &mut Random, needed: usize) -> Vec<u8> {
    let length = match random.below(12) {
        0 => 0,
        1 => random.between(0, needed),
        2 | 3 => needed.saturating_sub(1),
        4 => needed + 1,
        5 | 6 => random.between(needed + 1, needed + 30),
        7 => random.between(needed, 5000),
        _ => needed,
    };
    random.bytes(length)
}

/// Lengths of buffers for so many bytes that are needed: every one close to it, none, and some smaller and larger.
pub fn lengths_near(random: &mut Random, needed: usize) -> Vec<usize> {
    let mut lengths: Vec<usize> = (needed.saturating_sub(4)..=needed + 4).collect();
    lengths.push(0);
    lengths.push(random.between(0, needed));
    lengths.push(random.between(needed, 2 * needed + 40));
    lengths
}

/// What must be seen of buffers where something is written or refused with 16, in a form if these are counted apart.
pub fn expect_buffers(form: Option<Form>, tally: &mut Tally) {
    for class in LARGE_ENOUGH {
        tally.expect(line(form, &format!("written with {class}")), 1000);
    }
    for class in TOO_SMALL {
        tally.expect(line(form, &format!("refusal 16 with {class}")), 1000);
    }
}

fn line(form: Option<Form>, what: &str) -> String {
    form.map_or(what.to_string(), |form| in_form(form, what))
}

fn tell_written(count: usize, rows: &[ObjectRow], tally: &mut Tally) {
    tally.add("written with 64 objects", u64::from(count == MOST_OBJECTS));
    let used = &rows[..count];
    tally.add(
        "written with holds above 1",
        u64::from(used.iter().any(|row| row.hold > 1)),
    );
    let longest = used.iter().any(|row| row.hold == MOST_HOLD);
    tally.add("written with a hold of 65,536", u64::from(longest));
    let beyond = rows[count..].iter().any(|row| *row != ObjectRow::default());
    tally.add(
        "written with rows beyond the count that are not zero",
        u64::from(beyond),
    );
}

fn tell_refused(refusal: Refusal, too_small: bool, tally: &mut Tally) {
    if refusal.number != 16 {
        let told = format!("refusal {}", refusal.number);
        tally.add(&told, 1);
        tally.add(&format!("{told}, before a buffer too small"), u64::from(too_small));
    }
}

/// How the buffer was, where all depends on it.
pub fn tell_buffer(
    form: Option<Form>,
    answer: &Result<usize, Refusal>,
    length: usize,
    needed: usize,
    tally: &mut Tally,
) {
    let class = match length {
        0 => TOO_SMALL[0],
        _ if length + 1 < needed => TOO_SMALL[1],
        _ if length + 1 == needed => TOO_SMALL[2],
        _ if length == needed => LARGE_ENOUGH[0],
        _ if length == needed + 1 => LARGE_ENOUGH[1],
        _ => LARGE_ENOUGH[2],
    };
    let what = match answer {
        Ok(_) => "written",
        Err(Refusal { number: 16, .. }) => "refusal 16",
        Err(_) => return,
    };
    tally.add(&line(form, &format!("{what} with {class}")), 1);
}
