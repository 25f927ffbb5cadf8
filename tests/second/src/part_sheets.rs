//! Part 8: the reseller's sheet, imported and exported, and both ways round between rows and sheets.

use paper::sheet::{export, import, lines, sheet};
use paper::tables::{ObjectRow, Refusal, MOST_OBJECTS};

use crate::buffers::Writer;
use crate::random_sheets::{any_damage, Sheet, KINDS};
use crate::tally::{agree, class, for_cases, hex, Tally, FIRST, PLACES};
use crate::{cform, ffi};

const SHEETS_OF_EACH_KIND: u64 = 1_000;
const DAMAGED_SHEETS: u64 = 80_000;
const TABLES: u64 = 120_000;

const EXPORT: Writer = Writer {
    name: "channelfox_export",
    paper: export,
    library: ffi::export,
    needed: |rows| sheet(rows).len(),
    reads_back,
};

fn reads_back(bytes: &[u8], rows: &[ObjectRow]) -> Result<(), String> {
    let expected = cform::read_answer(&Ok(rows.to_vec()));
    let what = "what channelfox_export has written, imported";
    agree(what, &Ok(expected), &ffi::import(bytes), || hex(bytes))
}

pub fn sheets(seed: u64) -> Result<(), String> {
    let mut tally = Tally::new();
    expect_answers(&mut tally);
    for (kind, series) in KINDS.iter().zip(800..) {
        tally.expect(format!("of the kind: {}", kind.name), SHEETS_OF_EACH_KIND);
        for_cases(seed, series, SHEETS_OF_EACH_KIND, |random| {
            let made = kind.sheet(random);
            one_of_a_kind(&made, &mut tally).map_err(|told| format!("{}: {told}", kind.name))?;
            tally.add(&format!("of the kind: {}", kind.name), 1);
            Ok(())
        })?;
    }
    tally.expect("of a few lines and damaged in any way", 50_000);
    for_cases(seed, 80, DAMAGED_SHEETS, |random| {
        tally.add("of a few lines and damaged in any way", 1);
        one_sheet(&any_damage(random), &mut tally)
    })?;
    tally.close()?;
    every_short_sheet()?;

    println!("  exported:");
    let mut tally = Tally::new();
    EXPORT.expect(&mut tally);
    for_cases(seed, 81, TABLES, |random| EXPORT.compare(random, &mut tally))?;
    tally.close()
}

fn expect_answers(tally: &mut Tally) {
    tally.expect("sheets", 100_000);
    tally.expect("imported, and exported as the same bytes", 5_000);
    tally.expect("refusal 2", 1_000);
    tally.expect("refusal 4, no line", 1_000);
    tally.expect("refusal 4, too many lines", 1_000);
    for class in LINES {
        tally.expect(format!("refusal 17 at {class}"), 1_000);
    }
    for number in 6..=9 {
        for class in PLACES {
            // No row is earlier than the first, so 9 cannot be told there.
            if (number, class) != (9, FIRST) {
                tally.expect(format!("refusal {number} at {class}"), 10);
            }
        }
    }
}

const LINES: [&str; 4] = ["line 0", "a middle line", "the last line", "a line after the 64th"];

/// The paper must have the answer that a sheet was made for: otherwise it is not of the kind that it is counted as.
fn one_of_a_kind(made: &Sheet, tally: &mut Tally) -> Result<(), String> {
    let answer = import(&made.bytes).map(|_| ());
    match made.known {
        Some(known) if known != answer => Err(format!(
            "made for {known:?}, and the paper has {answer:?}: {}",
            told(&made.bytes)
        )),
        _ => one_sheet(&made.bytes, tally),
    }
}

/// A sheet through the import, and what is imported through the export.
fn one_sheet(bytes: &[u8], tally: &mut Tally) -> Result<(), String> {
    let answer = compare_import(bytes)?;
    tally.add("sheets", 1);
    tally.add(&line_of_the_tally(bytes, &answer), 1);
    Ok(())
}

fn compare_import(bytes: &[u8]) -> Result<Result<Vec<ObjectRow>, Refusal>, String> {
    let answer = import(bytes);
    let expected = cform::read_answer(&answer);
    let library = ffi::import(bytes);
    agree("channelfox_import", &Ok(expected), &library, || told(bytes))?;
    if answer.is_ok() {
        let given = vec![0xEE; bytes.len()];
        let library = ffi::export(&expected.table, &given);
        let same = (cform::written(&Ok(bytes.len())), bytes.to_vec());
        agree("channelfox_export of what was imported", &Ok(same), &library, || {
            told(bytes)
        })?;
    }
    Ok(answer)
}

fn line_of_the_tally(bytes: &[u8], answer: &Result<Vec<ObjectRow>, Refusal>) -> String {
    let count = lines(bytes).len();
    match answer {
        Ok(_) => "imported, and exported as the same bytes".to_string(),
        Err(Refusal { number: 2, .. }) => "refusal 2".to_string(),
        Err(Refusal { number: 4, .. }) if count == 0 => "refusal 4, no line".to_string(),
        Err(Refusal { number: 4, .. }) => "refusal 4, too many lines".to_string(),
        Err(Refusal { number: 17, place }) => {
            let class = match *place as usize {
                0 => LINES[0],
                place if place >= MOST_OBJECTS => LINES[3],
                place if place + 1 == count => LINES[2],
                _ => LINES[1],
            };
            format!("refusal 17 at {class}")
        }
        Err(Refusal { number, place }) => format!("refusal {number} at {}", class(*place, count)),
    }
}

/// A sheet as hexadecimal digits, and its first bytes as text.
fn told(bytes: &[u8]) -> String {
    let text = String::from_utf8_lossy(&bytes[..bytes.len().min(200)]).into_owned();
    format!("{} bytes {}\n  which begin {text:?}", bytes.len(), hex(bytes))
}

/// Every sheet of at most nine bytes, each of them 0, 2, a comma, CR or LF. Nine bytes are the shortest line.
fn every_short_sheet() -> Result<(), String> {
    let mut tally = Tally::new();
    tally.expect(SHORT_SHEETS, 2_000_000);
    for (number, least) in [(0, 2), (4, 1), (6, 2), (7, 2), (8, 2), (17, 2_000_000)] {
        tally.expect(of_short_sheets(number), least);
    }
    for length in 0..=9 {
        // How often each refusal was met, and in place 0 how often none was.
        let mut times = [0; 18];
        for case in 0..BYTES.len().pow(length) {
            let answer = compare_import(&short_sheet(length, case))?;
            times[answer.map_or_else(|refusal| refusal.number as usize, |_| 0)] += 1;
        }
        tally.add(SHORT_SHEETS, times.iter().sum());
        for (number, times) in times.into_iter().enumerate().filter(|(_, times)| *times > 0) {
            tally.add(&of_short_sheets(number), times);
        }
    }
    tally.close()
}

/// The line of the tally for the short sheets with this refusal, or with none.
fn of_short_sheets(number: usize) -> String {
    match number {
        0 => "of them imported".to_string(),
        _ => format!("of them refused with {number}"),
    }
}

const SHORT_SHEETS: &str = "sheets of at most 9 bytes, each 0, 2, comma, CR or LF";
const BYTES: &[u8] = b"02,\r\n";

/// The sheet of so many bytes that this number stands for: its digits to the base of as many as there are bytes.
fn short_sheet(length: u32, case: usize) -> Vec<u8> {
    let digit = |at: u32| case / BYTES.len().pow(at) % BYTES.len();
    (0..length).map(|at| BYTES[digit(at)]).collect()
}
