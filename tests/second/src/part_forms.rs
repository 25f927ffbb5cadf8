//! Part 10: tables with first releases written in either form, and stored tables that are read and written again.

use paper::forms::{Form, FORMS};
use paper::reading::read;
use paper::tables::{ObjectRow, Refusal, MOST_OBJECTS};
use paper::writing::write_stored;

use crate::buffers::{expect_buffers, lengths_near, tell_buffer};
use crate::generate::{first_words, handed_in};
use crate::random::Random;
use crate::tally::{agree, class, for_cases, hex, in_form, Tally, PLACES};
use crate::{cform, ffi, stored};

const TABLES: u64 = 40_000;
const STORED_TABLES: u64 = 60_000;

pub fn written_forms(seed: u64) -> Result<(), String> {
    let mut tally = Tally::new();
    expect_written(&mut tally);
    for_cases(seed, 100, TABLES, |random| written(random, &mut tally))?;
    tally.close()?;

    println!("  read and written again:");
    let mut tally = Tally::new();
    for form in FORMS {
        tally.expect(in_form(form, WITHOUT_UNREAD_BYTES), 10_000);
        tally.expect(in_form(form, WITH_UNREAD_BYTES), 1000);
    }
    for_cases(seed, 101, STORED_TABLES, |random| written_again(random, &mut tally))?;
    tally.close()
}

const ANY_FORM: &str = "no form: refusal 3";
const ANY_FORM_AND_MORE: &str = "no form: refusal 3, and the rows or first releases would be refused too";
const ROWS_FIRST: &str = "refused for its rows, with a first release that form one has no room for";
const BEYOND: &str = "written, with first releases beyond the count that are not 0";

fn expect_written(tally: &mut Tally) {
    tally.expect("tables to write", 30_000);
    tally.expect(ANY_FORM, 1000);
    tally.expect(ANY_FORM_AND_MORE, 500);
    for form in FORMS {
        expect_buffers(Some(form), tally);
        for number in [4, 6, 7, 8, 9] {
            tally.expect(in_form(form, &format!("refusal {number}")), 100);
        }
        tally.expect(in_form(form, BEYOND), 500);
    }
    tally.expect(in_form(Form::One, ROWS_FIRST), 100);
    for class in PLACES {
        tally.expect(in_form(Form::One, &format!("refusal 18 at {class}")), 20);
    }
}

/// What is handed in to be written: a number for the form, a count, 64 rows and 64 first releases.
struct Drawn {
    form: u32,
    count: usize,
    rows: Vec<ObjectRow>,
    firsts: Vec<u32>,
}

fn drawn(random: &mut Random) -> Drawn {
    let (count, rows) = handed_in(random);
    let used = count.clamp(1, MOST_OBJECTS);
    let mut firsts = first_words(random, used);
    let beyond = random.pick(&[0, 1, u32::MAX]);
    firsts.resize(MOST_OBJECTS, beyond);
    Drawn {
        form: match random.one_in(12) {
            true => no_form(random),
            false => random.pick(&[ffi::FORM_ONE, ffi::FORM_TWO]),
        },
        count,
        rows,
        firsts,
    }
}

/// A number that tells no form. Some of them do to those who keep only 8 or 16 bits of it.
pub fn no_form(random: &mut Random) -> u32 {
    let any = random.words(3, u32::MAX);
    random.pick(&[
        0,
        0,
        3,
        4,
        12,
        16,
        0x101,
        0x102,
        0x1_0001,
        0x1_0002,
        0x324D,
        u32::MAX,
        any,
    ])
}

/// What is drawn is written to buffers of every length near what is needed.
fn written(random: &mut Random, tally: &mut Tally) -> Result<(), String> {
    let drawn = drawn(random);
    let form = cform::form_told(drawn.form);
    let needed = form.unwrap_or(Form::Two).length(drawn.count.min(MOST_OBJECTS));
    for length in lengths_near(random, needed) {
        let given = random.bytes(length);
        let answer = compare_write(&drawn, &given)?;
        tell_buffer(form, &answer, length, needed, tally);
    }
    tally.add("tables to write", 1);
    tell_written(&drawn, tally);
    Ok(())
}

fn compare_write(drawn: &Drawn, given: &[u8]) -> Result<Result<usize, Refusal>, String> {
    let mut bytes = given.to_vec();
    let form = cform::form_told(drawn.form);
    let answer = write_stored(form, drawn.count, &drawn.rows, &drawn.firsts, &mut bytes);
    let in_c = cform::stored_handed_in(drawn.form, drawn.count, &drawn.rows, &drawn.firsts);
    let expected = Ok((cform::written(&answer), bytes));
    let library = ffi::write_stored(&in_c, given);
    agree("channelfox_write_stored", &expected, &library, || {
        format!("{in_c:?}\n  buffer of {} bytes {}", given.len(), hex(given))
    })?;
    Ok(answer)
}

/// What comes of it, with a buffer that is large enough.
fn tell_written(drawn: &Drawn, tally: &mut Tally) {
    let written = |form| write_stored(form, drawn.count, &drawn.rows, &drawn.firsts, &mut [0; 2000]);
    let Some(form) = cform::form_told(drawn.form) else {
        tally.add(ANY_FORM, 1);
        tally.add(ANY_FORM_AND_MORE, u64::from(written(Some(Form::One)).is_err()));
        return;
    };
    let told = match written(Some(form)) {
        Ok(_) if drawn.count < MOST_OBJECTS && drawn.firsts[drawn.count] != 0 => BEYOND.to_string(),
        Ok(_) => return,
        Err(Refusal { number: 18, place }) => format!("refusal 18 at {}", class(place, drawn.count)),
        Err(refusal) => {
            let used = &drawn.firsts[..drawn.count.min(MOST_OBJECTS)];
            let no_room = form == Form::One && used.iter().any(|first| *first != 0);
            tally.add(&in_form(Form::One, ROWS_FIRST), u64::from(no_room));
            format!("refusal {}", refusal.number)
        }
    };
    tally.add(&in_form(form, &told), 1);
}

const WITHOUT_UNREAD_BYTES: &str = "stored tables without unread bytes that read, written again";
const WITH_UNREAD_BYTES: &str = "stored tables with unread bytes that read, written again";

/// Stored bytes that read are written again in their form, as the library has read them. Without unread bytes that gives
/// the same bytes; with them it gives bytes that hold the same.
fn written_again(random: &mut Random, tally: &mut Tally) -> Result<(), String> {
    let bytes = stored::to_write_again(random);
    let Ok(held) = read(&bytes) else {
        return Ok(());
    };
    let input = || format!("{} bytes {}", bytes.len(), hex(&bytes));
    let expected = cform::stored_answer(&Ok(held.clone()));
    let library = ffi::read(&bytes);
    agree("channelfox_read", &Ok(expected), &library, input)?;

    let length = held.form.length(held.rows.len());
    let given = random.bytes(length);
    // As the library has read it, which is as the paper has: so a row or number beyond the count is 0.
    let library = ffi::write_stored(&expected.stored, &given);
    let (written, again) = library.map_err(|told| format!("{told:?}: {}", input()))?;
    let what = "channelfox_write_stored of what was read";
    agree(what, &cform::written(&Ok(length)), &written, input)?;
    if held.form == Form::One {
        let library = ffi::write(&expected.stored.table, &given);
        let same = Ok((written, again.clone()));
        agree("channelfox_write of what was read", &same, &library, input)?;
    }
    if bytes.len() == length {
        tally.add(&in_form(held.form, WITHOUT_UNREAD_BYTES), 1);
        agree("the bytes written again", &bytes, &again, input)
    } else {
        tally.add(&in_form(held.form, WITH_UNREAD_BYTES), 1);
        agree(
            "the bytes written again, read",
            &Ok(expected),
            &ffi::read(&again),
            input,
        )
    }
}
