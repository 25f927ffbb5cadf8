//! Part 11: stored tables of both forms, good and damaged, converted to the other form, and back again.

use paper::converting::convert;
use paper::forms::{Form, FORMS};
use paper::reading::read;
use paper::tables::{Refusal, MOST_OBJECTS};

use crate::buffers::{expect_buffers, lengths_near, tell_buffer};
use crate::part_forms::no_form;
use crate::random::Random;
use crate::tally::{agree, class, for_cases, hex, in_form, Tally, FIRST, PLACES};
use crate::{cform, ffi, stored};

const STORED_TABLES: u64 = 100_000;
const TO_BUFFERS: u64 = 20_000;
const TO_EVERY_BUFFER: u64 = 200;

pub fn conversions(seed: u64) -> Result<(), String> {
    let mut tally = Tally::new();
    expect_conversions(&mut tally);
    for_cases(seed, 110, STORED_TABLES, |random| conversion(random, &mut tally))?;
    tally.close()?;

    println!("  to buffers of every length near what is needed, and some of every length:");
    let mut tally = Tally::new();
    for form in FORMS {
        expect_buffers(Some(form), &mut tally);
    }
    tally.expect(REFUSED_WITH_ANY, 1000);
    for_cases(seed, 111, TO_BUFFERS, |random| to_buffers(random, &mut tally))?;
    for_cases(seed, 112, TO_EVERY_BUFFER, |random| to_every_buffer(random, &mut tally))?;
    tally.close()
}

const THERE_AND_BACK: &str = "converted there and back, without unread bytes: the same bytes";
const THERE_AND_BACK_ANEW: &str = "converted there and back, with unread bytes: bytes that hold the same";
const OTHER_MARK: &str = "refusal 3: the mark of the other form";
const NO_MARK: &str = "refusal 3: neither mark";
const NO_FORM: &str = "refusal 3: no form told, and a mark of one";
const RECORDS_FIRST: &str = "refused for its records, with a first release that form one has no room for";

fn expect_conversions(tally: &mut Tally) {
    tally.expect("conversions", 100_000);
    tally.expect(NO_FORM, 1000);
    for number in [1, 2] {
        tally.expect(format!("refusal {number}"), 100);
    }
    for form in FORMS {
        for what in [THERE_AND_BACK, THERE_AND_BACK_ANEW] {
            tally.expect(in_form(form, what), 1000);
        }
        for what in [OTHER_MARK, NO_MARK, "refusal 4", "refusal 5", "refusal 15"] {
            tally.expect(in_form(form, what), 50);
        }
        for number in 6..=9 {
            for class in PLACES {
                // No record is earlier than the first, so 9 cannot be told there.
                if (number, class) != (9, FIRST) {
                    tally.expect(in_form(form, &format!("refusal {number} at {class}")), 3);
                }
            }
        }
    }
    for class in PLACES {
        tally.expect(in_form(Form::Two, &format!("refusal 18 at {class}")), 20);
    }
    tally.expect(in_form(Form::Two, RECORDS_FIRST), 100);
}

/// Stored bytes to be converted, many of them without unread bytes, and the number of the form told: mostly that of
/// their mark.
fn drawn(random: &mut Random) -> (Vec<u8>, u32) {
    let bytes = match random.one_in(2) {
        true => stored::any(random),
        false => stored::to_write_again(random),
    };
    let marked = bytes.last_chunk::<2>().and_then(|mark| Form::with_mark(mark));
    let from = match (random.below(8), marked) {
        (0, _) => no_form(random),
        (1, Some(form)) => cform::form(Some(form.other())),
        (_, Some(form)) => cform::form(Some(form)),
        (_, None) => random.pick(&[ffi::FORM_ONE, ffi::FORM_TWO]),
    };
    (bytes, from)
}

/// Converts bytes, and back again where that succeeds, with buffers that are large enough.
fn conversion(random: &mut Random, tally: &mut Tally) -> Result<(), String> {
    let (bytes, from) = drawn(random);
    let given = random.bytes(1100);
    let (answer, there) = compare_convert(&bytes, from, &given)?;
    tally.add("conversions", 1);
    match answer {
        Ok(length) => there_and_back(&bytes, from, &there[..length], tally),
        Err(refusal) => {
            tell_refused(&bytes, from, refusal, tally);
            Ok(())
        }
    }
}

/// The paper's answer and what becomes of the buffer, once the library has answered the same.
fn compare_convert(bytes: &[u8], from: u32, given: &[u8]) -> Result<(Result<usize, Refusal>, Vec<u8>), String> {
    let mut buffer = given.to_vec();
    let answer = convert(bytes, cform::form_told(from), &mut buffer);
    let expected = Ok(Ok((cform::written(&answer), buffer.clone())));
    let library = ffi::convert(bytes, from, given);
    agree("channelfox_convert", &expected, &library, || {
        format!(
            "from {from}, {} bytes {}\n  buffer of {} bytes {}",
            bytes.len(),
            hex(bytes),
            given.len(),
            hex(given)
        )
    })?;
    Ok((answer, buffer))
}

/// What was converted reads as the same rows, and goes back without a refusal.
fn there_and_back(bytes: &[u8], from: u32, there: &[u8], tally: &mut Tally) -> Result<(), String> {
    let held = read(bytes).map_err(|refusal| format!("converted, though it does not read: {refusal:?}"))?;
    let input = || format!("from {from}, {} bytes {}", bytes.len(), hex(bytes));
    let mut expected = cform::stored_answer(&Ok(held.clone()));
    expected.stored.form = cform::form(Some(held.form.other()));
    // Form one has no first releases and form two had none, or it would have been refused.
    expected.stored.firsts.fill(0);
    agree("what is converted, read", &Ok(expected), &ffi::read(there), input)?;

    let length = held.form.length(held.rows.len());
    let (answer, back) = compare_convert(there, expected.stored.form, &vec![0xEE; length])?;
    agree("converted back", &Ok(length), &answer, input)?;
    if bytes.len() == length {
        tally.add(&in_form(held.form, THERE_AND_BACK), 1);
        agree("the bytes converted there and back", bytes, &back[..], input)
    } else {
        tally.add(&in_form(held.form, THERE_AND_BACK_ANEW), 1);
        let expected = cform::stored_answer(&Ok(held));
        agree(
            "converted there and back, read",
            &Ok(expected),
            &ffi::read(&back),
            input,
        )
    }
}

fn tell_refused(bytes: &[u8], from: u32, refusal: Refusal, tally: &mut Tally) {
    let told = match refusal {
        Refusal { number: 1 | 2, .. } => return tally.add(&format!("refusal {}", refusal.number), 1),
        Refusal { number: 3, .. } => match Form::with_mark(&bytes[bytes.len() - 2..]) {
            Some(_) if cform::form_told(from).is_none() => return tally.add(NO_FORM, 1),
            Some(_) => OTHER_MARK.to_string(),
            None => NO_MARK.to_string(),
        },
        Refusal { number: 4 | 5 | 15, .. } => format!("refusal {}", refusal.number),
        // The count is a good one, so its lower byte is all of it.
        Refusal { number, place } => {
            format!(
                "refusal {number} at {}",
                class(place, usize::from(bytes[bytes.len() - 4]))
            )
        }
    };
    let Some(form) = cform::form_told(from) else {
        return;
    };
    tally.add(&in_form(form, &told), 1);
    if (6..=9).contains(&refusal.number) && form == Form::Two && has_first_release(bytes) {
        tally.add(&in_form(form, RECORDS_FIRST), 1);
    }
}

/// Whether the first record of form two, which its trailer points at well, has a first release other than 0.
fn has_first_release(bytes: &[u8]) -> bool {
    let trailer: [u8; 4] = bytes[bytes.len() - 8..][..4].try_into().expect("four bytes");
    let start = bytes.len() - u32::from_le_bytes(trailer) as usize;
    bytes[start + 12..start + 16] != [0; 4]
}

const REFUSED_WITH_ANY: &str = "refused with any buffer";

/// Bytes converted to buffers of every length near what is needed. What is refused for other reasons is refused whatever
/// the buffer.
fn to_buffers(random: &mut Random, tally: &mut Tally) -> Result<(), String> {
    let (bytes, from) = drawn(random);
    let needed = match convert(&bytes, cform::form_told(from), &mut [0; 2000]) {
        Ok(needed) => needed,
        Err(_) => random.between(0, Form::Two.length(MOST_OBJECTS)),
    };
    let lengths = lengths_near(random, needed);
    convert_to_each(random, &bytes, from, needed, &lengths, tally)
}

/// The same for every length from none to some more than is needed.
fn to_every_buffer(random: &mut Random, tally: &mut Tally) -> Result<(), String> {
    let bytes = stored::without_gap(random);
    let form = read(&bytes).expect("the bytes are good").form;
    let needed = form.other().length(usize::from(bytes[bytes.len() - 4]));
    let lengths: Vec<usize> = (0..needed + 20).collect();
    convert_to_each(random, &bytes, cform::form(Some(form)), needed, &lengths, tally)
}

fn convert_to_each(
    random: &mut Random,
    bytes: &[u8],
    from: u32,
    needed: usize,
    lengths: &[usize],
    tally: &mut Tally,
) -> Result<(), String> {
    for length in lengths {
        let given = random.bytes(*length);
        let (answer, _) = compare_convert(bytes, from, &given)?;
        match answer {
            Ok(_) | Err(Refusal { number: 16, .. }) => {
                tell_buffer(cform::form_told(from), &answer, *length, needed, tally);
            }
            Err(_) => tally.add(REFUSED_WITH_ANY, 1),
        }
    }
    Ok(())
}
