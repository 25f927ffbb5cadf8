//! Parts 1 and 2: stored tables of both forms, the choice between two of them, and the second door.

use paper::forms::{Form, Stored, FORMS};
use paper::planning::plan;
use paper::reading::{choose, read};
use paper::tables::{check_table, ObjectRow, Refusal, MOST_HOLD, MOST_OBJECTS};

use crate::generate::{garbage_row, object_rows, spoil_rows, Times};
use crate::random::Random;
use crate::tally::{agree, class, for_cases, hex, in_form, Tally, FIRST, PLACES};
use crate::{cform, ffi, stored};

const STORED_TABLES: u64 = 200_000;
const PAIRS: u64 = 40_000;
const LISTS: u64 = 40_000;

/// Part 1: stored tables through the reader, and half of them through the planner.
pub fn stored_tables(seed: u64) -> Result<(), String> {
    let mut tally = Tally::new();
    tally.expect("stored tables", 150_000);
    tally.expect("of them also planned from the bytes", 50_000);
    for length in LENGTHS {
        tally.expect(format!("of {length} bytes"), 50);
    }
    for number in 1..=3 {
        tally.expect(format!("refusal {number}"), 100);
    }
    for form in FORMS {
        expect_form(form, &mut tally);
    }
    for_cases(seed, 1, STORED_TABLES, |random| stored_table(random, &mut tally))?;
    tally.close()
}

/// What must be seen in each of the forms.
fn expect_form(form: Form, tally: &mut Tally) {
    let mut expect = |what: &str, least| tally.expect(in_form(form, what), least);
    expect("read", 10_000);
    expect(SOME_HOLDS, 3_000);
    expect(LONGEST_HOLDS, 500);
    expect(EITHER_MARK, 100);
    if form == Form::Two {
        expect(SOME_FIRSTS, 3_000);
    }
    for number in [4, 5, 15] {
        expect(&format!("refusal {number}"), 100);
    }
    for distance in DISTANCES {
        expect(distance, 100);
    }
    expect(OTHER_DISTANCE, 100);
    for number in 6..=9 {
        for class in PLACES {
            // No record is earlier than the first, so 9 cannot be told there.
            if (number, class) != (9, FIRST) {
                expect(&format!("refusal {number} at {class}"), 20);
            }
        }
    }
    expect("planned from the bytes: planned", 1000);
    for class in PLACES {
        expect(&format!("planned from the bytes: refusal 10 at {class}"), 5);
    }
}

const SOME_HOLDS: &str = "read, with holds above 1";
const LONGEST_HOLDS: &str = "read, with a hold of 65,536";
const SOME_FIRSTS: &str = "read, with first releases other than 0";
const EITHER_MARK: &str = "read, and would under the other mark too";

/// Lengths that must have been seen.
const LENGTHS: [usize; 12] = [0, 1, 2, 3, 4, 5, 6, 7, 8, 9, 4096, 4097];

/// Distances that must have been seen where nothing but checks 5 and 15 and the records can refuse. "Needed" are 8 + 12
/// n in form one, and 8 + 16 n in form two.
const DISTANCES: [&str; 6] = [
    "distance one below the needed",
    "distance the needed",
    "distance the number of bytes",
    "distance one above the number of bytes",
    "distance the needed, which is above the number of bytes: 15",
    "distance below the needed and above the number of bytes: 5",
];
const OTHER_DISTANCE: &str = "distance what the other form would need";

fn stored_table(random: &mut Random, tally: &mut Tally) -> Result<(), String> {
    let bytes = stored::any(random);
    let answer = read(&bytes);
    let input = || format!("{} bytes {}", bytes.len(), hex(&bytes));
    agree(
        "channelfox_read",
        &Ok(cform::stored_answer(&answer)),
        &ffi::read(&bytes),
        input,
    )?;
    tally.add("stored tables", 1);
    tally.add(&told(&bytes, &answer), 1);
    if LENGTHS.contains(&bytes.len()) {
        tally.add(&format!("of {} bytes", bytes.len()), 1);
    }
    tell_held(&bytes, &answer, tally);
    tell_distance(&bytes, &answer, tally);
    let far = answer.as_ref().is_ok_and(|stored| is_far_to_search(&stored.rows));
    if random.one_in(if far { 40 } else { 2 }) {
        plan_from_the_bytes(&bytes, answer, tally)?;
    }
    Ok(())
}

/// The plan of stored bytes that the reader answers so.
fn plan_from_the_bytes(bytes: &[u8], answer: Result<Stored, Refusal>, tally: &mut Tally) -> Result<(), String> {
    let planned = answer.and_then(|stored| plan(stored.rows.len(), &stored.rows));
    agree(
        "channelfox_plan_stored",
        &Ok(cform::plan_answer(&planned)),
        &ffi::plan_stored(bytes),
        || format!("{} bytes {}", bytes.len(), hex(bytes)),
    )?;
    tally.add("of them also planned from the bytes", 1);
    let seen = match planned {
        Ok(_) => "planned from the bytes: planned".to_string(),
        Err(Refusal { number: 10, place }) => {
            let class = class(place, told_count(bytes));
            format!("planned from the bytes: refusal 10 at {class}")
        }
        Err(_) => return Ok(()),
    };
    let form = told_form(bytes).expect("what is planned has a form");
    tally.add(&in_form(form, &seen), 1);
    Ok(())
}

/// What good bytes hold.
fn tell_held(bytes: &[u8], answer: &Result<Stored, Refusal>, tally: &mut Tally) {
    let Ok(stored) = answer else {
        return;
    };
    let longest = stored.rows.iter().map(|row| row.hold).max();
    let seen = [
        (SOME_HOLDS, longest.is_some_and(|hold| hold > 1)),
        (LONGEST_HOLDS, longest == Some(MOST_HOLD)),
        (SOME_FIRSTS, stored.firsts.iter().any(|first| *first != 0)),
        (EITHER_MARK, reads_under_the_other_mark(bytes, stored.form)),
    ];
    for (what, seen) in seen {
        if seen {
            tally.add(&in_form(stored.form, what), 1);
        }
    }
}

/// Whether these bytes would read, as other rows or other first releases, if they had the mark of the other form.
fn reads_under_the_other_mark(bytes: &[u8], form: Form) -> bool {
    let mut other = bytes.to_vec();
    other[bytes.len() - 2..].copy_from_slice(&form.other().mark());
    read(&other).is_ok()
}

/// Many objects with long validities, whose deadlines are far to search for a planner that tries every t.
fn is_far_to_search(rows: &[ObjectRow]) -> bool {
    rows.len() > 6 && rows.iter().filter(|row| row.validity > 10_000).count() > 3
}

fn tell_distance(bytes: &[u8], answer: &Result<Stored, Refusal>, tally: &mut Tally) {
    let form = match answer {
        Err(Refusal { number: 1..=4, .. }) => return,
        _ => told_form(bytes).expect("3 is a mark of neither form"),
    };
    let length = bytes.len();
    let trailer: [u8; 4] = bytes[length - 8..length - 4].try_into().expect("four bytes");
    let distance = u32::from_le_bytes(trailer) as usize;
    let needed = form.length(told_count(bytes));
    let number = answer.as_ref().map_or_else(|refusal| refusal.number, |_| 0);
    let seen = [
        distance == needed - 1,
        distance == needed,
        distance == length,
        distance == length + 1,
        distance == needed && distance > length && number == 15,
        distance < needed && distance > length && number == 5,
    ];
    for (seen, told) in seen.into_iter().zip(DISTANCES) {
        tally.add(&in_form(form, told), u64::from(seen));
    }
    let other = distance == form.other().length(told_count(bytes));
    tally.add(&in_form(form, OTHER_DISTANCE), u64::from(other));
}

/// The count that a stored table tells, where checks 1 to 4 have found nothing, so that its lower byte is all of it.
fn told_count(bytes: &[u8]) -> usize {
    usize::from(bytes[bytes.len() - 4])
}

/// The form that the last two bytes tell, if there are so many and they tell one.
fn told_form(bytes: &[u8]) -> Option<Form> {
    bytes.last_chunk::<2>().and_then(|mark| Form::with_mark(mark))
}

/// The line of the tally for an answer of the reader.
fn told(bytes: &[u8], answer: &Result<Stored, Refusal>) -> String {
    let what = match answer {
        Ok(_) => "read".to_string(),
        Err(Refusal {
            number: number @ (1..=5 | 15),
            ..
        }) => format!("refusal {number}"),
        Err(Refusal { number, place }) => {
            format!("refusal {number} at {}", class(*place, told_count(bytes)))
        }
    };
    match (answer, told_form(bytes)) {
        (Err(Refusal { number: 1..=3, .. }), _) | (_, None) => what,
        (_, Some(form)) => in_form(form, &what),
    }
}

/// Part 2: the choice, and the second door.
pub fn choices_and_lists(seed: u64) -> Result<(), String> {
    let mut tally = Tally::new();
    tally.expect("pairs of site and factory bytes", 10_000);
    for site in READABLE {
        for factory in READABLE {
            tally.expect(format!("site {site}, factory {factory}"), 1000);
        }
    }
    for_cases(seed, 20, PAIRS, |random| choice(random, &mut tally))?;
    tally.expect("lists of object rows", 10_000);
    tally.expect("lists accepted", 1000);
    for number in [4, 6, 7, 8, 9] {
        tally.expect(format!("lists with refusal {number}"), 1000);
    }
    for_cases(seed, 21, LISTS, |random| list(random, &mut tally))?;
    tally.close()
}

/// What bytes to choose from may be.
const READABLE: [&str; 3] = ["of form one", "of form two", "bad"];

fn choice(random: &mut Random, tally: &mut Tally) -> Result<(), String> {
    let site = good_or_bad(random);
    let factory = good_or_bad(random);
    let chosen = choose(&site, &factory);
    let library = ffi::choose(&site, &factory);
    agree("channelfox_choose", &Ok(cform::part(&chosen)), &library, || {
        format!("site {}\n  factory {}", hex(&site), hex(&factory))
    })?;
    tally.add("pairs of site and factory bytes", 1);
    let word = |bytes| match read(bytes).map(|stored| stored.form) {
        Ok(Form::One) => READABLE[0],
        Ok(Form::Two) => READABLE[1],
        Err(_) => READABLE[2],
    };
    tally.add(&format!("site {}, factory {}", word(&site), word(&factory)), 1);
    Ok(())
}

fn good_or_bad(random: &mut Random) -> Vec<u8> {
    match random.one_in(2) {
        true => stored::good(random),
        false => stored::bad(random),
    }
}

fn list(random: &mut Random, tally: &mut Tally) -> Result<(), String> {
    let rows = rows_of_any_length(random);
    let answer = check_table(rows.len(), &rows).map(|rows| rows.to_vec());
    let in_c: Vec<ffi::ObjectRow> = rows.iter().map(cform::object_row).collect();
    let library = ffi::rows(&in_c);
    agree("channelfox_rows", &Ok(cform::read_answer(&answer)), &library, || {
        format!("{} rows {rows:?}", rows.len())
    })?;
    tally.add("lists of object rows", 1);
    match answer {
        Ok(_) => tally.add("lists accepted", 1),
        Err(refusal) => tally.add(&format!("lists with refusal {}", refusal.number), 1),
    }
    Ok(())
}

/// From none to 70 rows, good ones half of the time.
fn rows_of_any_length(random: &mut Random) -> Vec<ObjectRow> {
    let length = match random.below(8) {
        0 => 0,
        1 => random.between(MOST_OBJECTS, MOST_OBJECTS + 1),
        2 => random.between(MOST_OBJECTS - 1, 70),
        _ => random.between(1, 70),
    };
    let times = random.pick(&[Times::Short, Times::Middle, Times::Long, Times::Ends]);
    let mut rows = object_rows(random, length, times);
    if length > 0 && random.one_in(2) {
        spoil_rows(random, &mut rows);
    }
    if length > 0 && random.one_in(10) {
        rows.fill_with(|| garbage_row(random));
    }
    rows
}
