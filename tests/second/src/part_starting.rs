//! Part 12: starts from stored bytes of both forms.

use paper::forms::{Form, Stored, FORMS};
use paper::planning::{plan, ranked, PlanRow};
use paper::reading::read;
use paper::starting::start_stored;
use paper::states::shown;
use paper::tables::{ObjectRow, Refusal};

use crate::generate::{clock, first_releases, object_count, object_rows, overload_rows, planned_rows, Times};
use crate::random::Random;
use crate::tally::{agree, class, for_cases, hex, in_form, Tally, PLACES};
use crate::{cform, ffi, stored};

const STARTS: u64 = 40_000;

pub fn starts(seed: u64) -> Result<(), String> {
    let mut tally = Tally::new();
    tally.expect("starts from stored bytes", 30_000);
    tally.expect("refused as in reading", 2_000);
    for form in FORMS {
        tally.expect(in_form(form, "started"), 2_000);
        for class in PLACES {
            tally.expect(in_form(form, &format!("refusal 10 at {class}")), 5);
        }
    }
    for class in PLACES {
        tally.expect(in_form(Form::Two, &format!("refusal 12 at {class}")), 50);
    }
    for what in [OTHER_ORDER, OTHER_RECORD_FIRST] {
        tally.expect(in_form(Form::Two, what), 1000);
    }
    for_cases(seed, 120, STARTS, |random| start(random, &mut tally))?;
    tally.close()
}

const OTHER_ORDER: &str = "started, with first releases that would be others in the order of the records";
const OTHER_RECORD_FIRST: &str = "refusal 12, with an earlier record whose first release is not good either";

/// Stored bytes of rows that can be planned, most of the time, with first releases, good or bad, in the order of the
/// records; sometimes damaged, and sometimes any.
fn drawn(random: &mut Random) -> Vec<u8> {
    let count = object_count(random);
    let (mut rows, planned) = planned_rows(random, count);
    let mut firsts = in_order_of_records(&rows, &planned, first_releases(random, &planned));
    if random.one_in(2) {
        spoil_firsts(random, &rows, &planned, &mut firsts);
    }
    match random.below(16) {
        0 => rows = object_rows(random, count, Times::Short),
        1 => overload_rows(random, &mut rows),
        2 => return stored::bad(random),
        _ => {}
    }
    let form = random.pick(&[Form::One, Form::Two, Form::Two]);
    let bytes = stored::of_rows(random, form, &rows, &firsts);
    match random.one_in(8) {
        true => stored::damaged(random, bytes),
        false => bytes,
    }
}

/// Where the record of a planned object stands.
fn record_of(rows: &[ObjectRow], planned: &PlanRow) -> usize {
    let record = rows.iter().position(|row| row.id == planned.id);
    record.expect("a planned object has a record")
}

/// First releases in priority order, put in the order of the records.
fn in_order_of_records(rows: &[ObjectRow], planned: &[PlanRow], firsts: Vec<u32>) -> Vec<u32> {
    let mut put = vec![0; rows.len()];
    for (object, first) in planned.iter().zip(firsts) {
        put[record_of(rows, object)] = first;
    }
    put
}

/// Makes one to four first releases too large, by one or by much. Often the last object of all is among them.
fn spoil_firsts(random: &mut Random, rows: &[ObjectRow], planned: &[PlanRow], firsts: &mut [u32]) {
    for _ in 0..random.between(1, 4) {
        let any = random.below(planned.len());
        let object = &planned[random.pick(&[any, any, planned.len() - 1])];
        let large = random.words(object.period, u32::MAX);
        let first = random.pick(&[object.period, object.period, object.period + 1, u32::MAX, large]);
        firsts[record_of(rows, object)] = first;
    }
}

fn start(random: &mut Random, tally: &mut Tally) -> Result<(), String> {
    let bytes = drawn(random);
    let clock = clock(random);
    let answer = start_stored(&bytes, clock).map(|run| shown(&run));
    let input = || format!("clock {clock}, {} bytes {}", bytes.len(), hex(&bytes));
    let expected = cform::run_answer(&answer);
    let library = ffi::start_stored(&bytes, clock);
    agree("channelfox_start_stored", &Ok(expected), &library, input)?;
    tally.add("starts from stored bytes", 1);
    match read(&bytes) {
        Ok(held) => {
            as_from_rows(&held, clock, &expected).map_err(|told| format!("{told}\n  bytes: {}", input()))?;
            tell(&held, answer.map(|_| ()), tally);
        }
        Err(_) => tally.add("refused as in reading", 1),
    }
    Ok(())
}

/// A start from the rows themselves, with the first releases in priority order, gives the same.
fn as_from_rows(held: &Stored, clock: u32, expected: &ffi::RunAnswer) -> Result<(), String> {
    let ordered = ranked(held.rows.len(), &held.rows).expect("what was read has good rows");
    let firsts: Vec<u32> = ordered.iter().map(|row| held.first_of(row.id)).collect();
    let library = ffi::start(&cform::table(&held.rows), clock, &firsts);
    agree("channelfox_start", &Ok(*expected), &library, || {
        format!("clock {clock}, first releases {firsts:?}, {held:?}")
    })
}

fn tell(held: &Stored, answer: Result<(), Refusal>, tally: &mut Tally) {
    let count = held.rows.len();
    let told = match answer {
        Ok(()) => "started".to_string(),
        Err(refusal) => format!("refusal {} at {}", refusal.number, class(refusal.place, count)),
    };
    tally.add(&in_form(held.form, &told), 1);
    let Ok(planned) = plan(count, &held.rows) else {
        return;
    };
    let ordered: Vec<u32> = planned.iter().map(|object| held.first_of(object.id)).collect();
    if answer.is_ok() && ordered != held.firsts {
        tally.add(&in_form(held.form, OTHER_ORDER), 1);
    }
    if let Err(Refusal { number: 12, place }) = answer {
        let told = record_of(&held.rows, &planned[place as usize]);
        let earlier = planned
            .iter()
            .any(|object| record_of(&held.rows, object) < told && held.first_of(object.id) >= object.period);
        tally.add(&in_form(held.form, OTHER_RECORD_FIRST), u64::from(earlier));
    }
}
