//! Part 3: row tables through the planner and the classic one, and their rows in priority order.

use paper::classic::plan_classic;
use paper::planning::{plan, ranked, PlanRow};
use paper::tables::{ObjectRow, Refusal, MOST_OBJECTS};

use crate::generate::{bad_count, garbage_row, object_count, object_rows, overload_rows, spoil_rows, Times};
use crate::random::Random;
use crate::tally::{agree, class, for_cases, Tally, PLACES};
use crate::{cform, ffi};

const TABLES: u64 = 120_000;

/// Tables with validities up to a million are few, for their deadlines are far to search.
const ONE_IS_LONG: usize = 60;

pub fn row_tables(seed: u64) -> Result<(), String> {
    let mut tally = Tally::new();
    tally.expect("row tables", 100_000);
    tally.expect("planned", TABLES / 20);
    for class in PLACES {
        tally.expect(format!("refusal 10 at {class}"), 50);
    }
    for number in [4, 6, 7, 8, 9] {
        tally.expect(format!("refusal {number}"), 700);
    }
    tally.expect("ranked", 50_000);
    tally.expect("ranked, not in the order of the rows", 10_000);
    tally.expect("ranked, though refused with 10", 10_000);
    tally.expect("not ranked", 1000);
    tally.expect("with long validities", 1000);
    tally.expect("with ties in validity and cost", 10_000);
    tally.expect("planned with 64 objects", 1000);
    tally.expect("planned with rows beyond the count that are not zero", 1000);
    for kind in [PLAIN, HELD, HELD_UP, HELD_OFF] {
        tally.expect(kind, 1000);
    }
    expect_classic(&mut tally);
    for_cases(seed, 3, TABLES, |random| row_table(random, &mut tally))?;
    tally.close()
}

/// A table to be planned: 64 rows, the count of good ones, the count that is told, and how it was made.
struct Drawn {
    rows: Vec<ObjectRow>,
    count: usize,
    told_count: usize,
    times: Times,
    garbage: bool,
}

fn drawn(random: &mut Random) -> Drawn {
    let mut times = random.pick(&[Times::Short, Times::Short, Times::Middle, Times::Tied]);
    let mut count = object_count(random);
    if random.one_in(ONE_IS_LONG) {
        times = Times::Long;
        count = random.between(1, 6);
    } else if random.one_in(50) {
        times = Times::Ends;
        count = random.between(1, 4);
    }
    let mut rows = object_rows(random, count, times);
    let mut told_count = count;
    match random.below(20) {
        0 | 1 => spoil_rows(random, &mut rows),
        2 => told_count = bad_count(random, count),
        3 => {
            told_count = bad_count(random, count);
            spoil_rows(random, &mut rows);
        }
        4..=6 => overload_rows(random, &mut rows),
        _ => {}
    }
    let garbage = random.one_in(2);
    rows.resize_with(MOST_OBJECTS, || match garbage {
        true => garbage_row(random),
        false => ObjectRow::default(),
    });
    Drawn {
        rows,
        count,
        told_count,
        times,
        garbage,
    }
}

fn row_table(random: &mut Random, tally: &mut Tally) -> Result<(), String> {
    let drawn = drawn(random);
    let (told_count, rows) = (drawn.told_count, &drawn.rows);
    let answer = plan(told_count, rows);
    let table = cform::handed_in(told_count, rows);
    let library = ffi::plan_table(&table);
    agree("channelfox_plan_table", &cform::plan_answer(&answer), &library, || {
        format!("{table:?}")
    })?;
    in_order(told_count, rows, &table, tally)?;
    beside_classic(&answer, told_count, rows, &table, tally)?;
    tell(&drawn, &answer, tally);
    tell_holds(&drawn, &answer, tally);
    Ok(())
}

fn tell(drawn: &Drawn, answer: &Result<Vec<PlanRow>, Refusal>, tally: &mut Tally) {
    tally.add("row tables", 1);
    match answer {
        Ok(_) => tally.add("planned", 1),
        Err(Refusal { number: 10, place }) => {
            tally.add(&format!("refusal 10 at {}", class(*place, drawn.count)), 1);
            tally.add("ranked, though refused with 10", 1);
        }
        Err(refusal) => tally.add(&format!("refusal {}", refusal.number), 1),
    }
    let planned = answer.is_ok();
    let seen = [
        ("with long validities", drawn.times == Times::Long),
        ("with ties in validity and cost", drawn.times == Times::Tied),
        ("planned with 64 objects", planned && drawn.count == MOST_OBJECTS),
        (
            "planned with rows beyond the count that are not zero",
            planned && drawn.garbage && drawn.count < MOST_OBJECTS,
        ),
    ];
    for (what, seen) in seen {
        tally.add(what, u64::from(seen));
    }
}

const PLAIN: &str = "planned, with a hold of 1 everywhere";
const HELD: &str = "planned, with holds above 1";
const HELD_UP: &str = "of them with deadlines that holds of 1 would not give";
const HELD_OFF: &str = "refused with 10, though planned with holds of 1";

/// How many tables have holds, and for how many of them that makes a difference.
fn tell_holds(drawn: &Drawn, answer: &Result<Vec<PlanRow>, Refusal>, tally: &mut Tally) {
    let refused_with_10 = answer.as_ref().is_err_and(|refusal| refusal.number == 10);
    if !answer.is_ok() && !refused_with_10 {
        return;
    }
    let used = &drawn.rows[..drawn.count];
    if used.iter().all(|row| row.hold == 1) {
        tally.add(PLAIN, u64::from(answer.is_ok()));
        return;
    }
    let plain: Vec<ObjectRow> = used.iter().map(|row| ObjectRow { hold: 1, ..*row }).collect();
    match (answer, plan(plain.len(), &plain)) {
        (Ok(held), Ok(plain)) => {
            tally.add(HELD, 1);
            let later = held
                .iter()
                .zip(&plain)
                .any(|(held, plain)| held.deadline > plain.deadline);
            tally.add(HELD_UP, u64::from(later));
        }
        (Err(_), Ok(_)) => tally.add(HELD_OFF, 1),
        _ => {}
    }
}

/// The rows in priority order, by which a reader of a refusal finds the object that its place tells.
fn in_order(count: usize, rows: &[ObjectRow], table: &ffi::Table, tally: &mut Tally) -> Result<(), String> {
    let answer = ranked(count, rows);
    agree(
        "channelfox_ranked",
        &cform::read_answer(&answer),
        &ffi::ranked(table),
        || format!("{table:?}"),
    )?;
    match answer {
        Ok(ordered) => {
            tally.add("ranked", 1);
            let moved = ordered != rows[..count];
            tally.add("ranked, not in the order of the rows", u64::from(moved));
        }
        Err(_) => tally.add("not ranked", 1),
    }
    Ok(())
}

const BOTH: &str = "planned by both ways";
const ONLY_OURS: &str = "planned, and refused with 10 by the classic way";
const NEITHER: &str = "refused with 10 by both ways";
const BELOW: &str = "deadlines below the classic ones";
const EQUAL: &str = "deadlines equal to the classic ones";

fn expect_classic(tally: &mut Tally) {
    for class in PLACES {
        tally.expect(format!("classic refusal 10 at {class}"), 50);
    }
    for number in [4, 6, 7, 8, 9] {
        tally.expect(format!("classic refusal {number}"), 700);
    }
    for kind in [BOTH, ONLY_OURS, NEITHER, BELOW, EQUAL] {
        tally.expect(kind, 1000);
    }
}

/// The classic plan of the table, and what request 5 promises of the two plans.
fn beside_classic(
    ours: &Result<Vec<PlanRow>, Refusal>,
    count: usize,
    rows: &[ObjectRow],
    table: &ffi::Table,
    tally: &mut Tally,
) -> Result<(), String> {
    let classic = plan_classic(count, rows);
    agree(
        "channelfox_plan_classic",
        &cform::plan_answer(&classic),
        &ffi::plan_classic(table),
        || format!("{table:?}"),
    )?;
    match (ours, &classic) {
        (Ok(ours), Ok(classic)) => {
            tally.add(BOTH, 1);
            none_above(ours, classic, tally).map_err(|told| format!("{told}\n  input: {table:?}"))
        }
        (Ok(_), Err(Refusal { number: 10, place })) => {
            tally.add(ONLY_OURS, 1);
            tally.add(&format!("classic refusal 10 at {}", class(*place, count)), 1);
            Ok(())
        }
        // Our plan gets as far as the classic one or farther.
        (
            Err(Refusal {
                number: 10,
                place: ours,
            }),
            Err(Refusal { number: 10, place }),
        ) if place <= ours => {
            tally.add(NEITHER, 1);
            tally.add(&format!("classic refusal 10 at {}", class(*place, count)), 1);
            Ok(())
        }
        (Err(ours), Err(classic)) if ours == classic => {
            tally.add(&format!("classic refusal {}", classic.number), 1);
            Ok(())
        }
        _ => Err(format!(
            "the classic way plans farther than ours\n  input: {table:?}\n  ours: {ours:?}\n  classic: {classic:?}"
        )),
    }
}

/// No deadline is above the classic one of the same object, which has the same place.
fn none_above(ours: &[PlanRow], classic: &[PlanRow], tally: &mut Tally) -> Result<(), String> {
    for (our, classic) in ours.iter().zip(classic) {
        if our.id != classic.id || our.deadline > classic.deadline {
            return Err(format!("{our:?} beside the classic {classic:?}"));
        }
        let kind = if our.deadline < classic.deadline { BELOW } else { EQUAL };
        tally.add(kind, 1);
    }
    Ok(())
}
