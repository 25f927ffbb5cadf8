//! Part 6: the paper's own numbers, held against the library. The paper's modules have them in their own tests.

use paper::forms::Stored;
use paper::numbers::{CLASSIC_PLANS, FIGURE_2, PLANS};
use paper::tables::{refused, ObjectRow};

use crate::tally::{agree, hex, Tally};
use crate::{cform, ffi};

pub fn numbers(_seed: u64) -> Result<(), String> {
    let mut tally = Tally::new();
    plans(&mut tally)?;
    classic_plans(&mut tally)?;
    stored_bytes(&mut tally)?;
    written_bytes(&mut tally)?;
    figure_2(&mut tally)?;
    three_stolen_slots(&mut tally)?;
    the_turn_of_the_clock(&mut tally)?;
    tally.close()
}

fn plans(tally: &mut Tally) -> Result<(), String> {
    for numbers in PLANS {
        let rows = numbers.rows();
        let expected = cform::plan_answer(&numbers.plan());
        let ranked = cform::read_answer(&Ok(rows.clone()));
        for rows in [rows.clone(), rows.into_iter().rev().collect()] {
            let table = cform::table(&rows);
            let told = || numbers.from.to_string();
            agree("channelfox_plan_table", &expected, &ffi::plan_table(&table), told)?;
            agree("channelfox_ranked", &ranked, &ffi::ranked(&table), told)?;
        }
        tally.add("plans of the paper", 1);
    }
    Ok(())
}

fn classic_plans(tally: &mut Tally) -> Result<(), String> {
    for numbers in CLASSIC_PLANS {
        let rows = numbers.rows();
        let expected = cform::plan_answer(&numbers.plan());
        for rows in [rows.clone(), rows.into_iter().rev().collect()] {
            let library = ffi::plan_classic(&cform::table(&rows));
            agree("channelfox_plan_classic", &expected, &library, || {
                numbers.from.to_string()
            })?;
        }
        tally.add("classic plans of the paper", 1);
    }
    Ok(())
}

fn stored_bytes(tally: &mut Tally) -> Result<(), String> {
    let one_record = [9, 0, 0, 0, 1, 0, 0, 0, 2, 0, 0, 0];
    let with_distance = |distance: u8| {
        let mut bytes = one_record.to_vec();
        bytes.extend([distance, 0, 0, 0, 1, 0, 0x4D, 0x4C]);
        bytes
    };
    let read_row = ObjectRow::plain(9, 1, 2);
    let answers = [
        (vec![0; 7], Err(refused(1))),
        (vec![0; 8], Err(refused(3))),
        (vec![8, 0, 0, 0, 65, 0, 0x4D, 0x4C], Err(refused(4))),
        (with_distance(19), Err(refused(5))),
        (with_distance(20), Ok(vec![read_row])),
        (with_distance(21), Err(refused(15))),
        (vec![9, 0, 0, 0, 1, 0, 0x4D, 0x4C], Err(refused(5))),
        (vec![20, 0, 0, 0, 1, 0, 0x4D, 0x4C], Err(refused(15))),
    ];
    for (bytes, answer) in answers {
        let answer = answer.map(|rows| Stored::one(&rows));
        let expected = Ok(cform::stored_answer(&answer));
        agree("channelfox_read", &expected, &ffi::read(&bytes), || hex(&bytes))?;
        tally.add("stored bytes of the paper", 1);
    }
    Ok(())
}

/// The 56 bytes of the plan program, written into 60.
fn written_bytes(tally: &mut Tally) -> Result<(), String> {
    let mut rows = Vec::new();
    let mut bytes = Vec::new();
    for (id, validity) in [(40, 20), (10, 4), (30, 8), (20, 5)] {
        rows.push(ObjectRow::plain(u16::from(id), 1, u32::from(validity)));
        bytes.extend([id, 0, 0, 0, 1, 0, 0, 0, validity, 0, 0, 0]);
    }
    bytes.extend([0x38, 0, 0, 0, 4, 0, 0x4D, 0x4C]);
    bytes.extend([0xEE; 4]);
    let library = ffi::write(&cform::table(&rows), &[0xEE; 60]);
    let expected = (cform::written(&Ok(56)), bytes);
    agree("channelfox_write", &Ok(expected), &library, || format!("{rows:?}"))?;
    tally.add("stored bytes of the paper, written", 1);
    Ok(())
}

/// Starts a run of these (id, cost, validity).
fn started(objects: &[(u16, u32, u32)], clock: u32, firsts: &[u32]) -> Result<ffi::Run, String> {
    let rows: Vec<ObjectRow> = objects
        .iter()
        .map(|&(id, cost, validity)| ObjectRow::plain(id, cost, validity))
        .collect();
    started_rows(&rows, clock, firsts)
}

/// Starts a run of these rows.
pub fn started_rows(rows: &[ObjectRow], clock: u32, firsts: &[u32]) -> Result<ffi::Run, String> {
    let answer = ffi::start(&cform::table(rows), clock, firsts);
    match answer {
        Ok(answer) if answer.verdict == ffi::Verdict::default() => Ok(answer.run),
        _ => Err(format!(
            "{rows:?} with first releases {firsts:?} is not started: {answer:?}"
        )),
    }
}

pub fn slot(run: &mut ffi::Run, stolen: bool) -> Result<(), String> {
    let before = *run;
    let verdict = ffi::slot(run, stolen);
    agree("channelfox_slot", &ffi::Verdict::default(), &verdict, || {
        format!("{before:?}")
    })
}

pub fn reads(run: &ffi::Run, id: u16, value: u32, age: u32) -> Result<(), String> {
    let expected = ffi::Reading {
        verdict: ffi::Verdict::default(),
        value,
        age,
    };
    agree("channelfox_read_value", &expected, &ffi::read_value(run, id), || {
        format!("id {id}, {run:?}")
    })
}

/// Slots go to objects 3, 2, 1, 1, 2, 3; the third job takes 6 slots; instant 6 has nothing left over.
fn figure_2(tally: &mut Tally) -> Result<(), String> {
    let mut run = started(FIGURE_2, 0, &[2, 1, 0])?;
    // The work left after each slot, for objects 1, 2 and 3.
    let left = [[0, 0, 1], [0, 1, 1], [1, 1, 1], [0, 1, 1], [0, 0, 1], [0, 0, 0]];
    for expected in left {
        slot(&mut run, false)?;
        let library = [run.rows[0].left, run.rows[1].left, run.rows[2].left];
        agree("work left in 002's set", &expected, &library, || format!("{run:?}"))?;
    }
    reads(&run, 3, ffi::FRESH, 6)?;
    tally.add("runs of the paper", 1);
    Ok(())
}

/// (1,2), first release 0, slots 0 to 2 stolen: skips at 1, 2 and 3; stale at 4, and at 5 fresh with age 1.
fn three_stolen_slots(tally: &mut Tally) -> Result<(), String> {
    let mut run = started(&[(9, 1, 2)], 0, &[0])?;
    for instant in 0..4 {
        slot(&mut run, instant < 3)?;
        agree("skips after three stolen slots", &instant, &run.rows[0].skips, || {
            format!("{run:?}")
        })?;
    }
    reads(&run, 9, ffi::STALE, 0)?;
    agree("work left over at instant 4", &0, &run.rows[0].left, || {
        format!("{run:?}")
    })?;
    slot(&mut run, false)?;
    reads(&run, 9, ffi::FRESH, 1)?;
    tally.add("runs of the paper", 1);
    Ok(())
}

/// (1,4) started at clock 4,294,967,295: after one slot, clock 0, fresh, age 1.
fn the_turn_of_the_clock(tally: &mut Tally) -> Result<(), String> {
    let mut run = started(&[(9, 1, 4)], u32::MAX, &[0])?;
    slot(&mut run, false)?;
    agree("the clock after its turn", &0, &run.clock, || format!("{run:?}"))?;
    reads(&run, 9, ffi::FRESH, 1)?;
    tally.add("runs of the paper", 1);
    Ok(())
}
