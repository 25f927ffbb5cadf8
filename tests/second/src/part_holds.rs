//! Part 9: numbers with holds, held against the library: plans, stored bytes, lines of a sheet, refusal 6 at every
//! door, and runs slot by slot. The paper's modules have most of them in their own tests.

use paper::forms::Stored;
use paper::held_numbers::{HELD, WAITING, WAITING_FIRSTS, WAITING_SLOTS};
use paper::tables::{refused, refused_at, ObjectRow, Refusal};

use crate::part_numbers::{reads, slot, started_rows};
use crate::tally::{agree, hex, Tally};
use crate::{cform, ffi};

pub fn numbers(_seed: u64) -> Result<(), String> {
    let mut tally = Tally::new();
    plans(&mut tally)?;
    stored_bytes(&mut tally)?;
    lines_of_a_sheet(&mut tally)?;
    refused_at_every_door(&mut tally)?;
    kept_waiting(&mut tally)?;
    stolen_slots_in_a_hold(&mut tally)?;
    a_hold_that_ends_with_its_job(&mut tally)?;
    the_longest_hold(&mut tally)?;
    two_in_their_hold(&mut tally)?;
    tally.close()
}

fn plans(tally: &mut Tally) -> Result<(), String> {
    for numbers in HELD {
        let rows = numbers.rows();
        let more_less = cform::plan_answer(&numbers.more_less());
        let half_half = cform::plan_answer(&numbers.half_half());
        let ranked = cform::read_answer(&Ok(rows.clone()));
        for rows in [rows.clone(), rows.into_iter().rev().collect()] {
            let table = cform::table(&rows);
            let told = || numbers.from.to_string();
            agree("channelfox_plan_table", &more_less, &ffi::plan_table(&table), told)?;
            agree("channelfox_plan_classic", &half_half, &ffi::plan_classic(&table), told)?;
            agree("channelfox_ranked", &ranked, &ffi::ranked(&table), told)?;
        }
        tally.add("tables with holds, planned both ways", 1);
    }
    Ok(())
}

/// A record tells its hold minus 1, from 00 00 for 1 to FF FF for 65,536.
fn stored_bytes(tally: &mut Tally) -> Result<(), String> {
    // Cost and validity of a record, the two bytes between id and cost, and the hold or the refusal.
    let records = [
        (1, 2, [0, 0], Ok(1)),
        (1, 2, [1, 0], Err(refused(6))),
        (2, 2, [1, 0], Ok(2)),
        (2, 2, [2, 0], Err(refused(6))),
        (256, 1000, [0, 1], Err(refused(6))),
        (257, 1000, [0, 1], Ok(257)),
        (65_535, 1000, [0xFF, 0xFF], Err(refused(6))),
        (65_536, 1000, [0xFF, 0xFF], Ok(65_536)),
        (65_537, 1000, [0xFF, 0xFF], Ok(65_536)),
        // 7 comes before 6, and 6 before 8.
        (0, 0, [0, 0], Err(refused(7))),
        (0, 0, [1, 0], Err(refused(7))),
        (1, 0, [1, 0], Err(refused(6))),
    ];
    for (cost, validity, told, answer) in records {
        let mut bytes = vec![9, 0, told[0], told[1]];
        bytes.extend(u32::to_le_bytes(cost));
        bytes.extend(u32::to_le_bytes(validity));
        bytes.extend([20, 0, 0, 0, 1, 0, 0x4D, 0x4C]);
        let row = |hold| vec![ObjectRow::held(9, cost, validity, hold)];
        let held = |hold| Stored::one(&row(hold));
        let expected = cform::stored_answer(&answer.map(held));
        agree("channelfox_read", &Ok(expected), &ffi::read(&bytes), || hex(&bytes))?;
        if let Ok(hold) = answer {
            let library = ffi::write(&cform::table(&row(hold)), &[0xEE; 20]);
            let written = (cform::written(&Ok(20)), bytes.clone());
            agree("channelfox_write", &Ok(written), &library, || hex(&bytes))?;
        }
        tally.add("records with a hold, good and bad", 1);
    }
    Ok(())
}

/// A line has four fields, and 17 comes before 7, that before 6, and that before 8.
fn lines_of_a_sheet(tally: &mut Tally) -> Result<(), String> {
    let answers = [
        ("9,1,2,1\r\n", Ok(ObjectRow::held(9, 1, 2, 1))),
        ("9,65536,2,65536\r\n", Ok(ObjectRow::held(9, 65_536, 2, 65_536))),
        ("9,65537,2,65536\r\n", Ok(ObjectRow::held(9, 65_537, 2, 65_536))),
        ("9,65537,2,65537\r\n", Err(refused(6))),
        ("9,7,2,8\r\n", Err(refused(6))),
        ("9,7,2,0\r\n", Err(refused(6))),
        ("9,7,2,4294967295\r\n", Err(refused(6))),
        ("9,7,2,4294967296\r\n", Err(refused(17))),
        ("9,7,2\r\n", Err(refused(17))),
        ("9,7,2,\r\n", Err(refused(17))),
        ("9,7,2,01\r\n", Err(refused(17))),
        ("9,7,2,1,1\r\n", Err(refused(17))),
        ("9,0,0,0\r\n", Err(refused(7))),
        ("9,1,0,0\r\n", Err(refused(6))),
        ("9,1,0,1\r\n", Err(refused(8))),
    ];
    for (line, answer) in answers {
        let expected = cform::read_answer(&answer.map(|row| vec![row]));
        let library = ffi::import(line.as_bytes());
        agree("channelfox_import", &Ok(expected), &library, || format!("{line:?}"))?;
        if answer.is_ok() {
            let library = ffi::export(&expected.table, &vec![0xEE; line.len()]);
            let written = (cform::written(&Ok(line.len())), line.as_bytes().to_vec());
            agree("channelfox_export", &Ok(written), &library, || format!("{line:?}"))?;
        }
        tally.add("lines with a hold, good and bad", 1);
    }
    Ok(())
}

/// A hold out of its range gets 6 at its place from all that take rows.
fn refused_at_every_door(tally: &mut Tally) -> Result<(), String> {
    let bad = [
        (7, 0),
        (7, 8),
        (7, 65_536 + 7),
        (7, u32::MAX),
        (65_537, 65_537),
        (1_000_000, 0),
    ];
    for (cost, hold) in bad {
        // The last row has the id of the first, which would be 9: the row before it is looked at first.
        let rows = [
            ObjectRow::plain(1, 1, 10),
            ObjectRow::held(2, cost, 1_000_000, hold),
            ObjectRow::plain(1, 1, 10),
        ];
        all_refuse(&rows, refused_at(6, 1))?;
        tally.add("bad holds, refused at every door", 1);
    }
    Ok(())
}

fn all_refuse(rows: &[ObjectRow], refusal: Refusal) -> Result<(), String> {
    let table = cform::table(rows);
    let in_c: Vec<ffi::ObjectRow> = rows.iter().map(cform::object_row).collect();
    let input = || format!("{rows:?}");
    let read = cform::read_answer(&Err(refusal));
    agree("channelfox_rows", &Ok(read), &ffi::rows(&in_c), input)?;
    agree("channelfox_ranked", &read, &ffi::ranked(&table), input)?;
    let plan = cform::plan_answer(&Err(refusal));
    agree("channelfox_plan_table", &plan, &ffi::plan_table(&table), input)?;
    agree("channelfox_plan_classic", &plan, &ffi::plan_classic(&table), input)?;
    let start = cform::run_answer(&Err(refusal));
    agree("channelfox_start", &Ok(start), &ffi::start(&table, 0, &[0; 3]), input)?;
    let buffer = [0xEE; 100];
    let untouched = (cform::written(&Err(refusal)), buffer.to_vec());
    agree(
        "channelfox_write",
        &Ok(&untouched),
        &ffi::write(&table, &buffer).as_ref(),
        input,
    )?;
    agree(
        "channelfox_export",
        &Ok(&untouched),
        &ffi::export(&table, &buffer).as_ref(),
        input,
    )
}

fn waiting_rows() -> Vec<ObjectRow> {
    let row = |&(id, cost, validity, hold): &(u16, u32, u32, u32)| ObjectRow::held(id, cost, validity, hold);
    WAITING.iter().map(row).collect()
}

/// The slots of a run of these rows go to these places, or to nobody where a slot is stolen.
fn slots_go_to(rows: &[ObjectRow], firsts: &[u32], places: &[Option<usize>]) -> Result<ffi::Run, String> {
    let mut run = started_rows(rows, u32::MAX, firsts)?;
    for (instant, place) in places.iter().enumerate() {
        let before = run;
        slot(&mut run, place.is_none())?;
        for at in 0..run.count {
            // What a job that has just been released has before it works is its cost.
            let had = match before.rows[at].left {
                0 if run.rows[at].next != before.rows[at].next => run.rows[at].planned.cost,
                left => left,
            };
            let did = had - run.rows[at].left;
            let expected = u32::from(*place == Some(at));
            agree("units done in a slot", &expected, &did, || {
                format!("instant {instant}, place {at}, {run:?}")
            })?;
        }
    }
    Ok(run)
}

/// A hold of 3 keeps an object of shorter validity waiting for 2 slots, and no longer.
fn kept_waiting(tally: &mut Tally) -> Result<(), String> {
    let places = WAITING_SLOTS.map(Some);
    let run = slots_go_to(&waiting_rows(), &WAITING_FIRSTS, &places)?;
    reads(&run, 1, ffi::FRESH, 4)?;
    reads(&run, 2, ffi::FRESH, 5)?;
    let plain: Vec<ObjectRow> = waiting_rows().iter().map(|row| ObjectRow { hold: 1, ..*row }).collect();
    slots_go_to(&plain, &WAITING_FIRSTS, &[1, 0, 1, 1, 1].map(Some))?;
    tally.add("runs with holds", 2);
    Ok(())
}

/// Stolen slots do not end a hold.
fn stolen_slots_in_a_hold(tally: &mut Tally) -> Result<(), String> {
    let (first, second) = (Some(0), Some(1));
    let places = [second, None, None, second, None, second, first, second];
    slots_go_to(&waiting_rows(), &WAITING_FIRSTS, &places)?;
    tally.add("runs with holds", 1);
    Ok(())
}

/// (3,6) with a hold of 3: a release that falls into the last slot of the hold is skipped.
fn a_hold_that_ends_with_its_job(tally: &mut Tally) -> Result<(), String> {
    let rows = [ObjectRow::held(1, 3, 6, 3)];
    let run = slots_go_to(&rows, &[0], &[None, Some(0), None, Some(0), Some(0)])?;
    agree("skips", &1, &run.rows[0].skips, || format!("{run:?}"))?;
    reads(&run, 1, ffi::FRESH, 5)?;
    tally.add("runs with holds", 1);
    Ok(())
}

/// A hold of 65,536 keeps the other waiting for 65,535 slots, and that one ends just at its deadline.
fn the_longest_hold(tally: &mut Tally) -> Result<(), String> {
    let rows = [
        ObjectRow::plain(1, 1, 131_072),
        ObjectRow::held(2, 65_537, 300_000, 65_536),
    ];
    let run = started_rows(&rows, 0, &[1, 0])?;
    let left_after = |slots: usize| {
        let answer = ffi::advance(&run, &vec![0; slots]);
        answer.map(|answer| (answer.verdict, answer.run.rows[0].left, answer.run.rows[1].left))
    };
    let accepted = ffi::Verdict::default();
    for (slots, first, second) in [
        (1, 0, 65_536),
        (2, 1, 65_535),
        (65_535, 1, 2),
        (65_536, 1, 1),
        (65_537, 0, 1),
        // The first is released again at 65,537, and the hold is over.
        (65_538, 0, 1),
        (65_539, 0, 0),
    ] {
        agree("work left", &Ok((accepted, first, second)), &left_after(slots), || {
            format!("{slots} slots of {rows:?}")
        })?;
    }
    tally.add("runs with holds", 1);
    Ok(())
}

/// A state with two jobs in their hold is no run state; with one of them not begun, or over, it is.
fn two_in_their_hold(tally: &mut Tally) -> Result<(), String> {
    let rows = [ObjectRow::held(1, 3, 40, 2), ObjectRow::held(2, 4, 60, 3)];
    let mut run = started_rows(&rows, 7, &[1, 1])?;
    for row in &mut run.rows[..2] {
        row.sample = 7;
    }
    for first in 1..=3 {
        for second in 1..=4 {
            run.rows[0].left = first;
            run.rows[1].left = second;
            let both = first == 2 && (2..=3).contains(&second);
            let answer: Result<(), Refusal> = if both { Err(refused(13)) } else { Ok(()) };
            let verdict = ffi::slot(&mut run.clone(), false);
            agree("channelfox_slot", &cform::verdict(&answer), &verdict, || {
                format!("{run:?}")
            })?;
            tally.add("states of two jobs that have a hold", 1);
        }
    }
    Ok(())
}
