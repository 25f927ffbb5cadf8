//! The answers of the paper in the form of C, and run states in the form of C judged by the paper.

use paper::forms::{self, Form};
use paper::planning::PlanRow;
use paper::reading::{Part, Source};
use paper::running::Value;
use paper::states::{broken, Condition, RunState, StateRow, Stored};
use paper::tables::{ObjectRow, Refusal};

use crate::ffi;

/// What can be wrong with a run state in the form of C: a condition of the paper, or a number that stands for nothing.
#[derive(Clone, Copy, PartialEq, Eq, Debug)]
pub enum Fault {
    Paper(Condition),
    LapsedIsNeither0Nor1,
    StoredIsAbove2,
    HeldIsNot0WithoutHeldValue,
}

/// Accepted, or the refusal.
pub fn verdict<T>(answer: &Result<T, Refusal>) -> ffi::Verdict {
    match answer {
        Ok(_) => ffi::Verdict::default(),
        Err(refusal) => ffi::Verdict {
            number: refusal.number as u8,
            place: refusal.place as usize,
        },
    }
}

pub fn object_row(row: &ObjectRow) -> ffi::ObjectRow {
    ffi::ObjectRow {
        id: row.id,
        cost: row.cost,
        validity: row.validity,
        hold: row.hold,
    }
}

pub fn plan_row(row: &PlanRow) -> ffi::PlanRow {
    ffi::PlanRow {
        id: row.id,
        cost: row.cost,
        validity: row.validity,
        hold: row.hold,
        deadline: row.deadline,
        period: row.period,
    }
}

/// A table of at most 64 rows, zero beyond them.
pub fn table(rows: &[ObjectRow]) -> ffi::Table {
    let mut table = ffi::Table {
        count: rows.len(),
        ..ffi::Table::default()
    };
    for (to, row) in table.rows.iter_mut().zip(rows) {
        *to = object_row(row);
    }
    table
}

/// A table as it is handed in, with a count that its rows need not have.
pub fn handed_in(count: usize, rows: &[ObjectRow]) -> ffi::Table {
    ffi::Table { count, ..table(rows) }
}

/// The number of a form, or of none.
pub fn form(form: Option<Form>) -> u32 {
    match form {
        None => ffi::FORM_NONE,
        Some(Form::One) => ffi::FORM_ONE,
        Some(Form::Two) => ffi::FORM_TWO,
    }
}

/// The form that a number tells, if it tells one.
pub fn form_told(number: u32) -> Option<Form> {
    forms::FORMS.into_iter().find(|one| form(Some(*one)) == number)
}

/// Rows and first releases as they are handed in to be written, with a form and a count that may be any.
pub fn stored_handed_in(form: u32, count: usize, rows: &[ObjectRow], firsts: &[u32]) -> ffi::Stored {
    let mut stored = ffi::Stored {
        form,
        table: handed_in(count, rows),
        ..ffi::Stored::default()
    };
    stored.firsts[..firsts.len()].copy_from_slice(firsts);
    stored
}

/// What stored bytes hold, zero beyond their count.
pub fn stored(stored: &forms::Stored) -> ffi::Stored {
    stored_handed_in(form(Some(stored.form)), stored.rows.len(), &stored.rows, &stored.firsts)
}

/// Refused bytes hold no form, no rows and no first releases.
pub fn stored_answer(answer: &Result<forms::Stored, Refusal>) -> ffi::StoredAnswer {
    ffi::StoredAnswer {
        verdict: verdict(answer),
        stored: match answer {
            Ok(held) => stored(held),
            Err(_) => ffi::Stored::default(),
        },
    }
}

/// What is refused has size 0.
pub fn written(answer: &Result<usize, Refusal>) -> ffi::Written {
    ffi::Written {
        verdict: verdict(answer),
        size: *answer.as_ref().unwrap_or(&0),
    }
}

/// Refused rows, or a refused sheet, hand back a table with count 0 and every field zero.
pub fn read_answer(answer: &Result<Vec<ObjectRow>, Refusal>) -> ffi::ReadAnswer {
    ffi::ReadAnswer {
        verdict: verdict(answer),
        table: match answer {
            Ok(rows) => table(rows),
            Err(_) => ffi::Table::default(),
        },
    }
}

/// A refused plan has count 0 and every field zero.
pub fn plan_answer(answer: &Result<Vec<PlanRow>, Refusal>) -> ffi::PlanAnswer {
    let mut plan = ffi::Plan::default();
    if let Ok(rows) = answer {
        plan.count = rows.len();
        for (to, row) in plan.rows.iter_mut().zip(rows) {
            *to = plan_row(row);
        }
    }
    ffi::PlanAnswer {
        verdict: verdict(answer),
        plan,
    }
}

/// A refused start hands back a run with count 0 and every field zero or none.
pub fn run_answer(answer: &Result<RunState, Refusal>) -> ffi::RunAnswer {
    ffi::RunAnswer {
        verdict: verdict(answer),
        run: match answer {
            Ok(state) => run(state),
            Err(_) => ffi::Run::default(),
        },
    }
}

/// A refused reading has no age and no value.
pub fn reading(answer: &Result<Value, Refusal>) -> ffi::Reading {
    let (value, age) = match answer {
        Err(_) => (0, 0),
        Ok(Value::None) => (ffi::NEVER, 0),
        Ok(Value::Stale) => (ffi::STALE, 0),
        // A fresh age is below a validity, and so below a million.
        Ok(Value::Fresh { age }) => (ffi::FRESH, *age as u32),
    };
    ffi::Reading {
        verdict: verdict(answer),
        value,
        age,
    }
}

pub fn part(part: &Part) -> ffi::Part {
    ffi::Part {
        source: match part.source {
            Source::Site => ffi::SITE,
            Source::Factory => ffi::FACTORY,
        },
        form: form(part.form),
        start: part.start,
        size: part.bytes.len(),
    }
}

pub fn run(state: &RunState) -> ffi::Run {
    let mut run = ffi::Run {
        clock: state.clock,
        count: state.count,
        ..ffi::Run::default()
    };
    for (to, row) in run.rows.iter_mut().zip(&state.rows).take(state.count) {
        *to = run_row(row);
    }
    run
}

fn run_row(row: &StateRow) -> ffi::RunRow {
    let (stored, held) = match row.stored {
        Stored::None => (ffi::NONE, 0),
        Stored::Held(sample) => (ffi::HELD, sample),
        Stored::Lapsed => (ffi::LAPSED, 0),
    };
    ffi::RunRow {
        planned: plan_row(&row.planned),
        next: row.next,
        left: row.left,
        sample: row.sample,
        lapsed: u32::from(row.lapsed),
        stored,
        held,
        skips: row.skips,
    }
}

/// Everything that is wrong with a run state in the form of C; nothing, if it is acceptable.
///
/// A number that stands for nothing is wrong in whichever of the 64 rows it is.
pub fn faults(run: &ffi::Run) -> Vec<Fault> {
    let mut faults = Vec::new();
    let any = |wrong: fn(&ffi::RunRow) -> bool| run.rows.iter().any(wrong);
    if any(|row| row.lapsed > 1) {
        faults.push(Fault::LapsedIsNeither0Nor1);
    }
    if any(|row| row.stored > ffi::LAPSED) {
        faults.push(Fault::StoredIsAbove2);
    }
    if any(|row| row.stored != ffi::HELD && row.held != 0) {
        faults.push(Fault::HeldIsNot0WithoutHeldValue);
    }
    faults.extend(broken(&state(run)).into_iter().map(Fault::Paper));
    faults
}

/// The run state that a run in the form of C stands for, where every number stands for something.
pub fn state(run: &ffi::Run) -> RunState {
    let mut state = RunState {
        clock: run.clock,
        count: run.count,
        ..RunState::default()
    };
    for (to, row) in state.rows.iter_mut().zip(&run.rows) {
        *to = state_row(row);
    }
    state
}

fn state_row(row: &ffi::RunRow) -> StateRow {
    StateRow {
        planned: PlanRow {
            id: row.planned.id,
            cost: row.planned.cost,
            validity: row.planned.validity,
            hold: row.planned.hold,
            deadline: row.planned.deadline,
            period: row.planned.period,
        },
        next: row.next,
        left: row.left,
        sample: row.sample,
        lapsed: row.lapsed != 0,
        stored: match row.stored {
            ffi::HELD => Stored::Held(row.held),
            ffi::LAPSED => Stored::Lapsed,
            _ => Stored::None,
        },
        skips: row.skips,
    }
}
