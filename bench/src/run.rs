//! The run of document 01 in idiomatic Rust: what channelfox_slot and channelfox_advance are timed against.

use crate::ffi::{self, Plan, PlanRow, ROWS};
use crate::plan::{Refusal, LARGEST, LONGEST_HOLD};

/// The stored value of an object.
#[derive(Clone, Copy, PartialEq, Eq, Debug, Default)]
pub enum Stored {
    #[default]
    Empty,
    Held(u32),
    Lapsed,
}

#[derive(Clone, Copy, PartialEq, Eq, Debug, Default)]
pub struct Row {
    pub planned: PlanRow,
    pub next: u32,
    pub left: u32,
    pub sample: u32,
    pub lapsed: bool,
    pub stored: Stored,
    pub skips: u32,
}

#[derive(Clone, Copy, PartialEq, Eq, Debug)]
pub struct Run {
    pub clock: u32,
    pub count: usize,
    pub rows: [Row; ROWS],
}

/// A run that starts at the clock; `firsts` gives the first release of an object, counted from the clock.
pub fn start(plan: &Plan, clock: u32, mut firsts: impl FnMut(&PlanRow) -> u32) -> Run {
    let mut rows = [Row::default(); ROWS];
    for (row, planned) in rows.iter_mut().zip(&plan.rows[..plan.count]) {
        row.planned = *planned;
        row.next = clock.wrapping_add(firsts(planned));
    }
    Run {
        clock,
        count: plan.count,
        rows,
    }
}

/// One slot, checked, in place. Never inlined, as a call of the library is not.
#[inline(never)]
pub fn checked_slot(run: &mut Run, stolen: bool) -> Result<(), Refusal> {
    let held = check(run)?;
    slot_in_three_passes(run, held, stolen);
    Ok(())
}

/// One checked slot in place for each flag, each in one pass over the rows.
#[inline(never)]
pub fn checked_slots_in_one_pass(run: &mut Run, stolen: &[u8]) -> Result<(), Refusal> {
    for &flag in stolen {
        let held = check(run)?;
        slot_in_one_pass(run, held, flag != 0);
    }
    Ok(())
}

/// One checked slot in place for each flag, each in three passes over the rows.
#[inline(never)]
pub fn checked_slots_in_three_passes(run: &mut Run, stolen: &[u8]) -> Result<(), Refusal> {
    for &flag in stolen {
        let held = check(run)?;
        slot_in_three_passes(run, held, flag != 0);
    }
    Ok(())
}

/// Checks once, then one slot for each flag, each in one pass over the rows.
#[inline(never)]
pub fn advance_in_one_pass(run: &mut Run, stolen: &[u8]) -> Result<(), Refusal> {
    let mut held = check(run)?;
    for &flag in stolen {
        held = slot_in_one_pass(run, held, flag != 0);
    }
    Ok(())
}

/// Checks once, then one slot for each flag, each in three passes over the rows.
#[inline(never)]
pub fn advance_in_three_passes(run: &mut Run, stolen: &[u8]) -> Result<(), Refusal> {
    let mut held = check(run)?;
    for &flag in stolen {
        held = slot_in_three_passes(run, held, flag != 0);
    }
    Ok(())
}

/// The place of the row whose job is in its hold, if there is one. The check finds it, and from then on a slot tells
/// the next one what it leaves: nobody looks for it twice.
type InHold = Option<usize>;

#[inline]
fn slot_in_three_passes(run: &mut Run, mut held: InHold, stolen: bool) -> InHold {
    let rows = &mut run.rows[..run.count];
    for row in rows.iter_mut() {
        release(row, run.clock);
    }
    if !stolen {
        if let Some(place) = held.or_else(|| rows.iter().position(|row| row.left > 0)) {
            work(&mut rows[place]);
            held = in_hold(&rows[place]).then_some(place);
        }
    }
    run.clock = run.clock.wrapping_add(1);
    for row in rows.iter_mut() {
        lapse(row, run.clock);
    }
    held
}

#[inline]
fn slot_in_one_pass(run: &mut Run, mut held: InHold, stolen: bool) -> InHold {
    let rows = &mut run.rows[..run.count];
    let mut free = !stolen;
    if let (true, Some(place)) = (free, held) {
        // Its own release goes first, and is not met again below: a job that ends here does not make room for one that
        // is due now.
        let row = &mut rows[place];
        release(row, run.clock);
        work(row);
        held = in_hold(row).then_some(place);
        free = false;
    }
    let after = run.clock.wrapping_add(1);
    for (place, row) in rows.iter_mut().enumerate() {
        release(row, run.clock);
        if free && row.left > 0 {
            work(row);
            held = in_hold(row).then_some(place);
            free = false;
        }
        lapse(row, after);
    }
    run.clock = after;
    held
}

/// Whether the job of a good row has done its first unit and not yet all of its hold. With no work left all of the cost
/// is done, and the hold is no longer than that.
#[inline]
fn in_hold(row: &Row) -> bool {
    let done = row.planned.cost - row.left;
    done > 0 && done < row.planned.hold
}

/// Step 1: a release that is due begins a job or is skipped.
#[inline]
fn release(row: &mut Row, clock: u32) {
    if row.next != clock {
        return;
    }
    if row.left == 0 {
        row.left = row.planned.cost;
        row.sample = clock;
        row.lapsed = false;
    } else {
        row.skips = row.skips.saturating_add(1);
    }
    row.next = clock.wrapping_add(row.planned.period);
}

/// Step 2: one unit of work; at 0 left the sample is stored.
#[inline]
fn work(row: &mut Row) {
    row.left -= 1;
    if row.left == 0 {
        row.stored = match row.lapsed {
            true => Stored::Lapsed,
            false => Stored::Held(row.sample),
        };
        row.sample = 0;
        row.lapsed = false;
    }
}

/// Step 3: samples whose age has reached their validity become lapsed.
#[inline]
fn lapse(row: &mut Row, clock: u32) {
    let validity = row.planned.validity;
    if let Stored::Held(sample) = row.stored {
        if clock.wrapping_sub(sample) >= validity {
            row.stored = Stored::Lapsed;
        }
    }
    if row.left > 0 && clock.wrapping_sub(row.sample) >= validity {
        row.lapsed = true;
    }
}

/// Refusal 13 unless the run state is acceptable; then the place of the row in its hold.
fn check(run: &Run) -> Result<InHold, Refusal> {
    if run.count == 0 || run.count > ROWS {
        return Err(Refusal::NotARun);
    }
    let (used, unused) = run.rows.split_at(run.count);
    let held = used_rows(used, run.clock)?;
    match ids_differ(used) && unused.iter().all(|row| *row == Row::default()) {
        true => Ok(held),
        false => Err(Refusal::NotARun),
    }
}

/// What each row in use must be by itself, and that at most one is in its hold.
#[inline]
fn used_rows(used: &[Row], clock: u32) -> Result<InHold, Refusal> {
    let mut held = None;
    for (place, row) in used.iter().enumerate() {
        if !well_planned(&row.planned) || !well_under_way(row, clock) {
            return Err(Refusal::NotARun);
        }
        if in_hold(row) && held.replace(place).is_some() {
            return Err(Refusal::NotARun);
        }
    }
    Ok(held)
}

fn ids_differ(rows: &[Row]) -> bool {
    for (place, row) in rows.iter().enumerate() {
        for earlier in &rows[..place] {
            if earlier.planned.id == row.planned.id {
                return false;
            }
        }
    }
    true
}

fn well_planned(row: &PlanRow) -> bool {
    1 <= row.cost
        && row.cost <= row.deadline
        && row.deadline <= row.period
        && row.validity <= LARGEST
        && 1 <= row.hold
        && row.hold <= row.cost
        && row.hold <= LONGEST_HOLD
        && row.deadline.checked_add(row.period) == Some(row.validity)
}

fn well_under_way(row: &Row, clock: u32) -> bool {
    let young = |sample: u32| clock.wrapping_sub(sample) < row.planned.validity;
    let in_hand = match row.left {
        0 => row.sample == 0 && !row.lapsed,
        _ => row.lapsed || young(row.sample),
    };
    let stored = match row.stored {
        Stored::Held(sample) => young(sample),
        Stored::Empty | Stored::Lapsed => true,
    };
    row.next.wrapping_sub(clock) < row.planned.period && row.left <= row.planned.cost && in_hand && stored
}

/// What timing_slots tells of the row at the place.
pub fn seen(run: &Run, place: u8) -> ffi::Seen {
    let row = run.rows[usize::from(place) % ROWS];
    ffi::Seen {
        clock: run.clock,
        next: row.next,
        left: row.left,
        sample: row.sample,
        skips: row.skips,
    }
}

/// The C form of a run.
pub fn c_form(run: &Run) -> ffi::Run {
    ffi::Run {
        clock: run.clock,
        count: run.count,
        rows: run.rows.map(c_row),
    }
}

fn c_row(row: Row) -> ffi::RunRow {
    let (stored, held) = match row.stored {
        Stored::Empty => (ffi::NONE, 0),
        Stored::Held(sample) => (ffi::HELD, sample),
        Stored::Lapsed => (ffi::LAPSED, 0),
    };
    ffi::RunRow {
        planned: row.planned,
        next: row.next,
        left: row.left,
        sample: row.sample,
        lapsed: row.lapsed as u32,
        stored,
        held,
        skips: row.skips,
    }
}
