//! The run as 32 bits show it: derived from the true instants, judged, and turned back into true instants.

use crate::planning::PlanRow;
use crate::running::{Job, Object, Run};
use crate::tables::{MOST_HOLD, MOST_OBJECTS};

/// A run state: the clock, the count, and 64 rows, of which those beyond the count are zero or none.
#[derive(Clone, Copy, PartialEq, Eq, Debug)]
pub struct RunState {
    pub clock: u32,
    pub count: usize,
    pub rows: [StateRow; MOST_OBJECTS],
}

/// A row of a run state.
#[derive(Clone, Copy, PartialEq, Eq, Debug, Default)]
pub struct StateRow {
    pub planned: PlanRow,
    /// The clock value of the next release.
    pub next: u32,
    /// The work left of the job in hand, 0 if none.
    pub left: u32,
    /// That job's sample instant.
    pub sample: u32,
    /// Whether that sample has lapsed.
    pub lapsed: bool,
    pub stored: Stored,
    pub skips: u32,
}

/// The stored value of a run state.
#[derive(Clone, Copy, PartialEq, Eq, Debug, Default)]
pub enum Stored {
    #[default]
    None,
    Held(u32),
    Lapsed,
}

/// The conditions of "A run state is acceptable when", one by one.
#[derive(Clone, Copy, PartialEq, Eq, PartialOrd, Ord, Debug)]
pub enum Condition {
    CountIs1To64,
    IdsDiffer,
    CostAtLeast1,
    CostAtMostDeadline,
    DeadlineAtMostPeriod,
    DeadlinePlusPeriodIsValidity,
    ValidityAtMostAMillion,
    HoldAtLeast1,
    HoldAtMostCost,
    HoldAtMost65536,
    NextReleaseBelowPeriod,
    LeftAtMostCost,
    HeldSampleBelowValidity,
    SampleInHandBelowValidity,
    IdleSampleIs0,
    IdleNotLapsed,
    OneInItsHold,
    BeyondCountIsZero,
}

/// The instant at which a run taken up from a run state goes on: a whole number of turns of the clock, and enough of
/// them that no sample it can have lies before instant 0.
const TAKEN_UP_AT: u64 = 4 << 32;

impl Default for RunState {
    fn default() -> RunState {
        RunState {
            clock: 0,
            count: 0,
            rows: [StateRow::default(); MOST_OBJECTS],
        }
    }
}

/// What the run must show: its true instants taken round the 32-bit clock, and its true ages as lapse marks.
pub fn shown(run: &Run) -> RunState {
    let mut state = RunState {
        clock: clock_at(run, run.now),
        count: run.objects.len(),
        ..RunState::default()
    };
    for (row, object) in state.rows.iter_mut().zip(&run.objects) {
        *row = shown_row(run, object);
    }
    state
}

fn shown_row(run: &Run, object: &Object) -> StateRow {
    let mut row = StateRow {
        planned: object.planned,
        next: clock_at(run, object.next),
        skips: object.skips.min(u64::from(u32::MAX)) as u32,
        ..StateRow::default()
    };
    if let Some(job) = object.job {
        row.left = job.left;
        row.sample = clock_at(run, job.sample);
        row.lapsed = object.is_stale(job.sample, run.now);
    }
    row.stored = match object.stored {
        None => Stored::None,
        Some(sample) if object.is_stale(sample, run.now) => Stored::Lapsed,
        Some(sample) => Stored::Held(clock_at(run, sample)),
    };
    row
}

/// What the clock shows at an instant.
fn clock_at(run: &Run, instant: u64) -> u32 {
    ((u64::from(run.clock_at_zero) + instant) % (1 << 32)) as u32
}

/// How far it is from one clock value on to another.
fn from_to(earlier: u32, later: u32) -> u64 {
    ((1 << 32) + u64::from(later) - u64::from(earlier)) % (1 << 32)
}

/// The conditions that a run state breaks. With a bad count nothing else can be said, since no row is known to be used.
pub fn broken(state: &RunState) -> Vec<Condition> {
    if state.count == 0 || state.count > MOST_OBJECTS {
        return vec![Condition::CountIs1To64];
    }
    let (used, beyond) = state.rows.split_at(state.count);
    let mut broken = Vec::new();
    let mut holds = |condition, holds: bool| {
        if !holds && !broken.contains(&condition) {
            broken.push(condition);
        }
    };
    for (place, row) in used.iter().enumerate() {
        let earlier = &used[..place];
        holds(
            Condition::IdsDiffer,
            earlier.iter().all(|other| other.planned.id != row.planned.id),
        );
        for (condition, of_row) in conditions_of_row(state.clock, row) {
            holds(condition, of_row);
        }
    }
    holds(
        Condition::OneInItsHold,
        used.iter().filter(|row| is_in_hold(row)).count() <= 1,
    );
    holds(
        Condition::BeyondCountIsZero,
        beyond.iter().all(|row| *row == StateRow::default()),
    );
    broken
}

/// Whether the job of a row, if there is one, has done its first unit and not yet all of its hold. The row may be any:
/// with more work left than the cost nothing has been done.
fn is_in_hold(row: &StateRow) -> bool {
    let done = i64::from(row.planned.cost) - i64::from(row.left);
    row.left > 0 && 1 <= done && done < i64::from(row.planned.hold)
}

/// The conditions on a row in use, and whether each of them holds.
fn conditions_of_row(clock: u32, row: &StateRow) -> [(Condition, bool); 14] {
    let planned = &row.planned;
    let validity = u64::from(planned.validity);
    let is_young = |sample| from_to(sample, clock) < validity;
    let idle = row.left == 0;
    let held_is_young = match row.stored {
        Stored::Held(sample) => is_young(sample),
        Stored::None | Stored::Lapsed => true,
    };
    [
        (Condition::CostAtLeast1, planned.cost >= 1),
        (Condition::CostAtMostDeadline, planned.cost <= planned.deadline),
        (Condition::DeadlineAtMostPeriod, planned.deadline <= planned.period),
        (
            Condition::DeadlinePlusPeriodIsValidity,
            u64::from(planned.deadline) + u64::from(planned.period) == validity,
        ),
        (Condition::ValidityAtMostAMillion, planned.validity <= 1_000_000),
        (Condition::HoldAtLeast1, planned.hold >= 1),
        (Condition::HoldAtMostCost, planned.hold <= planned.cost),
        (Condition::HoldAtMost65536, planned.hold <= MOST_HOLD),
        (
            Condition::NextReleaseBelowPeriod,
            from_to(clock, row.next) < u64::from(planned.period),
        ),
        (Condition::LeftAtMostCost, row.left <= planned.cost),
        (Condition::HeldSampleBelowValidity, held_is_young),
        (
            Condition::SampleInHandBelowValidity,
            idle || row.lapsed || is_young(row.sample),
        ),
        (Condition::IdleSampleIs0, !idle || row.sample == 0),
        (Condition::IdleNotLapsed, !idle || !row.lapsed),
    ]
}

/// Takes up a run from a run state, or none where that is not acceptable.
///
/// Of what has lapsed the true instant is not known, only that it is at least the validity back: any such instant shows
/// the same from here on. One in hand keeps showing its instant, so there it must also be one the clock showed as that.
pub fn taken_up(state: &RunState) -> Option<Run> {
    if !broken(state).is_empty() {
        return None;
    }
    Some(Run {
        now: TAKEN_UP_AT,
        clock_at_zero: state.clock,
        objects: state.rows[..state.count]
            .iter()
            .map(|row| object_taken_up(state.clock, row))
            .collect(),
    })
}

fn object_taken_up(clock: u32, row: &StateRow) -> Object {
    let validity = u64::from(row.planned.validity);
    let back = |sample| TAKEN_UP_AT - from_to(sample, clock);
    let mut job = None;
    if row.left > 0 {
        let mut sample = back(row.sample);
        if row.lapsed && TAKEN_UP_AT - sample < validity {
            // It looks young, so the clock has come round since.
            sample -= 1 << 32;
        }
        job = Some(Job { left: row.left, sample });
    }
    Object {
        planned: row.planned,
        next: TAKEN_UP_AT + from_to(clock, row.next),
        job,
        stored: match row.stored {
            Stored::None => None,
            Stored::Held(sample) => Some(back(sample)),
            Stored::Lapsed => Some(TAKEN_UP_AT - validity),
        },
        skips: u64::from(row.skips),
    }
}

#[cfg(test)]
mod tests {
    use super::*;
    use crate::held_numbers::{HELD, WAITING, WAITING_FIRSTS};
    use crate::numbers::{FIGURE_2, PLANS};
    use crate::running::Value;
    use crate::tables::ObjectRow;

    fn started(objects: &[(u16, u32, u32)], clock: u32, firsts: &[u32]) -> Run {
        let rows: Vec<ObjectRow> = objects
            .iter()
            .map(|&(id, cost, validity)| ObjectRow::plain(id, cost, validity))
            .collect();
        Run::start(rows.len(), &rows, clock, firsts).unwrap()
    }

    /// The tables of both files of numbers that our way plans.
    fn planned_tables() -> Vec<Vec<ObjectRow>> {
        let plain = PLANS.iter().filter(|numbers| numbers.answers.is_ok());
        let held = HELD.iter().filter(|numbers| numbers.more_less.is_ok());
        plain
            .map(|numbers| numbers.rows())
            .chain(held.map(|numbers| numbers.rows()))
            .collect()
    }

    #[test]
    fn one_slot_over_the_turn_of_the_clock() {
        let mut run = started(&[(1, 1, 4)], u32::MAX, &[0]);
        assert_eq!(shown(&run).clock, u32::MAX);
        assert_eq!(shown(&run).rows[0].next, u32::MAX);
        run.slot(false);
        let state = shown(&run);
        assert_eq!(state.clock, 0);
        assert_eq!(state.rows[0].stored, Stored::Held(u32::MAX));
        assert_eq!(state.rows[0].next, 2);
        assert_eq!(run.reading(1), Ok(Value::Fresh { age: 1 }));
    }

    #[test]
    fn three_stolen_slots_as_the_state_shows_them() {
        let mut run = started(&[(9, 1, 2)], 0, &[0]);
        let mut told = Vec::new();
        for instant in 0..5 {
            run.slot(instant < 3);
            let row = shown(&run).rows[0];
            told.push((row.left, row.sample, row.lapsed, row.stored, row.skips));
        }
        assert_eq!(
            told,
            [
                (1, 0, false, Stored::None, 0),
                (1, 0, true, Stored::None, 1),
                (1, 0, true, Stored::None, 2),
                (0, 0, false, Stored::Lapsed, 3),
                (0, 0, false, Stored::Held(4), 3),
            ]
        );
    }

    #[test]
    fn skips_stop_at_the_most_32_bits_hold() {
        let mut state = shown(&started(&[(9, 1, 2)], 0, &[0]));
        state.rows[0].skips = u32::MAX - 1;
        let mut run = taken_up(&state).unwrap();
        let mut skips = Vec::new();
        for _ in 0..4 {
            run.slot(true);
            skips.push(shown(&run).rows[0].skips);
        }
        assert_eq!(skips, [u32::MAX - 1, u32::MAX, u32::MAX, u32::MAX]);
    }

    #[test]
    fn a_value_that_waited_a_turn_of_the_clock_does_not_look_new() {
        let mut state = shown(&started(&[(1, 2, 10)], 77, &[3]));
        state.rows[0].left = 1;
        state.rows[0].sample = 76;
        state.rows[0].lapsed = true;
        let mut run = taken_up(&state).unwrap();
        assert_eq!(shown(&run), state);
        run.slot(false);
        assert_eq!(run.reading(1), Ok(Value::Stale));
        assert_eq!(shown(&run).rows[0].stored, Stored::Lapsed);
    }

    #[test]
    fn every_state_of_a_run_is_acceptable_and_taken_up_it_goes_on_the_same() {
        for clock in [0, u32::MAX, u32::MAX - 20] {
            for rows in planned_tables() {
                // The last first, so that those ahead may have to wait for its hold.
                let firsts: Vec<u32> = (0..rows.len()).map(|place| u32::from(place + 1 < rows.len())).collect();
                let mut run = Run::start(rows.len(), &rows, clock, &firsts).unwrap();
                for instant in 0..60 {
                    let stolen = instant % 7 > 3 || instant % 11 > 7;
                    let mut again = taken_up(&shown(&run)).expect("acceptable");
                    assert_eq!(shown(&again), shown(&run));
                    assert_eq!(run.slot(stolen), again.slot(stolen));
                    assert_eq!(shown(&again), shown(&run));
                }
            }
        }
    }

    #[test]
    fn each_condition_is_told_apart() {
        let mut run = started(FIGURE_2, 5, &[2, 1, 0]);
        for _ in 0..8 {
            run.slot(false);
        }
        let good = shown(&run);
        assert_eq!(broken(&good), []);
        let after = |change: &dyn Fn(&mut RunState)| {
            let mut state = good;
            change(&mut state);
            broken(&state)
        };
        assert_eq!(after(&|s| s.count = 0), [Condition::CountIs1To64]);
        assert_eq!(after(&|s| s.count = 65), [Condition::CountIs1To64]);
        assert_eq!(after(&|s| s.rows[2].planned.id = 1), [Condition::IdsDiffer]);
        assert_eq!(after(&|s| s.rows[0].planned.cost = 3), [Condition::CostAtMostDeadline]);
        assert_eq!(
            after(&|s| s.rows[0].planned.period += 1),
            [Condition::DeadlinePlusPeriodIsValidity]
        );
        assert_eq!(
            after(&|s| s.rows[1].next = s.clock + 6),
            [Condition::NextReleaseBelowPeriod]
        );
        assert_eq!(
            after(&|s| s.rows[1].stored = Stored::Held(s.clock - 10)),
            [Condition::HeldSampleBelowValidity]
        );
        assert_eq!(after(&|s| s.rows[63].skips = 1), [Condition::BeyondCountIsZero]);
        assert_eq!(after(&|s| s.rows[63].planned.hold = 1), [Condition::BeyondCountIsZero]);
    }

    #[test]
    fn each_condition_on_holds_is_told_apart() {
        let run = started(&[(1, 100, 400), (2, 70_000, 400_000), (3, 5, 500_000)], 5, &[0, 0, 0]);
        let good = shown(&run);
        let after = |change: &dyn Fn(&mut RunState)| {
            let mut state = good;
            change(&mut state);
            broken(&state)
        };
        assert_eq!(after(&|s| s.rows[0].planned.hold = 0), [Condition::HoldAtLeast1]);
        assert_eq!(after(&|s| s.rows[0].planned.hold = 100), []);
        assert_eq!(after(&|s| s.rows[0].planned.hold = 101), [Condition::HoldAtMostCost]);
        assert_eq!(after(&|s| s.rows[1].planned.hold = 65_536), []);
        assert_eq!(
            after(&|s| s.rows[1].planned.hold = 65_537),
            [Condition::HoldAtMost65536]
        );
    }

    /// The second in its hold of 3, with one unit done of 4, and the first released.
    #[test]
    fn at_most_one_is_in_its_hold() {
        let rows: Vec<ObjectRow> = WAITING
            .iter()
            .map(|&(id, cost, validity, hold)| ObjectRow::held(id, cost, validity, hold))
            .collect();
        let mut run = Run::start(2, &rows, 5, &WAITING_FIRSTS).unwrap();
        run.slot(false);
        let good = shown(&run);
        assert_eq!((good.rows[1].left, broken(&good)), (3, vec![]));
        let with_first = |left: u32, hold: u32| {
            let mut state = good;
            state.rows[0].planned = PlanRow {
                cost: 3,
                hold,
                ..state.rows[0].planned
            };
            state.rows[0].left = left;
            state.rows[0].sample = if left > 0 { state.clock } else { 0 };
            broken(&state)
        };
        assert_eq!(with_first(0, 3), [], "no job in hand");
        assert_eq!(with_first(3, 3), [], "not begun");
        assert_eq!(with_first(2, 3), [Condition::OneInItsHold], "one unit done of three");
        assert_eq!(with_first(1, 3), [Condition::OneInItsHold], "two units done of three");
        assert_eq!(with_first(2, 2), [Condition::OneInItsHold], "one unit done of two");
        assert_eq!(with_first(1, 2), [], "the hold is over, and a unit is left");
        assert_eq!(with_first(2, 1), [], "a hold of 1");
        assert_eq!(with_first(4, 3), [Condition::LeftAtMostCost], "less than nothing done");
    }
}
