//! The run, over true instants: start, slots and readings. Refusals 11, 12 and 14.
//!
//! An instant is a 64-bit number that never comes round. A value is fresh exactly while its true age is below its
//! validity, so no lapse is ever noted: it can be told at any time from the sample instant alone. Nor is it noted who
//! has a hold on the core: the work done of a job tells.

use crate::planning::{plan, PlanRow};
use crate::tables::{refused, refused_at, ObjectRow, Refusal};

/// A run: the present instant, what the clock showed at instant 0, and the objects in priority order.
#[derive(Clone, PartialEq, Eq, Debug)]
pub struct Run {
    pub now: u64,
    pub clock_at_zero: u32,
    pub objects: Vec<Object>,
}

/// An object of a run.
#[derive(Clone, PartialEq, Eq, Debug)]
pub struct Object {
    pub planned: PlanRow,
    /// The instant of the next release.
    pub next: u64,
    /// The job in hand, if there is one.
    pub job: Option<Job>,
    /// The sample instant of the stored value, if there is one, however old.
    pub stored: Option<u64>,
    /// Every release skipped, without a limit.
    pub skips: u64,
}

/// A job in hand: its work left, at least 1, and the instant of its release, at which it was sampled.
#[derive(Clone, Copy, PartialEq, Eq, Debug)]
pub struct Job {
    pub left: u32,
    pub sample: u64,
}

/// What a reading answers.
#[derive(Clone, Copy, PartialEq, Eq, Debug)]
pub enum Value {
    None,
    Stale,
    Fresh { age: u64 },
}

impl Object {
    /// Whether a sample of this object is no longer fresh at an instant.
    pub fn is_stale(&self, sample: u64, now: u64) -> bool {
        now - sample >= u64::from(self.planned.validity)
    }

    /// Whether the job in hand has a hold on the core: it has done its first unit, and not yet all of its hold.
    pub fn is_in_hold(&self) -> bool {
        let done = self.job.map_or(0, |job| self.planned.cost - job.left);
        0 < done && done < self.planned.hold
    }

    /// Step 1 of a slot: a release that is due begins a job, or is skipped for the one in hand.
    fn release(&mut self, now: u64) {
        if self.next != now {
            return;
        }
        match self.job {
            None => {
                self.job = Some(Job {
                    left: self.planned.cost,
                    sample: now,
                })
            }
            Some(_) => self.skips += 1,
        }
        self.next += u64::from(self.planned.period);
    }

    /// Step 2 of a slot, for the object that has the core: one unit of work, and with the last of them the value.
    fn work(&mut self) {
        let Some(job) = &mut self.job else {
            return;
        };
        job.left -= 1;
        if job.left == 0 {
            self.stored = Some(job.sample);
            self.job = None;
        }
    }
}

impl Run {
    /// Plans the rows and starts a run of them, with one first release per object in priority order, counted from now.
    pub fn start(count: usize, rows: &[ObjectRow], clock: u32, firsts: &[u32]) -> Result<Run, Refusal> {
        let planned = plan(count, rows)?;
        if firsts.len() != planned.len() {
            return Err(refused(11));
        }
        let mut objects = Vec::new();
        for (place, (row, first)) in planned.iter().zip(firsts).enumerate() {
            if *first >= row.period {
                return Err(refused_at(12, place));
            }
            objects.push(Object {
                planned: *row,
                next: u64::from(*first),
                job: None,
                stored: None,
                skips: 0,
            });
        }
        Ok(Run {
            now: 0,
            clock_at_zero: clock,
            objects,
        })
    }

    /// One slot. Tells the place of the object that worked in it, if one did.
    pub fn slot(&mut self, stolen: bool) -> Option<usize> {
        for object in &mut self.objects {
            object.release(self.now);
        }
        let worked = if stolen { None } else { self.next_to_work() };
        if let Some(place) = worked {
            self.objects[place].work();
        }
        self.now += 1;
        worked
    }

    /// The place of the object that gets a slot that is not stolen: the one in its hold, if there is one, whoever is
    /// ahead of it; otherwise the first with work left.
    fn next_to_work(&self) -> Option<usize> {
        let in_hold = self.objects.iter().position(Object::is_in_hold);
        in_hold.or_else(|| self.objects.iter().position(|object| object.job.is_some()))
    }

    /// What is known of the value of the object with this id.
    pub fn reading(&self, id: u16) -> Result<Value, Refusal> {
        let object = self.objects.iter().find(|object| object.planned.id == id);
        let object = object.ok_or(refused(14))?;
        Ok(match object.stored {
            None => Value::None,
            Some(sample) if object.is_stale(sample, self.now) => Value::Stale,
            Some(sample) => Value::Fresh { age: self.now - sample },
        })
    }
}

#[cfg(test)]
mod tests {
    use super::*;
    use crate::held_numbers::{HELD, WAITING, WAITING_FIRSTS, WAITING_SLOTS};
    use crate::numbers::FIGURE_2;

    /// A run of these (id, cost, validity), which the test knows to be in priority order.
    fn started(objects: &[(u16, u32, u32)], clock: u32, firsts: &[u32]) -> Result<Run, Refusal> {
        let rows: Vec<ObjectRow> = objects
            .iter()
            .map(|&(id, cost, validity)| ObjectRow::plain(id, cost, validity))
            .collect();
        Run::start(rows.len(), &rows, clock, firsts)
    }

    /// A run of these (id, cost, validity, hold) from clock 0, which the test knows to be in priority order.
    fn started_with_holds(objects: &[(u16, u32, u32, u32)], firsts: &[u32]) -> Run {
        let rows: Vec<ObjectRow> = objects
            .iter()
            .map(|&(id, cost, validity, hold)| ObjectRow::held(id, cost, validity, hold))
            .collect();
        Run::start(rows.len(), &rows, 0, firsts).unwrap()
    }

    fn nothing_left_over(run: &Run) -> bool {
        run.objects.iter().all(|object| object.job.is_none())
    }

    #[test]
    fn figure_2_with_first_releases_2_1_0() {
        let mut run = started(FIGURE_2, 0, &[2, 1, 0]).unwrap();
        let worked: Vec<usize> = (0..6).map(|_| run.slot(false).unwrap() + 1).collect();
        assert_eq!(worked, [3, 2, 1, 1, 2, 3]);
        assert_eq!(run.now, 6);
        assert!(nothing_left_over(&run), "though no slot was idle");
        assert_eq!(run.reading(3), Ok(Value::Fresh { age: 6 }));
    }

    #[test]
    fn three_stolen_slots() {
        let mut run = started(&[(9, 1, 2)], 0, &[0]).unwrap();
        let mut skips = Vec::new();
        for instant in 0..4 {
            run.slot(instant < 3);
            skips.push(run.objects[0].skips);
        }
        assert_eq!(skips, [0, 1, 2, 3], "at 1, 2 and 3");
        assert_eq!(run.now, 4);
        assert_eq!(run.reading(9), Ok(Value::Stale));
        assert!(nothing_left_over(&run));
        run.slot(false);
        assert_eq!(run.now, 5);
        assert_eq!(run.reading(9), Ok(Value::Fresh { age: 1 }));
        assert_eq!(run.objects[0].skips, 3);
    }

    #[test]
    fn a_reading_answers_none_before_the_first_job_is_done() {
        let mut run = started(&[(9, 2, 20)], 7, &[3]).unwrap();
        for _ in 0..4 {
            assert_eq!(run.reading(9), Ok(Value::None));
            run.slot(false);
        }
        assert_eq!(run.reading(9), Ok(Value::None));
        run.slot(false);
        assert_eq!(run.reading(9), Ok(Value::Fresh { age: 2 }));
        assert_eq!(run.reading(8), Err(refused(14)));
    }

    #[test]
    fn starts_that_are_refused() {
        let start = |firsts: &[u32]| started(FIGURE_2, 0, firsts).map(|_| ());
        assert_eq!(start(&[5, 5, 5]), Ok(()));
        assert_eq!(start(&[6, 6]), Err(refused(11)));
        assert_eq!(start(&[0, 0, 0, 0]), Err(refused(11)));
        assert_eq!(start(&[5, 6, 6]), Err(refused_at(12, 1)));
        assert_eq!(start(&[u32::MAX, 0, 6]), Err(refused_at(12, 0)));
        let without_deadline = started(&[(1, 1, 3), (2, 1, 3)], 0, &[9]);
        assert_eq!(without_deadline, Err(refused_at(10, 1)), "before 11");
    }

    #[test]
    fn a_value_is_stamped_with_its_release() {
        // Held up for two slots, the value is already 3 slots old when it is stored.
        let mut run = started(&[(1, 1, 10)], 0, &[0]).unwrap();
        run.slot(true);
        run.slot(true);
        run.slot(false);
        assert_eq!(run.reading(1), Ok(Value::Fresh { age: 3 }));
    }

    #[test]
    fn a_hold_keeps_a_shorter_validity_waiting_for_h_minus_1() {
        let mut run = started_with_holds(WAITING, &WAITING_FIRSTS);
        let worked: Vec<usize> = WAITING_SLOTS.iter().map(|_| run.slot(false).unwrap()).collect();
        assert_eq!(worked, WAITING_SLOTS);
        // Released at 1 and begun at 3, it ended at 4: just its deadline, 3, after its release.
        assert_eq!(run.reading(1), Ok(Value::Fresh { age: 4 }));
        assert_eq!(run.objects[0].planned.deadline, 3);
    }

    #[test]
    fn without_a_hold_it_does_not_wait() {
        let plain: Vec<(u16, u32, u32)> = WAITING
            .iter()
            .map(|&(id, cost, validity, _)| (id, cost, validity))
            .collect();
        let mut run = started(&plain, 0, &WAITING_FIRSTS).unwrap();
        let worked: Vec<usize> = WAITING_SLOTS.iter().map(|_| run.slot(false).unwrap()).collect();
        assert_eq!(worked, [1, 0, 1, 1, 1]);
    }

    #[test]
    fn a_hold_goes_on_after_stolen_slots() {
        let mut run = started_with_holds(WAITING, &WAITING_FIRSTS);
        let stolen = [false, true, true, false, true, false, false, false];
        let worked: Vec<Option<usize>> = stolen.iter().map(|stolen| run.slot(*stolen)).collect();
        let (first, second) = (Some(0), Some(1));
        assert_eq!(worked, [second, None, None, second, None, second, first, second]);
    }

    #[test]
    fn a_hold_begins_with_the_first_unit_and_not_before() {
        // Both are released at 0. The second may not even begin while the first has work, though its hold is longer.
        let mut run = started_with_holds(&[(1, 3, 30, 2), (2, 4, 40, 4)], &[0, 0]);
        let worked: Vec<usize> = (0..7).map(|_| run.slot(false).unwrap()).collect();
        assert_eq!(worked, [0, 0, 0, 1, 1, 1, 1]);
    }

    #[test]
    fn a_job_may_be_set_aside_once_its_hold_is_over() {
        // (2,8), and (5,60) with a hold of 2 of which one unit is done when the first is released at 1.
        let mut run = started_with_holds(&[(1, 2, 8, 1), (2, 5, 60, 2)], &[1, 0]);
        let worked: Vec<Option<usize>> = (0..8).map(|_| run.slot(false)).collect();
        let (first, second) = (Some(0), Some(1));
        assert_eq!(worked, [second, second, first, first, second, second, first, first]);
        assert!(!run.objects[1].is_in_hold(), "set aside again, with one unit left");
        assert_eq!(run.slot(false), second);
    }

    #[test]
    fn a_job_that_ends_with_its_hold_makes_room() {
        // A hold of the whole cost: the release that falls into its last slot is skipped, as it has work left.
        let mut run = started_with_holds(&[(1, 3, 6, 3)], &[0]);
        for stolen in [true, false, true, false] {
            run.slot(stolen);
        }
        assert!(run.objects[0].is_in_hold());
        run.slot(false);
        assert!(!run.objects[0].is_in_hold());
        assert_eq!((run.objects[0].skips, run.reading(1)), (1, Ok(Value::Fresh { age: 5 })));
    }

    #[test]
    fn planned_jobs_with_holds_end_in_time() {
        for numbers in HELD.iter().filter(|numbers| numbers.more_less.is_ok()) {
            if numbers.objects.iter().any(|object| object.1 > 1000) {
                continue;
            }
            for spread in 0..200 {
                let planned = numbers.more_less().unwrap();
                let firsts: Vec<u32> = planned
                    .iter()
                    .zip(0..)
                    .map(|(row, k)| spread * (k + 1) * (k + 3) % row.period)
                    .collect();
                let mut run = started_with_holds(numbers.objects, &firsts);
                for _ in 0..1000 {
                    run.slot(false);
                    let late = run.objects.iter().find(|object| {
                        object
                            .job
                            .is_some_and(|job| run.now - job.sample >= u64::from(object.planned.deadline))
                    });
                    assert_eq!(late, None, "{}, {firsts:?}", numbers.from);
                    assert!(run.objects.iter().filter(|object| object.is_in_hold()).count() <= 1);
                    assert!(run.objects.iter().all(|object| object.skips == 0));
                }
            }
        }
    }
}
