//! Part 5: damaged run states, which must be refused with 13, and random damage, which may or may not be.

use paper::running::Run;
use paper::states::{shown, taken_up, Condition, RunState};
use paper::tables::{refused, MOST_OBJECTS};

use crate::cform::{self, faults, Fault};
use crate::ffi::{self, RunRow, HELD, LAPSED, NONE};
use crate::generate::{clock, first_releases, place, planned_rows, run_state, stolen_slots, young};
use crate::random::Random;
use crate::tally::{agree, for_cases, Tally};

const CASES_OF_EACH_KIND: u64 = 200;
const RANDOM_DAMAGE: u64 = 60_000;

/// A kind of damage that breaks exactly one condition, or two that go together.
struct Kind {
    name: &'static str,
    breaks: Breaks,
    /// How many objects the state has before it is damaged.
    objects: (usize, usize),
    damage: Damage,
}

/// What is broken: a fault alone, or two conditions on a hold and its cost.
#[derive(Clone, Copy, PartialEq, Eq, Debug)]
enum Breaks {
    One(Fault),
    Two(Condition, Condition),
}

/// What is damaged.
enum Damage {
    /// The state as a whole.
    State(fn(&mut Random, &mut ffi::Run)),
    /// A row in use, for which the clock is told too.
    Row(fn(&mut Random, u32, &mut RunRow)),
    /// A row beyond the count, which gets one field that is not zero.
    Beyond(fn(u32, &mut RunRow)),
}

const ANY: (usize, usize) = (1, MOST_OBJECTS);
const ALL: (usize, usize) = (MOST_OBJECTS, MOST_OBJECTS);
const NOT_ALL: (usize, usize) = (1, MOST_OBJECTS - 1);

const fn state(
    name: &'static str,
    breaks: Condition,
    objects: (usize, usize),
    damage: fn(&mut Random, &mut ffi::Run),
) -> Kind {
    Kind {
        name,
        breaks: Breaks::One(Fault::Paper(breaks)),
        objects,
        damage: Damage::State(damage),
    }
}

const fn row(name: &'static str, breaks: Condition, damage: fn(&mut Random, u32, &mut RunRow)) -> Kind {
    form(name, Fault::Paper(breaks), damage)
}

const fn form(name: &'static str, breaks: Fault, damage: fn(&mut Random, u32, &mut RunRow)) -> Kind {
    Kind {
        name,
        breaks: Breaks::One(breaks),
        objects: ANY,
        damage: Damage::Row(damage),
    }
}

const fn beyond(name: &'static str, damage: fn(u32, &mut RunRow)) -> Kind {
    Kind {
        name,
        breaks: Breaks::One(Fault::Paper(Condition::BeyondCountIsZero)),
        objects: NOT_ALL,
        damage: Damage::Beyond(damage),
    }
}

/// Every condition of "A run state is acceptable when", each by itself, and what the form of C adds.
const KINDS: &[Kind] = &[
    state("count 0, and no row", Condition::CountIs1To64, ANY, |_, run| {
        let clock = run.clock;
        *run = ffi::Run {
            clock,
            ..ffi::Run::default()
        };
    }),
    state("count 0, with rows", Condition::CountIs1To64, ANY, |_, run| {
        run.count = 0
    }),
    state("count 65", Condition::CountIs1To64, ALL, |_, run| run.count = 65),
    state("count far above 64", Condition::CountIs1To64, ANY, |random, run| {
        run.count = random.pick(&[usize::MAX, usize::MAX / 2, 1 << 31, 1 << 32, 65_535]);
    }),
    state(
        "count good only in its lower bits",
        Condition::CountIs1To64,
        ANY,
        |random, run| {
            run.count += random.pick(&[1 << 8, 1 << 16, 1 << 32]);
        },
    ),
    state("equal ids", Condition::IdsDiffer, (2, MOST_OBJECTS), |random, run| {
        let earlier = random.below(run.count - 1);
        let later = random.between(earlier + 1, run.count - 1);
        run.rows[later].planned.id = run.rows[earlier].planned.id;
    }),
    // No hold is from 1 to a cost of 0.
    Kind {
        name: "cost 0, and a hold of 1",
        breaks: Breaks::Two(Condition::CostAtLeast1, Condition::HoldAtMostCost),
        objects: ANY,
        damage: Damage::Row(|_, _, row| {
            make_idle(row);
            row.planned.cost = 0;
            row.planned.hold = 1;
        }),
    },
    Kind {
        name: "cost 0, and a hold of 0",
        breaks: Breaks::Two(Condition::CostAtLeast1, Condition::HoldAtLeast1),
        objects: ANY,
        damage: Damage::Row(|_, _, row| {
            make_idle(row);
            row.planned.cost = 0;
            row.planned.hold = 0;
        }),
    },
    row(
        "cost one above the deadline",
        Condition::CostAtMostDeadline,
        |_, _, row| {
            row.planned.hold = 1;
            row.planned.cost = row.planned.deadline + 1;
        },
    ),
    row(
        "cost far above the deadline",
        Condition::CostAtMostDeadline,
        |random, _, row| {
            row.planned.hold = 1;
            row.planned.cost = random.words(row.planned.deadline + 1, u32::MAX);
        },
    ),
    row(
        "deadline above the period",
        Condition::DeadlineAtMostPeriod,
        |random, clock, row| {
            row.planned.validity = row.planned.validity.max(3);
            row.planned.deadline = random.words(row.planned.validity / 2 + 1, row.planned.validity - 1);
            row.planned.period = row.planned.validity - row.planned.deadline;
            row.next = clock;
        },
    ),
    row(
        "deadline plus period above the validity",
        Condition::DeadlinePlusPeriodIsValidity,
        |random, _, row| {
            row.planned.period += random.pick(&[1, 2, 1000]);
        },
    ),
    row(
        "deadline plus period below the validity",
        Condition::DeadlinePlusPeriodIsValidity,
        |random, clock, row| {
            make_idle(row);
            row.next = clock;
            row.planned.validity = row.planned.validity.max(3);
            row.planned.cost = 1;
            row.planned.hold = 1;
            row.planned.deadline = 1;
            row.planned.period = random.words(1, row.planned.validity - 2);
        },
    ),
    row(
        "deadline plus period the validity only after a turn",
        Condition::DeadlinePlusPeriodIsValidity,
        |_, _, row| {
            row.planned.deadline += 1 << 31;
            row.planned.period += 1 << 31;
        },
    ),
    row("validity 1,000,001", Condition::ValidityAtMostAMillion, |_, _, row| {
        row.planned.validity = 1_000_001;
        row.planned.period = 1_000_001 - row.planned.deadline;
    }),
    row(
        "validity 4,294,967,295",
        Condition::ValidityAtMostAMillion,
        |_, _, row| {
            row.planned.validity = u32::MAX;
            row.planned.period = u32::MAX - row.planned.deadline;
        },
    ),
    row("hold 0", Condition::HoldAtLeast1, |random, _, row| {
        not_begun(random, row);
        row.planned.hold = 0;
    }),
    row(
        "hold one above the cost",
        Condition::HoldAtMostCost,
        |random, _, row| {
            not_begun(random, row);
            row.planned.cost = row.planned.cost.min(65_535);
            row.left = row.left.min(row.planned.cost);
            row.planned.hold = row.planned.cost + 1;
        },
    ),
    row(
        "hold further above the cost",
        Condition::HoldAtMostCost,
        |random, _, row| {
            not_begun(random, row);
            row.planned.cost = row.planned.cost.min(65_535);
            row.left = row.left.min(row.planned.cost);
            row.planned.hold = random.words(row.planned.cost + 1, 65_536);
        },
    ),
    row("hold 65,537", Condition::HoldAtMost65536, |random, clock, row| {
        make_costly(random, clock, row);
        row.planned.hold = 65_537;
    }),
    row(
        "hold above 65,536 and up to the cost",
        Condition::HoldAtMost65536,
        |random, clock, row| {
            make_costly(random, clock, row);
            row.planned.hold = random.words(65_537, row.planned.cost);
        },
    ),
    Kind {
        name: "hold above the cost and above 65,536",
        breaks: Breaks::Two(Condition::HoldAtMostCost, Condition::HoldAtMost65536),
        objects: ANY,
        damage: Damage::Row(|random, _, row| {
            not_begun(random, row);
            // Some are good in their lower 16 bits.
            let low = row.planned.hold + (1 << 16);
            let any = random.words(1_000_001, u32::MAX);
            row.planned.hold = random.pick(&[low + (1 << 20), low + (1 << 31), u32::MAX, any]);
        }),
    },
    Kind {
        name: "hold 65,537, and the only job in it",
        breaks: Breaks::One(Fault::Paper(Condition::HoldAtMost65536)),
        objects: (1, 1),
        damage: Damage::Row(|random, clock, row| {
            make_costly(random, clock, row);
            make_busy(random, clock, row);
            row.planned.hold = 65_537;
            row.left = row.planned.cost - random.pick(&[1, 2, 65_536]);
        }),
    },
    state(
        "two rows in their hold",
        Condition::OneInItsHold,
        (2, MOST_OBJECTS),
        |random, run| {
            let first = random.below(run.count - 1);
            let second = random.between(first + 1, run.count - 1);
            for at in [first, second] {
                put_in_hold(random, run.clock, &mut run.rows[at]);
            }
        },
    ),
    state(
        "three rows in their hold",
        Condition::OneInItsHold,
        (3, MOST_OBJECTS),
        |random, run| {
            let middle = random.between(1, run.count - 2);
            for at in [0, middle, run.count - 1] {
                put_in_hold(random, run.clock, &mut run.rows[at]);
            }
        },
    ),
    row(
        "next release one period on",
        Condition::NextReleaseBelowPeriod,
        |_, clock, row| {
            row.next = clock.wrapping_add(row.planned.period);
        },
    ),
    row(
        "next release further on",
        Condition::NextReleaseBelowPeriod,
        |random, clock, row| {
            row.next = clock.wrapping_add(random.words(row.planned.period, u32::MAX));
        },
    ),
    row(
        "next release just past",
        Condition::NextReleaseBelowPeriod,
        |_, clock, row| {
            row.next = clock.wrapping_sub(1);
        },
    ),
    row(
        "work left one above the cost",
        Condition::LeftAtMostCost,
        |random, clock, row| {
            make_busy(random, clock, row);
            row.left = row.planned.cost + 1;
        },
    ),
    row(
        "work left far above the cost",
        Condition::LeftAtMostCost,
        |random, clock, row| {
            make_busy(random, clock, row);
            row.left = random
                .pick(&[u32::MAX, 1 << 16, row.planned.cost + (1 << 31)])
                .max(row.planned.cost + 1);
        },
    ),
    row(
        "held sample as old as the validity",
        Condition::HeldSampleBelowValidity,
        |_, clock, row| {
            hold(row, clock.wrapping_sub(row.planned.validity));
        },
    ),
    row(
        "held sample older",
        Condition::HeldSampleBelowValidity,
        |random, clock, row| {
            hold(row, clock.wrapping_sub(random.words(row.planned.validity, u32::MAX)));
        },
    ),
    row(
        "held sample still to come",
        Condition::HeldSampleBelowValidity,
        |_, clock, row| {
            hold(row, clock.wrapping_add(1));
        },
    ),
    row(
        "sample in hand as old as the validity",
        Condition::SampleInHandBelowValidity,
        |random, clock, row| {
            make_busy(random, clock, row);
            row.lapsed = 0;
            row.sample = clock.wrapping_sub(row.planned.validity);
        },
    ),
    row(
        "sample in hand older",
        Condition::SampleInHandBelowValidity,
        |random, clock, row| {
            make_busy(random, clock, row);
            row.lapsed = 0;
            row.sample = clock.wrapping_sub(random.words(row.planned.validity, u32::MAX));
        },
    ),
    row(
        "sample in hand still to come",
        Condition::SampleInHandBelowValidity,
        |random, clock, row| {
            make_busy(random, clock, row);
            row.lapsed = 0;
            row.sample = clock.wrapping_add(1);
        },
    ),
    row(
        "no work left, and a sample",
        Condition::IdleSampleIs0,
        |random, clock, row| {
            make_idle(row);
            let any = random.word().max(1);
            row.sample = random.pick(&[1, clock.max(1), u32::MAX, any]);
        },
    ),
    row("no work left, and lapsed", Condition::IdleNotLapsed, |_, _, row| {
        make_idle(row);
        row.lapsed = 1;
    }),
    beyond("beyond the count: id", |any, row| {
        row.planned.id = (any % 65_535 + 1) as u16
    }),
    beyond("beyond the count: cost", |any, row| row.planned.cost = any),
    beyond("beyond the count: validity", |any, row| row.planned.validity = any),
    beyond("beyond the count: hold", |any, row| row.planned.hold = any),
    beyond("beyond the count: deadline", |any, row| row.planned.deadline = any),
    beyond("beyond the count: period", |any, row| row.planned.period = any),
    beyond("beyond the count: next release", |any, row| row.next = any),
    beyond("beyond the count: work left", |any, row| row.left = any),
    beyond("beyond the count: sample", |any, row| row.sample = any),
    beyond("beyond the count: lapsed mark", |_, row| row.lapsed = 1),
    beyond("beyond the count: held at 0", |_, row| row.stored = HELD),
    beyond("beyond the count: held at another instant", |any, row| hold(row, any)),
    beyond("beyond the count: lapsed value", |_, row| row.stored = LAPSED),
    beyond("beyond the count: skips", |any, row| row.skips = any),
    Kind {
        name: "beyond the count: held without a held value",
        breaks: Breaks::One(Fault::HeldIsNot0WithoutHeldValue),
        objects: NOT_ALL,
        damage: Damage::Beyond(|any, row| row.held = any),
    },
    form(
        "lapsed neither 0 nor 1",
        Fault::LapsedIsNeither0Nor1,
        |random, clock, row| {
            make_busy(random, clock, row);
            row.lapsed = random.pick(&[2, 3, 256, 257, 1 << 16, 1 << 31, u32::MAX]);
        },
    ),
    form("stored above 2", Fault::StoredIsAbove2, |random, _, row| {
        row.held = 0;
        row.stored = random.pick(&[3, 4, 256, 257, 258, 1 << 16, 1 << 31, u32::MAX]);
    }),
    form(
        "held not 0 with no value stored",
        Fault::HeldIsNot0WithoutHeldValue,
        |random, clock, row| {
            row.stored = NONE;
            row.held = young(random, clock, row.planned.validity).max(1);
        },
    ),
    form(
        "held not 0 with a lapsed value",
        Fault::HeldIsNot0WithoutHeldValue,
        |random, clock, row| {
            row.stored = LAPSED;
            row.held = young(random, clock, row.planned.validity).max(1);
        },
    ),
];

/// Takes the job out of hand.
fn make_idle(row: &mut RunRow) {
    row.left = 0;
    row.sample = 0;
    row.lapsed = 0;
}

/// Sees to it that a job is in hand.
fn make_busy(random: &mut Random, clock: u32, row: &mut RunRow) {
    if row.left == 0 {
        row.left = random.words(1, row.planned.cost);
        row.sample = young(random, clock, row.planned.validity);
        row.lapsed = random.words(0, 1);
        // Another row may be in its hold already.
        row.planned.hold = 1;
    }
}

/// Sees to it that a job, if there is one in hand, has done nothing yet: then it is not in its hold, whatever that is.
/// Sometimes there is none.
fn not_begun(random: &mut Random, row: &mut RunRow) {
    if random.one_in(3) {
        make_idle(row);
    } else if row.left > 0 {
        row.left = row.planned.cost;
    }
}

/// A row with a cost above 65,537, of which nothing has been done.
fn make_costly(random: &mut Random, clock: u32, row: &mut RunRow) {
    make_idle(row);
    row.stored = NONE;
    row.held = 0;
    row.planned.cost = random.words(65_537, 400_000);
    row.planned.deadline = random.words(row.planned.cost, 500_000);
    row.planned.period = random.words(row.planned.deadline, 1_000_000 - row.planned.deadline);
    row.planned.validity = row.planned.deadline + row.planned.period;
    row.next = clock.wrapping_add(random.words(0, row.planned.period - 1));
    if random.one_in(2) {
        make_busy(random, clock, row);
        row.left = row.planned.cost;
    }
}

/// A row with a job in its hold: at the beginning of it, at its end, or anywhere. It gets a cost of 2 at least.
fn put_in_hold(random: &mut Random, clock: u32, row: &mut RunRow) {
    make_idle(row);
    row.stored = LAPSED;
    row.held = 0;
    let planned = &mut row.planned;
    planned.cost = random.words(2, planned.deadline.max(2));
    planned.deadline = planned.deadline.max(planned.cost);
    planned.period = planned.period.min(500_000).max(planned.deadline);
    planned.validity = planned.deadline + planned.period;
    row.next = clock.wrapping_add(random.words(0, planned.period - 1));
    let most = planned.cost.min(65_536);
    let any = random.words(2, most);
    let hold = random.pick(&[2, any, most]);
    make_busy(random, clock, row);
    row.planned.hold = hold;
    let done = random.words(1, hold - 1);
    row.left = row.planned.cost - random.pick(&[1, done, hold - 1]);
}

/// Stores a held value of this sample instant.
fn hold(row: &mut RunRow, sample: u32) {
    row.stored = HELD;
    row.held = sample;
}

pub fn damaged_states(seed: u64) -> Result<(), String> {
    let mut tally = Tally::new();
    for (kind, number) in KINDS.iter().zip(500..) {
        tally.expect(kind.name, CASES_OF_EACH_KIND);
        for_cases(seed, number, CASES_OF_EACH_KIND, |random| {
            tally.add(kind.name, 1);
            one_condition_broken(random, kind)
        })?;
    }
    tally.expect("states with random damage", 50_000);
    tally.expect("of them still acceptable", RANDOM_DAMAGE / 20);
    tally.expect("of them refused with 13", RANDOM_DAMAGE / 20);
    for_cases(seed, 5, RANDOM_DAMAGE, |random| random_damage(random, &mut tally))?;
    println!(
        "  {:>10}  kinds of damage that break one condition, or two that go together",
        KINDS.len()
    );
    tally.close()
}

/// A good state: made up, or come to by a run.
fn good_state(random: &mut Random, objects: (usize, usize)) -> ffi::Run {
    let few = objects.1.min(objects.0 + 5);
    let count = match random.one_in(3) {
        true => random.between(objects.0, objects.1),
        false => random.between(objects.0, few),
    };
    let state = match random.one_in(4) {
        true => state_of_a_run(random, count),
        false => run_state(random, count),
    };
    let run = cform::run(&state);
    assert_eq!(faults(&run), [], "a good state has no fault: {run:?}");
    run
}

fn state_of_a_run(random: &mut Random, count: usize) -> RunState {
    let (rows, planned) = planned_rows(random, count);
    let firsts = first_releases(random, &planned);
    let clock = clock(random);
    let mut run = Run::start(count, &rows, clock, &firsts).expect("the rows are planned");
    let slots = random.between(0, 200);
    for byte in stolen_slots(random, slots) {
        run.slot(byte != 0);
    }
    shown(&run)
}

/// Damages a good state so that exactly the one condition is broken, and sees it refused by all who take a run.
fn one_condition_broken(random: &mut Random, kind: &Kind) -> Result<(), String> {
    let mut run = good_state(random, kind.objects);
    let clock = run.clock;
    match kind.damage {
        Damage::State(damage) => damage(random, &mut run),
        Damage::Row(damage) => {
            let at = place(random, run.count);
            damage(random, clock, &mut run.rows[at]);
        }
        Damage::Beyond(damage) => {
            let at = run.count + place(random, MOST_OBJECTS - run.count);
            let any = random.word().max(1);
            damage(random.pick(&[1, 2, 256, 1 << 16, u32::MAX, any]), &mut run.rows[at]);
        }
    }
    let broken = faults(&run);
    let expected = match kind.breaks {
        Breaks::One(fault) => vec![fault],
        Breaks::Two(one, other) => vec![Fault::Paper(one), Fault::Paper(other)],
    };
    if broken != expected {
        return Err(format!("the damage \"{}\" breaks {broken:?}: {run:?}", kind.name));
    }
    all_refuse(random, &run).map_err(|told| format!("{}: {told}", kind.name))
}

/// A slot, an advance and a reading refuse with 13 and leave the run as it is. An advance by no slot does too: 13 is
/// given exactly when what comes in is not a run state, whatever was to be done with it.
fn all_refuse(random: &mut Random, run: &ffi::Run) -> Result<(), String> {
    let not_a_run_state = cform::verdict::<()>(&Err(refused(13)));
    let input = || format!("{run:?}");
    for stolen in [false, true] {
        let mut lent = *run;
        let verdict = ffi::slot(&mut lent, stolen);
        agree("channelfox_slot", &not_a_run_state, &verdict, input)?;
        agree("the run after a refused slot", run, &lent, input)?;
    }
    for slots in [0, 1, 2, 7] {
        let expected = ffi::RunAnswer {
            verdict: not_a_run_state,
            run: *run,
        };
        let stolen = stolen_slots(random, slots);
        agree("channelfox_advance", &Ok(expected), &ffi::advance(run, &stolen), || {
            format!("{slots} slots, {run:?}")
        })?;
    }
    // Of a run with none of these ids too, since 13 goes before 14.
    for id in [
        run.rows[0].planned.id,
        run.rows[run.count.clamp(1, 64) - 1].planned.id,
        0,
        1,
        random.word() as u16,
    ] {
        let expected = cform::reading(&Err(refused(13)));
        agree("channelfox_read_value", &expected, &ffi::read_value(run, id), || {
            format!("id {id}, {run:?}")
        })?;
    }
    Ok(())
}

/// Damages some fields of a good state, or none, and takes the state for what the paper then makes of it.
fn random_damage(random: &mut Random, tally: &mut Tally) -> Result<(), String> {
    let mut run = good_state(random, ANY);
    for _ in 0..random.between(0, 3) {
        damage_a_field(random, &mut run);
    }
    tally.add("states with random damage", 1);
    if faults(&run).is_empty() {
        tally.add("of them still acceptable", 1);
        all_accept(random, &run)
    } else {
        tally.add("of them refused with 13", 1);
        all_refuse(random, &run)
    }
}

fn damage_a_field(random: &mut Random, run: &mut ffi::Run) {
    match random.below(40) {
        0 => return run.clock = other_number(random, run.clock),
        1 => return run.count = other_number(random, run.count as u32) as usize,
        _ => {}
    }
    let used = run.count.clamp(1, MOST_OBJECTS);
    let at = match random.one_in(8) {
        true => random.below(MOST_OBJECTS),
        false => random.below(used),
    };
    let row = &mut run.rows[at];
    if random.one_in(12) {
        row.planned.id = other_number(random, u32::from(row.planned.id)) as u16;
        return;
    }
    let fields = [
        &mut row.planned.cost,
        &mut row.planned.validity,
        &mut row.planned.hold,
        &mut row.planned.deadline,
        &mut row.planned.period,
        &mut row.next,
        &mut row.left,
        &mut row.sample,
        &mut row.lapsed,
        &mut row.stored,
        &mut row.held,
        &mut row.skips,
    ];
    let at = random.below(fields.len());
    let field = fields.into_iter().nth(at).expect("the field is one of them");
    *field = other_number(random, *field);
}

/// A number close to this one, or a small one, or one with a bit flipped, or any.
fn other_number(random: &mut Random, number: u32) -> u32 {
    match random.below(8) {
        0 | 1 => number.wrapping_add(1),
        2 | 3 => number.wrapping_sub(1),
        4 => random.words(0, 2),
        5 | 6 => number ^ (1 << random.below(32)),
        _ => random.word(),
    }
}

/// A slot, an advance and readings of an acceptable state, as the paper has them.
fn all_accept(random: &mut Random, run: &ffi::Run) -> Result<(), String> {
    let taken = taken_up(&cform::state(run)).expect("a state without a fault is acceptable");
    let input = || format!("{run:?}");
    let mut ids: Vec<u16> = taken.objects.iter().map(|object| object.planned.id).collect();
    ids.extend([0, 1, random.word() as u16]);
    for id in ids {
        let expected = cform::reading(&taken.reading(id));
        agree("channelfox_read_value", &expected, &ffi::read_value(run, id), || {
            format!("id {id}, {run:?}")
        })?;
    }
    for stolen in [false, true] {
        let mut paper = taken.clone();
        paper.slot(stolen);
        let mut lent = *run;
        let verdict = ffi::slot(&mut lent, stolen);
        agree("channelfox_slot", &ffi::Verdict::default(), &verdict, input)?;
        agree("the run after a slot", &cform::run(&shown(&paper)), &lent, input)?;
    }
    let slots = random.between(0, 5);
    let stolen = stolen_slots(random, slots);
    let mut paper = taken;
    for byte in &stolen {
        paper.slot(*byte != 0);
    }
    let expected = cform::run_answer(&Ok(shown(&paper)));
    agree("channelfox_advance", &Ok(expected), &ffi::advance(run, &stolen), || {
        format!("stolen {stolen:?}, {run:?}")
    })
}
