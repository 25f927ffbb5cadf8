//! Random input in memory: object rows, first releases, clocks, stolen slots and run states.

use paper::planning::{plan, PlanRow};
use paper::states::{RunState, StateRow, Stored};
use paper::tables::{holds, ObjectRow, MOST_HOLD, MOST_OBJECTS};

use crate::random::Random;

const MILLION: usize = 1_000_000;

/// What times the rows of a table have.
#[derive(Clone, Copy, PartialEq, Eq, Debug)]
pub enum Times {
    /// Validities not far above twice the number of objects.
    Short,
    /// Validities of some hundreds.
    Middle,
    /// Validities up to the largest.
    Long,
    /// Few different validities and costs, so that many are tied.
    Tied,
    /// Costs and validities at the ends of their ranges, and costs near the longest hold.
    Ends,
}

/// A number of objects, mostly small and sometimes 64.
pub fn object_count(random: &mut Random) -> usize {
    match random.below(20) {
        0..=9 => random.between(1, 8),
        10..=15 => random.between(9, 24),
        16..=17 => random.between(25, 63),
        _ => MOST_OBJECTS,
    }
}

/// A place among so many, with the first and the last of them often.
pub fn place(random: &mut Random, count: usize) -> usize {
    match random.below(5) {
        0 => 0,
        1 | 2 => count - 1,
        _ => random.below(count),
    }
}

/// Different ids: some tables have neighbours, and some have any.
fn different_ids(random: &mut Random, count: usize) -> Vec<u16> {
    let mut ids: Vec<u16> = Vec::new();
    let neighbours = random.one_in(2);
    let first = random.pick(&[0, 1, 250, 65_500]) + random.words(0, 10) as u16;
    while ids.len() < count {
        let id = match neighbours {
            true => first.wrapping_add(ids.len() as u16),
            false => random.word() as u16,
        };
        if !ids.contains(&id) {
            ids.push(id);
        }
    }
    random.shuffle(&mut ids);
    ids
}

/// So many good object rows, as far as a reader sees. Whether they can be planned is left open.
pub fn object_rows(random: &mut Random, count: usize, times: Times) -> Vec<ObjectRow> {
    let ids = different_ids(random, count);
    let times = match times {
        Times::Ends => at_the_ends(random, count),
        Times::Tied => tied(random, count),
        _ => {
            let validities = validities(random, count, times);
            with_load(random, &validities)
        }
    };
    let plain = |(id, (cost, validity)): (&u16, (usize, usize))| ObjectRow::plain(*id, cost as u32, validity as u32);
    let mut rows: Vec<ObjectRow> = ids.iter().zip(times).map(plain).collect();
    give_holds(random, &mut rows);
    rows
}

/// Good holds: in many tables 1 everywhere, in the others few or many, short ones or the longest that the cost allows.
fn give_holds(random: &mut Random, rows: &mut [ObjectRow]) {
    let kind = random.below(10);
    for row in rows {
        let most = *holds(row.cost).end();
        let any = random.words(1, most);
        row.hold = match kind {
            0..=2 => 1,
            3 => random.pick(&[1, 1, 1, 1, any]),
            4 | 5 => random.words(1, 3).min(most),
            6 => random.words(1, most.div_ceil(2)),
            7 => any,
            8 => most,
            _ => random.pick(&[1, most - most / 2, most.max(2) - 1, most]),
        };
    }
}

fn validities(random: &mut Random, count: usize, times: Times) -> Vec<usize> {
    let (from, to) = match times {
        Times::Short => (2, 2 + count * random.pick(&[1, 2, 4, 8, 16])),
        Times::Middle => (2 + 2 * count, 3 * count + random.between(100, 1000)),
        _ => (random.pick(&[2, 1000, 300_000]), random.pick(&[400_000, MILLION])),
    };
    (0..count).map(|_| random.between(from, to)).collect()
}

/// Costs that together make a load somewhere from low to above one. A load is shared out unevenly.
fn with_load(random: &mut Random, validities: &[usize]) -> Vec<(usize, usize)> {
    let most = random.pick(&[40, 70, 100, 130]);
    let load = random.between(5, most);
    let weights: Vec<usize> = validities.iter().map(|_| random.between(1, 100)).collect();
    let all: usize = weights.iter().sum();
    let costs = validities
        .iter()
        .zip(weights)
        .map(|(validity, weight)| (validity * load * weight / (100 * all)).clamp(1, MILLION));
    costs.zip(validities.iter().copied()).collect()
}

fn tied(random: &mut Random, count: usize) -> Vec<(usize, usize)> {
    let spread = random.pick(&[4, 8, 20]);
    let most_cost = random.pick(&[1, 2, 3]);
    let kinds: Vec<(usize, usize)> = (0..random.between(1, 4))
        .map(|_| {
            let cost = random.between(1, most_cost);
            (cost, random.between(2 + count, 2 + spread * count * most_cost))
        })
        .collect();
    let same_validity = random.one_in(3);
    (0..count)
        .map(|_| {
            let (cost, validity) = random.pick(&kinds);
            (cost, if same_validity { kinds[0].1 } else { validity })
        })
        .collect()
}

const COSTS_AT_THE_ENDS: [usize; 9] = [1, 2, 65_535, 65_536, 65_537, 500_000, 500_001, MILLION - 1, MILLION];

fn at_the_ends(random: &mut Random, count: usize) -> Vec<(usize, usize)> {
    (0..count)
        .map(|_| {
            let cost = random.pick(&COSTS_AT_THE_ENDS);
            (cost, random.pick(&[2, 3, MILLION - 1, MILLION]))
        })
        .collect()
}

/// Spoils good rows by one to three faults, some of them at the same place.
pub fn spoil_rows(random: &mut Random, rows: &mut [ObjectRow]) {
    let mut at = place(random, rows.len());
    for _ in 0..random.between(1, 3) {
        match random.below(4) {
            0 => rows[at].cost = bad_cost(random),
            1 => rows[at].validity = bad_validity(random),
            2 => rows[at].hold = bad_hold(random, &rows[at]),
            _ => rows[at].id = rows[place(random, rows.len())].id,
        }
        if random.one_in(2) {
            at = place(random, rows.len());
        }
    }
}

/// Raises the cost of one to three rows, often of the slowest, by one or by much. They stay good rows, but some may be
/// left without a deadline.
pub fn overload_rows(random: &mut Random, rows: &mut [ObjectRow]) {
    for _ in 0..random.between(1, 3) {
        let slowest = rows.iter().enumerate().max_by_key(|(_, row)| row.validity);
        let slowest = slowest.map_or(0, |(at, _)| at);
        let any = random.below(rows.len());
        let row = &mut rows[random.pick(&[slowest, any])];
        let more = random.pick(&[row.cost + 1, row.validity / 2 + 1, row.validity]);
        row.cost = row.cost.max(more).min(MILLION as u32);
    }
}

pub fn bad_cost(random: &mut Random) -> u32 {
    let any = random.words(1_000_001, u32::MAX);
    random.pick(&[0, 1_000_001, u32::MAX, any])
}

pub fn bad_validity(random: &mut Random) -> u32 {
    let any = random.words(1_000_001, u32::MAX);
    random.pick(&[0, 1, 1_000_001, u32::MAX, any])
}

/// A hold that this row must not have. Some of them are its good hold to those who keep only 16 bits of it.
pub fn bad_hold(random: &mut Random, row: &ObjectRow) -> u32 {
    let most = row.cost.min(MOST_HOLD);
    let any = random.words(most + 1, u32::MAX);
    random.pick(&[
        0,
        0,
        most + 1,
        most + 1,
        MOST_HOLD + 1,
        MOST_HOLD + row.hold.clamp(1, MOST_HOLD),
        u32::MAX,
        any,
    ])
}

/// A count that no table has. Some of them are a good count to those who keep only 32 or 16 bits of it.
pub fn bad_count(random: &mut Random, good: usize) -> usize {
    let any = random.between(65, usize::MAX - 1);
    random.pick(&[0, 65, 66, 65_535, good + (1 << 16), good + (1 << 32), usize::MAX, any])
}

/// Any row at all, for places that must not be read.
pub fn garbage_row(random: &mut Random) -> ObjectRow {
    ObjectRow {
        id: random.pick(&[0, 1, 2, 255]),
        cost: random.pick(&[0, 1, u32::MAX]),
        validity: random.pick(&[0, 2, 10, u32::MAX]),
        hold: random.pick(&[0, 1, 2, MOST_HOLD, u32::MAX]),
    }
}

/// A table as it is handed in: a count, mostly that of its rows, and 64 rows, good or spoiled, with zero or anything
/// beyond the count.
pub fn handed_in(random: &mut Random) -> (usize, Vec<ObjectRow>) {
    let count = object_count(random);
    let times = random.pick(&[Times::Short, Times::Middle, Times::Long, Times::Tied, Times::Ends]);
    let mut rows = object_rows(random, count, times);
    let mut told_count = count;
    match random.below(16) {
        0..=2 => spoil_rows(random, &mut rows),
        3 => told_count = bad_count(random, count),
        4 => {
            told_count = bad_count(random, count);
            spoil_rows(random, &mut rows);
        }
        _ => {}
    }
    let garbage = random.one_in(2);
    rows.resize_with(MOST_OBJECTS, || match garbage {
        true => garbage_row(random),
        false => ObjectRow::default(),
    });
    (told_count, rows)
}

/// Rows that can be planned, with their plan.
pub fn planned_rows(random: &mut Random, count: usize) -> (Vec<ObjectRow>, Vec<PlanRow>) {
    loop {
        let times = random.pick(&[Times::Short, Times::Short, Times::Middle, Times::Tied]);
        let mut rows = object_rows(random, count, times);
        if random.one_in(2) {
            lengthen_holds(random, &mut rows);
        }
        if let Ok(planned) = plan(count, &rows) {
            return (rows, planned);
        }
    }
}

/// Gives some rows the longest hold with which they can still be planned, or some hold up to that.
fn lengthen_holds(random: &mut Random, rows: &mut [ObjectRow]) {
    for _ in 0..random.between(1, 4) {
        let at = random.below(rows.len());
        let (mut good, mut bad) = (1, rows[at].cost.min(MOST_HOLD) + 1);
        while bad - good > 1 {
            let middle = good + (bad - good) / 2;
            rows[at].hold = middle;
            match plan(rows.len(), rows) {
                Ok(_) => good = middle,
                Err(_) => bad = middle,
            }
        }
        let any = random.words(1, good);
        rows[at].hold = random.pick(&[good, good, any]);
    }
}

/// One first release per object, each below its period.
pub fn first_releases(random: &mut Random, planned: &[PlanRow]) -> Vec<u32> {
    let kind = random.below(4);
    let first = |row: &PlanRow| match kind {
        0 => 0,
        1 => row.period - 1,
        _ => random.words(0, row.period - 1),
    };
    planned.iter().map(first).collect()
}

/// So many numbers to be stored as first releases: often 0 everywhere, or 0 but for one of them, or any.
pub fn first_words(random: &mut Random, count: usize) -> Vec<u32> {
    let mut firsts = vec![0; count];
    match random.below(8) {
        0..=2 => {}
        3 | 4 => {
            for _ in 0..random.between(1, 2) {
                firsts[place(random, count)] = first_word(random);
            }
        }
        5 => firsts.fill_with(|| first_word(random)),
        6 => firsts.fill_with(|| random.words(0, 3)),
        _ => firsts.fill_with(|| random.word()),
    }
    firsts
}

/// A number other than 0, often in one of its four bytes alone.
fn first_word(random: &mut Random) -> u32 {
    let any = random.word().max(1);
    random.pick(&[1, 1 << 8, 1 << 16, 1 << 24, 1 << 31, u32::MAX, any])
}

/// A clock value, often a few thousand below the turn of the clock.
pub fn clock(random: &mut Random) -> u32 {
    match random.below(8) {
        0 => 0,
        1 => u32::MAX,
        2 => random.word(),
        3 => (1 << 31) - random.words(0, 1000),
        4 | 5 => u32::MAX - random.words(0, 100),
        _ => u32::MAX - random.words(0, 4000),
    }
}

/// So many slots as bytes: 0, the core is ours; anything else, it is stolen.
pub fn stolen_slots(random: &mut Random, slots: usize) -> Vec<u8> {
    let mut bytes = vec![0; slots];
    match random.below(6) {
        0 => {}
        1 => steal(random, &mut bytes, 1, 50),
        2 => steal(random, &mut bytes, 1, 3),
        3 => steal(random, &mut bytes, 9, 10),
        _ => steal_bursts(random, &mut bytes),
    }
    bytes
}

fn stolen_byte(random: &mut Random) -> u8 {
    let any = random.byte().max(1);
    random.pick(&[1, 2, 128, 255, any])
}

/// Steals a slot so many out of so many times.
fn steal(random: &mut Random, bytes: &mut [u8], times: usize, of: usize) {
    for byte in bytes {
        if random.below(of) < times {
            *byte = stolen_byte(random);
        }
    }
}

/// Steals all slots for a while, and none for a while.
fn steal_bursts(random: &mut Random, bytes: &mut [u8]) {
    let longest = random.pick(&[4, 20, 100, 400]);
    let mut at = random.between(0, longest);
    while at < bytes.len() {
        let until = (at + random.between(1, longest)).min(bytes.len());
        for byte in &mut bytes[at..until] {
            *byte = stolen_byte(random);
        }
        at = until + random.between(1, longest);
    }
}

/// Any acceptable run state, also one that no start leads to.
pub fn run_state(random: &mut Random, count: usize) -> RunState {
    let mut state = RunState {
        clock: clock(random),
        count,
        ..RunState::default()
    };
    let ids = different_ids(random, count);
    for (row, id) in state.rows.iter_mut().zip(ids) {
        *row = state_row(random, state.clock, id);
    }
    leave_one_hold(random, &mut state.rows[..count]);
    state
}

/// Sees to it that at most one of these has a job in its hold: of those that have, any keeps it, or none.
fn leave_one_hold(random: &mut Random, rows: &mut [StateRow]) {
    let mut in_hold: Vec<&mut StateRow> = rows.iter_mut().filter(|row| is_in_hold(row)).collect();
    random.shuffle(&mut in_hold);
    let kept = usize::from(!random.one_in(4));
    for row in in_hold.into_iter().skip(kept) {
        let planned = &mut row.planned;
        match random.below(3) {
            0 => planned.hold = 1,
            // Not begun.
            1 => row.left = planned.cost,
            // Over just now, if that leaves work to do.
            _ => planned.hold = planned.cost - row.left,
        }
    }
}

/// Whether the job of a good row has done its first unit and not yet all of its hold.
fn is_in_hold(row: &StateRow) -> bool {
    row.left > 0 && (1..row.planned.hold).contains(&(row.planned.cost - row.left))
}

fn state_row(random: &mut Random, clock: u32, id: u16) -> StateRow {
    let planned = state_plan_row(random, id);
    let next = clock.wrapping_add(low_or_any(random, planned.period - 1));
    let mut row = StateRow {
        planned,
        next,
        stored: match random.below(3) {
            0 => Stored::None,
            1 => Stored::Held(young(random, clock, planned.validity)),
            _ => Stored::Lapsed,
        },
        skips: match random.below(4) {
            0 => 0,
            1 => random.words(0, 100),
            2 => u32::MAX - random.words(0, 3),
            _ => random.word(),
        },
        ..StateRow::default()
    };
    if !random.one_in(3) {
        row.left = work_left(random, &planned);
        row.lapsed = random.one_in(2);
        // A lapsed sample may be any, and it may look young to those who forget that it has lapsed.
        row.sample = match row.lapsed && random.one_in(2) {
            true => random.word(),
            false => young(random, clock, planned.validity),
        };
    }
    row
}

fn state_plan_row(random: &mut Random, id: u16) -> PlanRow {
    let half = random.pick(&[1, 3, 10, 60, 500_000]);
    let deadline = random.words(1, half);
    let period = random.words(deadline, 2 * half - deadline);
    let costs = random.pick(&[1, 3, deadline, deadline]).min(deadline);
    let cost = random.words(1, costs);
    let most = *holds(cost).end();
    let any = random.words(1, most);
    PlanRow {
        id,
        cost,
        validity: deadline + period,
        hold: random.pick(&[1, any, any.min(3), most]),
        deadline,
        period,
    }
}

/// The work left of a job of this object: any, or about as much as when its hold begins or ends.
fn work_left(random: &mut Random, planned: &PlanRow) -> u32 {
    let any = random.words(1, planned.cost);
    let begun = planned.cost - 1;
    let over = planned.cost - planned.hold;
    random.pick(&[any, any, planned.cost, begun, over, over + 1]).max(1)
}

/// A sample instant with an age below the validity, often the smallest or the largest such.
pub fn young(random: &mut Random, clock: u32, validity: u32) -> u32 {
    let any = random.words(0, validity - 1);
    clock.wrapping_sub(random.pick(&[0, 1, validity - 1, any]))
}

/// A number up to the most, often a low one, so that something comes of it soon.
fn low_or_any(random: &mut Random, most: u32) -> u32 {
    let any = random.words(0, most);
    random.pick(&[0, any.min(5), most, any])
}
