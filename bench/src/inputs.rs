//! The inputs: tables of one sort or another, runs under way, and the flags that say which slots are stolen.

use std::ops::RangeInclusive;

use crate::ffi::{ObjectRow, Plan, Table, ROWS};
use crate::plan::plan;
use crate::run::{advance_in_one_pass, start, Run};

/// Slots done before a run is timed: at the longest period every object has been released by then.
const WARM_UP: usize = 1_000_000;

/// Slots from the end of the warm-up until the clock goes from 4,294,967,295 to 0.
const UNTIL_WRAP: u32 = 500;

/// Random numbers, the same in every run of the program (splitmix64).
pub struct Random(pub u64);

impl Random {
    fn next(&mut self) -> u64 {
        self.0 = self.0.wrapping_add(0x9E37_79B9_7F4A_7C15);
        let mut mixed = self.0;
        mixed = (mixed ^ (mixed >> 30)).wrapping_mul(0xBF58_476D_1CE4_E5B9);
        mixed = (mixed ^ (mixed >> 27)).wrapping_mul(0x94D0_49BB_1331_11EB);
        mixed ^ (mixed >> 31)
    }

    fn below(&mut self, bound: u32) -> u32 {
        (self.next() % u64::from(bound)) as u32
    }

    /// A number of the span.
    fn within(&mut self, span: &RangeInclusive<u32>) -> u32 {
        span.start() + self.below(span.end() - span.start() + 1)
    }

    /// From 0 up to, and without, 1.
    fn part(&mut self) -> f64 {
        (self.next() >> 11) as f64 / (1u64 << 53) as f64
    }
}

/// Validities of tens to hundreds of slots.
pub const SHORT: RangeInclusive<u32> = 40..=999;
/// Validities up to the largest.
pub const LONG: RangeInclusive<u32> = 1_000..=1_000_000;
/// Validities in the longest stretch only.
pub const LONGEST: RangeInclusive<u32> = 500_000..=1_000_000;

/// The costs and validities of document 000's experiment.
pub const COSTS_000: RangeInclusive<u32> = 5..=15;
pub const VALIDITIES_000: RangeInclusive<u32> = 4_000..=8_000;

/// A table with a load of about an eighth.
pub fn light(count: usize, span: RangeInclusive<u32>, random: &mut Random) -> Table {
    let mut table = with_validities(count, span, random);
    set_costs(&mut table, |row| row.validity / (8 * count as u32));
    table
}

/// A table with a cost of a few slots each, however long the validities.
pub fn idle(count: usize, span: RangeInclusive<u32>, random: &mut Random) -> Table {
    let mut table = with_validities(count, span, random);
    set_costs(&mut table, |_| 1 + random.below(10));
    table
}

/// A table with a load near one: costs as large as the planner accepts, and the last object takes what is left.
pub fn full(count: usize, span: RangeInclusive<u32>, random: &mut Random) -> Table {
    let table = with_validities(count, span, random);
    filled(table, &[0.0; ROWS], random)
}

/// The same with holds of up to half the cost.
pub fn full_with_holds(count: usize, span: RangeInclusive<u32>, random: &mut Random) -> Table {
    let table = with_validities(count, span, random);
    let parts = [0.0; ROWS].map(|_| random.part());
    filled(table, &parts, random)
}

/// Costs as large as the planner accepts, and each hold so large a part of half the cost.
fn filled(mut table: Table, parts: &[f64; ROWS], random: &mut Random) -> Table {
    let count = table.count;
    let shares: Vec<f64> = (0..count).map(|_| 0.5 + random.part()).collect();
    for step in (1..=256).rev() {
        let mut share = shares.iter();
        set_costs(&mut table, |row| {
            let all = f64::from(row.validity) * f64::from(step) / 256.0;
            (all * share.next().expect("a share for each object") / count as f64) as u32
        });
        set_holds(&mut table, parts);
        if plan(&table).is_ok() {
            break;
        }
    }
    fill_last(&mut table);
    table
}

/// A full table with one slot more for its last object: refusal 10, found at the last object.
pub fn refused(full: &Table) -> Table {
    let mut table = *full;
    table.rows[last(full)].cost += 1;
    table
}

/// Costs and validities each spread evenly over a span, as in the experiment of document 000.
pub fn even(count: usize, costs: RangeInclusive<u32>, validities: RangeInclusive<u32>, random: &mut Random) -> Table {
    let mut table = with_ids(count, random);
    for row in &mut table.rows[..count] {
        row.cost = random.within(&costs);
        row.validity = random.within(&validities);
    }
    table
}

/// Jobs of one to three slots, and validities as short as the planner accepts.
pub fn short_jobs(count: usize, random: &mut Random) -> Table {
    let mut table = with_validities(count, 20..=100, random);
    set_costs(&mut table, |_| 1 + random.below(3));
    tightened(&table)
}

/// Jobs of four to twelve slots with holds of up to half of that, and validities as short as the planner accepts.
pub fn held_jobs(count: usize, random: &mut Random) -> Table {
    let mut table = with_validities(count, 20..=100, random);
    set_costs(&mut table, |_| random.within(&(4..=12)));
    set_holds(&mut table, &[0.0; ROWS].map(|_| random.part()));
    tightened(&table)
}

/// The table with its validities scaled down, or up, as far as the planner accepts.
fn tightened(weighted: &Table) -> Table {
    for scale in 1.. {
        let mut table = *weighted;
        for row in &mut table.rows[..weighted.count] {
            row.validity = (row.validity * scale / 100).max(2);
        }
        if plan(&table).is_ok() {
            return table;
        }
    }
    unreachable!("long validities are accepted")
}

/// Objects with different ids in no order, and validities spread evenly over the orders of magnitude of the span.
/// One object, anywhere, has the longest validity alone.
fn with_validities(count: usize, span: RangeInclusive<u32>, random: &mut Random) -> Table {
    let (least, most) = (f64::from(*span.start()), f64::from(*span.end()));
    let mut table = with_ids(count, random);
    for row in &mut table.rows[..count] {
        row.validity = (least * (most / least).powf(random.part())) as u32;
        row.validity = row.validity.min(span.end() - 1);
    }
    table.rows[random.below(count as u32) as usize].validity = *span.end();
    table
}

/// Rows with different ids in no order, holds of 1, and nothing else yet.
fn with_ids(count: usize, random: &mut Random) -> Table {
    let mut table = Table {
        count,
        rows: [ObjectRow::default(); ROWS],
    };
    let first_id = random.below(65_536) as u16;
    for (place, row) in table.rows[..count].iter_mut().enumerate() {
        row.id = first_id.wrapping_add(40_503u16.wrapping_mul(place as u16));
        row.hold = 1;
    }
    table
}

fn set_costs(table: &mut Table, mut cost: impl FnMut(&ObjectRow) -> u32) {
    for row in &mut table.rows[..table.count] {
        row.cost = cost(row).max(1);
    }
}

/// Holds from 1 to half the cost: each so large a part of that.
fn set_holds(table: &mut Table, parts: &[f64; ROWS]) {
    for (row, part) in table.rows[..table.count].iter_mut().zip(parts) {
        row.hold = 1 + (f64::from(row.cost / 2) * part) as u32;
    }
}

/// Gives the object that is last in priority order the largest cost with which it still has a deadline.
fn fill_last(table: &mut Table) {
    let place = last(table);
    let (mut good, mut bad) = (table.rows[place].cost, table.rows[place].validity);
    while bad - good > 1 {
        let middle = good + (bad - good) / 2;
        table.rows[place].cost = middle;
        match plan(table) {
            Ok(_) => good = middle,
            Err(_) => bad = middle,
        }
    }
    table.rows[place].cost = good;
}

/// The record of the object with the longest validity.
fn last(table: &Table) -> usize {
    let places = 0..table.count;
    places
        .max_by_key(|&place| table.rows[place].validity)
        .expect("a table has objects")
}

/// The sum over the objects of cost divided by period.
pub fn load(plan: &Plan) -> f64 {
    let rows = &plan.rows[..plan.count];
    rows.iter().map(|row| f64::from(row.cost) / f64::from(row.period)).sum()
}

/// A run of the table that has been under way for a while, with random first releases. Its clock is soon to wrap.
pub fn under_way(table: &Table, percent_stolen: u32, random: &mut Random) -> Run {
    let plan = plan(table).expect("an accepted table");
    let clock = 0u32.wrapping_sub(WARM_UP as u32 + UNTIL_WRAP);
    let mut run = start(&plan, clock, |row| random.below(row.period));
    let flags = stolen(WARM_UP, percent_stolen, random);
    advance_in_one_pass(&mut run, &flags).expect("a run state");
    run
}

/// A clock that wraps in a few slots.
pub fn soon_to_wrap() -> u32 {
    0u32.wrapping_sub(UNTIL_WRAP)
}

/// A first release for each object, in priority order.
pub fn firsts(table: &Table, random: &mut Random) -> Vec<u32> {
    let plan = plan(table).expect("an accepted table");
    let rows = &plan.rows[..plan.count];
    rows.iter().map(|row| random.below(row.period)).collect()
}

/// A flag for each slot: 1, it is stolen.
pub fn stolen(slots: usize, percent: u32, random: &mut Random) -> Vec<u8> {
    (0..slots).map(|_| u8::from(random.below(100) < percent)).collect()
}
