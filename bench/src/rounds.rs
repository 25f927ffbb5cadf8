//! The part "rounds": how many rounds the search for the deadlines of a table takes, begun at the object's own cost or
//! at the costs of the object and all ahead of it, and how long the library takes to plan the table.

use std::hint::black_box;

use crate::ffi::{self, Plan, PlanRow, Table};
use crate::inputs::{self, Random, COSTS_000, LONG, VALIDITIES_000};
use crate::measure::{time, Alone, ROUNDS};
use crate::plan::needed;
use crate::same_plan;

/// Random tables of each kind.
const TABLES: usize = 20;

/// Objects of the hard tables, and of the tables of document 000's experiment.
const HARD: usize = 60;
const OF_000: [usize; 7] = [10, 20, 30, 40, 50, 60, 64];

pub fn rounds() {
    let mut random = Random(1);
    print_head();
    count_and_time(HARD, "hard", || inputs::full(HARD, LONG, &mut random));
    for count in OF_000 {
        count_and_time(count, "document 000", || {
            inputs::even(count, COSTS_000, VALIDITIES_000, &mut random)
        });
    }
    print_notes();
}

/// Prints the line for the random tables of a kind.
fn count_and_time(objects: usize, kind: &str, table: impl FnMut() -> Table) {
    let mut tables = Vec::new();
    tables.resize_with(TABLES, table);
    let plans: Vec<Plan> = tables.iter().map(accepted).collect();
    let load = mean(plans.iter().map(inputs::load));
    let own = mean(plans.iter().map(|plan| rounds_of_plan(plan, own_cost)));
    let all = mean(plans.iter().map(|plan| rounds_of_plan(plan, all_costs)));
    let Alone { median, least, most } = time_planner(&tables);
    println!(
        "{objects:>7} | {kind:<12} | {load:>4.2} | {own:>20.1} | {all:>21.1} | {median:>13.0} | {least:.0}..{most:.0}"
    );
}

fn accepted(table: &Table) -> Plan {
    same_plan(table).expect("an accepted table")
}

fn time_planner(tables: &[Table]) -> Alone {
    let mut library = || {
        for table in tables {
            black_box(&ffi::plan_table(black_box(table)));
        }
    };
    time(tables.len(), &mut library)
}

/// Where the search begins, for what an object needs of its own and those ahead of it. The tables have no holds, so
/// that is its cost.
type Start = fn(u32, &[PlanRow]) -> u32;

fn own_cost(own: u32, _ahead: &[PlanRow]) -> u32 {
    own
}

fn all_costs(own: u32, ahead: &[PlanRow]) -> u32 {
    own + ahead.iter().map(|row| row.cost).sum::<u32>()
}

/// The rounds of all objects of a plan.
fn rounds_of_plan(plan: &Plan, start: Start) -> f64 {
    let rows = &plan.rows[..plan.count];
    let searches = (0..plan.count).map(|place| rounds_of_search(&rows[place], &rows[..place], start));
    f64::from(searches.sum::<u32>())
}

/// The rounds until t balances. Stops the program if that t is not the planned deadline.
fn rounds_of_search(object: &PlanRow, ahead: &[PlanRow], start: Start) -> u32 {
    let mut t = start(object.cost, ahead);
    let mut rounds = 1;
    loop {
        let next = needed(object.cost, ahead, t);
        if next == t {
            break;
        }
        t = next;
        rounds += 1;
    }
    assert!(t == object.deadline, "the deadlines differ");
    rounds
}

fn mean(values: impl ExactSizeIterator<Item = f64>) -> f64 {
    let count = values.len() as f64;
    values.sum::<f64>() / count
}

fn print_head() {
    println!("objects | tables       | load | rounds from own cost | rounds from all costs | Channelfox ns | spread");
    println!("{}", "-".repeat(107));
}

fn print_notes() {
    println!(
        "rounds:  means of {TABLES} random tables. A round is one sum over the objects ahead; the rounds of a table"
    );
    println!("         are those of all its objects, counted in Rust from both starts. The time is that of");
    println!(
        "         channelfox_plan_table for one table: the median of {ROUNDS} timings of all {TABLES}, and the spread"
    );
    println!("         the least and the most of these.");
    println!("hard:    validities of 1,000 to 1,000,000, costs as large as the planner accepts.");
    println!("document 000: costs of 5 to 15, validities of 4,000 to 8,000, as in its experiment.");
}
