//! The part "figure 6": document 000's figure 6 with the library's two planners, More-Less and Half-Half. It times
//! nothing: it tells the loads of the two plans and how often each is refused.

use std::ops::RangeInclusive;

use crate::ffi::{self, Plan, PlanAnswer, Table};
use crate::inputs::{self, Random, COSTS_000, VALIDITIES_000};

/// Random tables for each number of objects.
const TABLES: usize = 1_000;

/// Numbers of objects; with the larger costs more of them, where the two plans part.
const OBJECTS: [usize; 7] = [10, 20, 30, 40, 50, 60, 64];
const OBJECTS_AT_LARGER_COSTS: [usize; 11] = [10, 20, 30, 32, 34, 36, 38, 40, 50, 60, 64];

/// The costs with which 64 objects bring as much work as the 375 that document 000 goes up to: 375 / 64 times 5 to 15.
const LARGER_COSTS: RangeInclusive<u32> = 29..=88;

pub fn figure6() {
    setting("costs of 5 to 15, as in document 000", COSTS_000, &OBJECTS);
    setting("costs of 29 to 88", LARGER_COSTS, &OBJECTS_AT_LARGER_COSTS);
    print_notes();
}

/// Prints the table of a setting.
fn setting(title: &str, costs: RangeInclusive<u32>, numbers: &[usize]) {
    let mut random = Random(1);
    print_head(title);
    for &objects in numbers {
        let mut seen = Seen::default();
        for _ in 0..TABLES {
            seen.add(&inputs::even(objects, costs.clone(), VALIDITIES_000, &mut random));
        }
        seen.print(objects);
    }
    println!();
}

/// What was seen of the tables with one number of objects: the loads of those that both plan, the load under More-Less
/// of those that only it plans, and how many are refused.
#[derive(Default)]
struct Seen {
    one_one: Vec<f64>,
    half_half: Vec<f64>,
    more_less: Vec<f64>,
    more_less_alone: Vec<f64>,
    refused_by_both: usize,
}

impl Seen {
    /// Plans a table both ways. Stops the program if only Half-Half plans it, which request 5 rules out.
    fn add(&mut self, table: &Table) {
        let more_less = planned(ffi::plan_table(table));
        let half_half = planned(ffi::plan_classic(table));
        match (more_less, half_half) {
            (Some(more_less), Some(half_half)) => {
                self.one_one.push(one_one(table));
                self.half_half.push(inputs::load(&half_half));
                self.more_less.push(inputs::load(&more_less));
            }
            (Some(more_less), None) => self.more_less_alone.push(inputs::load(&more_less)),
            (None, None) => self.refused_by_both += 1,
            (None, Some(_)) => panic!("planned by Half-Half and not by More-Less"),
        }
    }

    fn print(&self, objects: usize) {
        println!(
            "{objects:>7} | {:>7} | {:>9} | {:>9} | {:>20} | {:>20} | {:>15}",
            mean(&self.one_one),
            mean(&self.half_half),
            mean(&self.more_less),
            self.more_less_alone.len() + self.refused_by_both,
            self.refused_by_both,
            mean(&self.more_less_alone),
        );
    }
}

/// The plan, or nothing where it gets refusal 10. Stops the program at any other refusal.
fn planned(answer: PlanAnswer) -> Option<Plan> {
    match answer.verdict.number {
        0 => Some(answer.plan),
        10 => None,
        other => panic!("refusal {other}"),
    }
}

/// The load if each object had its validity for a period: document 000's baseline, which keeps no value fresh.
fn one_one(table: &Table) -> f64 {
    let rows = &table.rows[..table.count];
    rows.iter()
        .map(|row| f64::from(row.cost) / f64::from(row.validity))
        .sum()
}

fn mean(loads: &[f64]) -> String {
    match loads.len() {
        0 => "-".to_string(),
        count => format!("{:.3}", loads.iter().sum::<f64>() / count as f64),
    }
}

fn print_head(title: &str) {
    println!("{title}");
    println!(
        "objects | One-One | Half-Half | More-Less | refused by Half-Half | refused by More-Less | More-Less alone"
    );
    println!("{}", "-".repeat(107));
}

fn print_notes() {
    println!(
        "figure 6: {TABLES} random tables a line, validities of 4,000 to 8,000. The loads, sums of cost / period, are"
    );
    println!(
        "         means over the tables that both plan; One-One is cost / validity, a baseline. More-Less alone is"
    );
    println!("         the mean over the tables that only More-Less plans.");
}
