//! The benchmark: the planner, the checked slot and the advance of libchannelfox.a against the same work in Rust, how
//! many rounds the search for a deadline takes, and the loads of More-Less and Half-Half.

mod ffi;
mod figure6;
// The second program's file, so that the C interface is declared once. Only a part of it is timed.
#[allow(dead_code)]
#[path = "../../tests/second/src/header.rs"]
mod header;
mod inputs;
mod measure;
mod plan;
mod rounds;
mod run;

use std::hint::black_box;

use ffi::{Plan, Table, Verdict};
use inputs::{Random, LONG, LONGEST, SHORT};
use measure::{compare, print_head, print_line, print_rule, Outcome};
use plan::plan;
use run::{advance_in_one_pass, advance_in_three_passes, c_form, checked_slot, seen, start, Run};
use run::{checked_slots_in_one_pass, checked_slots_in_three_passes};

const COUNTS: [usize; 3] = [1, 8, 64];

/// Calls of the planner between two looks at the watch, at least.
const PLANS: usize = 16;
/// Checked slots from one and the same run state.
const SLOTS: usize = 1_000;
/// Slots of one call of advance.
const ADVANCE: usize = 10_000;
/// Checked slots in place of one call, from the start of a run.
const IN_PLACE: usize = 10_000;

/// What a part that compares does for a number of objects.
type Compares = fn(usize, &mut Random);

/// The parts that compare, each with its name and with inputs of its own.
const PARTS: [(&str, Compares); 4] = [
    ("plan", planner),
    ("slot", slots),
    ("in place", in_place),
    ("advance", advances),
];

/// The parts that print a table of their own.
const OWN_TABLES: [(&str, fn()); 2] = [("rounds", rounds::rounds), ("figure 6", figure6::figure6)];

/// All parts, or those whose names are given.
fn main() {
    let asked: Vec<String> = std::env::args().skip(1).collect();
    let wanted = |name: &str| asked.is_empty() || asked.iter().any(|one| one == name);
    if PARTS.iter().any(|(name, _)| wanted(name)) {
        compared(wanted);
    }
    for (name, part) in OWN_TABLES {
        if wanted(name) {
            part();
        }
    }
}

/// The wanted parts that compare the library with Rust, as one table.
fn compared(wanted: impl Fn(&str) -> bool) {
    print_head();
    for (name, part) in PARTS {
        if !wanted(name) {
            continue;
        }
        let mut random = Random(1);
        for count in COUNTS {
            part(count, &mut random);
        }
        print_rule();
    }
    print_notes();
}

fn print_notes() {
    println!("plan:    the C entry takes the table and hands back the plan by value; Rust is lent the table.");
    println!("slot:    on every call the C entry converts the C form of the run to the library's own and back,");
    println!("         64 rows each way, whatever the count. Rust checks and changes its own form in place.");
    println!(
        "in place: running::slot_in_place in a loop within libtiming.a, {IN_PLACE} slots from the start of a run; each"
    );
    println!("         slot is checked on both sides. Rust is the faster of one pass and three passes over the rows.");
    println!(
        "advance: {ADVANCE} slots a call; both sides check once. Rust does plain slots, each over all rows, and is"
    );
    println!("         the faster of one pass and three passes over them (the input says which). The library looks");
    println!("         for releases and lapses only in slots in which one may fall: the answer is the same, the steps");
    println!("         are not, and the ratio tells of both.");
    println!("with holds: each hold from 1 to half the cost. In plan, short validities and costs as large as the");
    println!("         planner accepts; elsewhere jobs of 4 to 12 slots. All other lines have holds of 1.");
}

/// Random numbers for the lines with holds, apart from the others: so those keep the inputs that they always had. There
/// are no such lines for one object, which waits for nobody.
fn for_holds(count: usize) -> Random {
    Random(100 + count as u64)
}

fn planner(count: usize, random: &mut Random) {
    for (name, span) in [("short", SHORT), ("long", LONG)] {
        let light = inputs::light(count, span.clone(), random);
        let full = inputs::full(count, span, random);
        time_plan(&format!("{name} validities"), &light);
        time_plan(&format!("{name} validities"), &full);
        time_plan(&format!("{name} validities"), &inputs::refused(&full));
    }
    if count > 1 {
        let table = inputs::full_with_holds(count, SHORT, &mut for_holds(count));
        time_plan("with holds", &table);
    }
}

fn time_plan(name: &str, table: &Table) {
    let outcome = match same_plan(table) {
        Ok(plan) => format!("load {:.2}", inputs::load(&plan)),
        Err(verdict) => format!("refusal {}", verdict.number),
    };
    let mut rust = || {
        for _ in 0..PLANS {
            black_box(&plan(black_box(table)));
        }
    };
    let mut library = || {
        for _ in 0..PLANS {
            black_box(&ffi::plan_table(black_box(table)));
        }
    };
    let times = compare(PLANS, &mut rust, &mut library);
    print_line("plan", table.count, &format!("{name}, {outcome}"), &times);
}

/// The plan or refusal that both sides give. Stops the program if they differ.
fn same_plan(table: &Table) -> Result<Plan, Verdict> {
    let ours = plan(table).map_err(|refusal| refusal.verdict());
    let theirs = ffi::plan_table(table);
    let expected = match ours {
        Ok(plan) => (Verdict::default(), plan),
        Err(verdict) => (verdict, Plan::default()),
    };
    assert!(expected == (theirs.verdict, theirs.plan), "the plans differ");
    ours
}

fn slots(count: usize, random: &mut Random) {
    let table = inputs::short_jobs(count, random);
    time_slot("short jobs", &table, 0, random);
    time_slot("overload", &table, 30, random);
    if count > 1 {
        let random = &mut for_holds(count);
        time_slot("with holds", &inputs::held_jobs(count, random), 0, random);
    }
}

fn time_slot(name: &str, table: &Table, percent_stolen: u32, random: &mut Random) {
    let run = inputs::under_way(table, percent_stolen, random);
    let flags = inputs::stolen(SLOTS, percent_stolen, random);
    same_slots(&run, &flags);
    same_refusals(&run);
    let c_run = c_form(&run);
    let mut rust = || {
        let mut run = *black_box(&run);
        for &flag in &flags {
            black_box(checked_slot(black_box(&mut run), flag != 0)).expect("a run state");
        }
    };
    let mut library = || {
        let mut run = *black_box(&c_run);
        for &flag in &flags {
            black_box(ffi::slot(black_box(&mut run), flag != 0));
        }
    };
    let times = compare(SLOTS, &mut rust, &mut library);
    print_line("slot", table.count, &run_input(name, table, percent_stolen), &times);
}

/// Stops the program unless both sides are in the same state after each of the slots.
fn same_slots(run: &Run, flags: &[u8]) {
    let (mut ours, mut theirs) = (*run, c_form(run));
    for &flag in flags {
        checked_slot(&mut ours, flag != 0).expect("a run state");
        assert!(ffi::slot(&mut theirs, flag != 0) == Verdict::default(), "refused");
        assert!(c_form(&ours) == theirs, "the runs differ after a slot");
    }
}

/// Stops the program unless both sides give refusal 13 to each damaged form of the run, and leave it alone.
fn same_refusals(run: &Run) {
    let damages: [fn(&mut Run); 8] = [
        |run| run.count = 0,
        |run| run.rows[0].planned.cost = 0,
        |run| run.rows[run.count - 1].planned.deadline += 1,
        |run| run.rows[0].next = run.clock.wrapping_add(run.rows[0].planned.period),
        |run| run.rows[0].left = run.rows[0].planned.cost + 1,
        |run| run.rows[0].stored = run::Stored::Held(run.clock.wrapping_add(1)),
        |run| run.rows[0].planned.hold = 0,
        |run| run.rows[run.count - 1].planned.hold = run.rows[run.count - 1].planned.cost + 1,
    ];
    for damage in damages {
        let mut ours = *run;
        damage(&mut ours);
        let (damaged, mut theirs) = (ours, c_form(&ours));
        let refusal = checked_slot(&mut ours, false).expect_err("a damaged run");
        assert!(
            ffi::slot(&mut theirs, false) == refusal.verdict(),
            "the refusals differ"
        );
        assert!(
            ours == damaged && theirs == c_form(&damaged),
            "a refused run was changed"
        );
    }
}

fn in_place(count: usize, random: &mut Random) {
    let table = inputs::short_jobs(count, random);
    time_in_place("short jobs", &table, 0, random);
    time_in_place("overload", &table, 30, random);
    if count > 1 {
        let random = &mut for_holds(count);
        time_in_place("with holds", &inputs::held_jobs(count, random), 0, random);
    }
}

/// A run from its start through all flags: planning and starting are a part of a thousandth.
fn time_in_place(name: &str, table: &Table, percent_stolen: u32, random: &mut Random) {
    let clock = inputs::soon_to_wrap();
    let firsts = inputs::firsts(table, random);
    let flags = inputs::stolen(IN_PLACE, percent_stolen, random);
    same_in_place(table, clock, &firsts, &flags);
    let mut one_pass = || {
        let mut run = started(black_box(table), clock, &firsts);
        black_box(checked_slots_in_one_pass(&mut run, &flags)).expect("a run state");
        black_box(seen(&run, 0));
    };
    let mut three_passes = || {
        let mut run = started(black_box(table), clock, &firsts);
        black_box(checked_slots_in_three_passes(&mut run, &flags)).expect("a run state");
        black_box(seen(&run, 0));
    };
    let mut library = || {
        black_box(ffi::slots_in_place(black_box(table), clock, &firsts, &flags, 0));
    };
    let one = compare(IN_PLACE, &mut one_pass, &mut library);
    let three = compare(IN_PLACE, &mut three_passes, &mut library);
    let (passes, times) = faster(one, three);
    let input = format!("{}, {passes}", run_input(name, table, percent_stolen));
    print_line("in place", table.count, &input, &times);
}

fn started(table: &Table, clock: u32, firsts: &[u32]) -> Run {
    let plan = plan(table).expect("an accepted table");
    let mut firsts = firsts.iter();
    start(&plan, clock, |_| {
        *firsts.next().expect("a first release for each object")
    })
}

/// Stops the program unless the same is seen of each row after all slots.
fn same_in_place(table: &Table, clock: u32, firsts: &[u32], flags: &[u8]) {
    let mut one = started(table, clock, firsts);
    let mut three = one;
    checked_slots_in_one_pass(&mut one, flags).expect("a run state");
    checked_slots_in_three_passes(&mut three, flags).expect("a run state");
    assert!(one == three, "the runs differ");
    for place in 0..table.count as u8 {
        let theirs = ffi::slots_in_place(table, clock, firsts, flags, place);
        assert!(seen(&one, place) == theirs, "the rows differ");
    }
}

fn advances(count: usize, random: &mut Random) {
    let short = inputs::short_jobs(count, random);
    let long = inputs::full(count, LONG, random);
    let idle = inputs::idle(count, LONGEST, random);
    time_advance("short jobs", &short, 0, random);
    time_advance("long jobs", &long, 0, random);
    time_advance("overload", &short, 30, random);
    time_advance("long periods", &idle, 0, random);
    if count > 1 {
        let random = &mut for_holds(count);
        time_advance("with holds", &inputs::held_jobs(count, random), 0, random);
    }
}

fn time_advance(name: &str, table: &Table, percent_stolen: u32, random: &mut Random) {
    let run = inputs::under_way(table, percent_stolen, random);
    let flags = inputs::stolen(ADVANCE, percent_stolen, random);
    same_advance(&run, &flags);
    let c_run = c_form(&run);
    let mut one_pass = || {
        let mut run = *black_box(&run);
        black_box(advance_in_one_pass(black_box(&mut run), &flags)).expect("a run state");
    };
    let mut three_passes = || {
        let mut run = *black_box(&run);
        black_box(advance_in_three_passes(black_box(&mut run), &flags)).expect("a run state");
    };
    let mut library = || {
        black_box(&ffi::advance(black_box(&c_run), &flags));
    };
    let one = compare(ADVANCE, &mut one_pass, &mut library);
    let three = compare(ADVANCE, &mut three_passes, &mut library);
    let (passes, times) = faster(one, three);
    let input = format!("{}, {passes}", run_input(name, table, percent_stolen));
    print_line("advance", table.count, &input, &times);
}

/// Stops the program unless both sides, and both ways in Rust, end in the same state.
fn same_advance(run: &Run, flags: &[u8]) {
    let (mut one, mut three) = (*run, *run);
    advance_in_one_pass(&mut one, flags).expect("a run state");
    advance_in_three_passes(&mut three, flags).expect("a run state");
    let theirs = ffi::advance(&c_form(run), flags);
    assert!(theirs.verdict == Verdict::default(), "refused");
    assert!(one == three && c_form(&one) == theirs.run, "the runs differ");
}

fn faster(one: Outcome, three: Outcome) -> (&'static str, Outcome) {
    if one.rust <= three.rust {
        ("1 pass", one)
    } else {
        ("3 passes", three)
    }
}

fn run_input(name: &str, table: &Table, percent_stolen: u32) -> String {
    let load = inputs::load(&plan(table).expect("an accepted table"));
    match percent_stolen {
        0 => format!("{name}, load {load:.2}"),
        _ => format!("{name} {load:.2}, {percent_stolen}% stolen"),
    }
}
