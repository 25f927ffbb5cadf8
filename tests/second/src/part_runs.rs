//! Part 4: starts, and runs compared after every slot.

use paper::running::{Object, Run, Value};
use paper::states::{shown, taken_up};
use paper::tables::{ObjectRow, Refusal, MOST_OBJECTS};

use crate::generate::{
    bad_count, clock, first_releases, garbage_row, object_count, object_rows, overload_rows, planned_rows, run_state,
    spoil_rows, stolen_slots, Times,
};
use crate::random::Random;
use crate::tally::{agree, class, for_cases, hex, Tally, PLACES};
use crate::{cform, ffi};

const STARTS: u64 = 30_000;
const RUNS: u64 = 2_200;
const RUNS_TAKEN_UP: u64 = 4_000;

/// How a run is taken on by the library.
#[derive(Clone, Copy, PartialEq, Eq, Debug)]
enum Stepping {
    /// In place, slot by slot, and compared after each of them.
    Slot,
    /// In chunks, and compared after each of them.
    Advance,
    /// Both, and held together after each chunk.
    Both,
}

pub fn starts_and_runs(seed: u64) -> Result<(), String> {
    let mut tally = Tally::new();
    tally.expect("starts", 10_000);
    tally.expect("starts accepted", 1000);
    for number in [4, 6, 7, 8, 9] {
        tally.expect(format!("starts with refusal {number}"), 100);
    }
    for class in PLACES {
        tally.expect(format!("starts with refusal 10 at {class}"), 5);
    }
    tally.expect("starts with refusal 11", 100);
    for class in ["place 0", "a later place"] {
        tally.expect(format!("starts with refusal 12 at {class}"), 200);
    }
    for_cases(seed, 40, STARTS, |random| start(random, &mut tally))?;

    expect_runs(&mut tally);
    let mut seen = Seen::default();
    for_cases(seed, 41, RUNS, |random| {
        tally.add("runs from a start", 1);
        run_from_a_start(random, &mut seen)
    })?;
    for_cases(seed, 42, RUNS_TAKEN_UP, |random| {
        tally.add("runs from any acceptable state", 1);
        run_from_a_state(random, &mut seen)
    })?;
    seen.tell(&mut tally);
    tally.close()
}

/// A start with a good or bad table, and with good or bad first releases.
fn start(random: &mut Random, tally: &mut Tally) -> Result<(), String> {
    let count = object_count(random);
    let (mut rows, planned) = planned_rows(random, count);
    let mut firsts = first_releases(random, &planned);
    let mut told_count = count;
    match random.below(16) {
        0 => rows = object_rows(random, count, Times::Short),
        1 => overload_rows(random, &mut rows),
        _ => {}
    }
    if random.one_in(8) {
        spoil_rows(random, &mut rows);
    }
    if random.one_in(16) {
        told_count = bad_count(random, count);
    }
    if random.one_in(2) {
        for _ in 0..random.between(1, 3) {
            let at = random.below(count);
            let any = random.words(planned[at].period, u32::MAX);
            firsts[at] = random.pick(&[planned[at].period, planned[at].period + 1, u32::MAX, any]);
        }
    }
    if random.one_in(6) {
        let length = random.pick(&[0, 1, count - 1, count + 1, MOST_OBJECTS, MOST_OBJECTS + 1]);
        firsts.resize(length, random.pick(&[0, u32::MAX]));
    }
    rows.resize_with(MOST_OBJECTS, || garbage_row(random));
    let clock = clock(random);

    let answer = Run::start(told_count, &rows, clock, &firsts).map(|run| shown(&run));
    let mut table = cform::table(&rows);
    table.count = told_count;
    let library = ffi::start(&table, clock, &firsts);
    agree("channelfox_start", &Ok(cform::run_answer(&answer)), &library, || {
        format!("clock {clock}, first releases {firsts:?}, table {table:?}")
    })?;

    tally.add("starts", 1);
    match answer {
        Ok(_) => tally.add("starts accepted", 1),
        Err(Refusal { number: 10, place }) => {
            tally.add(&format!("starts with refusal 10 at {}", class(place, count)), 1);
        }
        Err(Refusal { number: 12, place: 0 }) => tally.add("starts with refusal 12 at place 0", 1),
        Err(Refusal { number: 12, .. }) => tally.add("starts with refusal 12 at a later place", 1),
        Err(refusal) => tally.add(&format!("starts with refusal {}", refusal.number), 1),
    }
    Ok(())
}

/// A run of a planned table, from its start.
fn run_from_a_start(random: &mut Random, seen: &mut Seen) -> Result<(), String> {
    let (count, most_slots) = size(random);
    let (rows, planned) = planned_rows(random, count);
    let firsts = first_releases(random, &planned);
    let clock = clock(random);
    let answer = Run::start(count, &rows, clock, &firsts);
    let library = ffi::start(&cform::table(&rows), clock, &firsts);
    let expected = cform::run_answer(&answer.as_ref().map(shown).map_err(|refusal| *refusal));
    let input = || told_start(&rows, clock, &firsts);
    agree("channelfox_start", &Ok(expected), &library, input)?;

    let run = answer.expect("the rows are planned and the first releases are below the periods");
    let slots = slots(random, most_slots);
    let skips = seen.skips;
    follow(random, run, &expected.run, &slots, seen, &input)?;
    // Demand 3: what is planned keeps its deadlines as long as no slot is stolen, whatever is held.
    if slots.iter().all(|byte| *byte == 0) {
        seen.free_runs += 1;
        agree("releases skipped, and no slot stolen", &skips, &seen.skips, input)?;
    }
    Ok(())
}

fn told_start(rows: &[ObjectRow], clock: u32, firsts: &[u32]) -> String {
    format!("clock {clock}, first releases {firsts:?}, rows {rows:?}")
}

/// A run from a state that no start may lead to: skips near their end, and lapsed samples that look young.
fn run_from_a_state(random: &mut Random, seen: &mut Seen) -> Result<(), String> {
    let (count, most_slots) = size(random);
    let state = run_state(random, count);
    let run = taken_up(&state).expect("the state is acceptable");
    let in_c = cform::run(&state);
    let slots = slots(random, most_slots.min(150));
    follow(random, run, &in_c, &slots, seen, &|| format!("{in_c:?}"))
}

/// A number of objects, mostly few, and the most slots for so many: each slot has as many readings as objects.
fn size(random: &mut Random) -> (usize, usize) {
    match random.below(100) {
        0..=69 => (random.between(1, 4), 5000),
        70..=89 => (random.between(5, 12), 1200),
        90..=96 => (random.between(13, 32), 300),
        97 => (MOST_OBJECTS, 120),
        _ => (random.between(33, MOST_OBJECTS), 120),
    }
}

/// Stolen slots, up to the most of them, and mostly fewer.
fn slots(random: &mut Random, most: usize) -> Vec<u8> {
    let most = random.pick(&[most, most / 2, most / 5, most / 10]);
    let length = random.between(most / 2, most);
    stolen_slots(random, length)
}

/// Takes the run on by these slots, on paper and in the library, and compares all of it and every reading.
fn follow(
    random: &mut Random,
    mut paper: Run,
    from: &ffi::Run,
    slots: &[u8],
    seen: &mut Seen,
    input: &dyn Fn() -> String,
) -> Result<(), String> {
    let stepping = random.pick(&[Stepping::Slot, Stepping::Slot, Stepping::Advance, Stepping::Both]);
    let mut library = *from;
    let mut done = 0;
    while done < slots.len() {
        let chunk = chunk(random, &slots[done..]);
        let before = library;
        for byte in chunk {
            done += 1;
            let worked = paper.slot(*byte != 0);
            seen.work(&paper, worked);
            if stepping != Stepping::Advance {
                let told = || told_slots(input, &slots[..done]);
                let verdict = ffi::slot(&mut library, *byte != 0);
                agree("channelfox_slot", &ffi::Verdict::default(), &verdict, told)?;
                compare(random, &paper, &library, seen, &told)?;
            }
        }
        if stepping != Stepping::Slot {
            let told = || format!("{}, {} of them at once", told_slots(input, &slots[..done]), chunk.len());
            let expected = cform::run_answer(&Ok(shown(&paper)));
            agree("channelfox_advance", &Ok(expected), &ffi::advance(&before, chunk), told)?;
            library = expected.run;
            compare(random, &paper, &library, seen, &told)?;
            seen.chunk(chunk);
        }
    }
    seen.run(from, &paper, slots);
    Ok(())
}

/// The next slots that are taken together: none, one, or more of them.
fn chunk<'a>(random: &mut Random, slots: &'a [u8]) -> &'a [u8] {
    let length = match random.below(8) {
        0 => 0,
        1 => 1,
        2..=4 => random.between(2, 50),
        _ => random.between(51, 500),
    };
    &slots[..length.min(slots.len())]
}

fn told_slots(input: &dyn Fn() -> String, slots: &[u8]) -> String {
    format!("{}\n  after {} slots, stolen {}", input(), slots.len(), hex(slots))
}

/// Compares the whole run, a reading of each object, and one of an id that no object may have.
fn compare(
    random: &mut Random,
    paper: &Run,
    library: &ffi::Run,
    seen: &mut Seen,
    input: &dyn Fn() -> String,
) -> Result<(), String> {
    let expected = cform::run(&shown(paper));
    agree("the run", &expected, library, input)?;
    for object in &paper.objects {
        compare_reading(paper, library, object.planned.id, seen, input)?;
    }
    // 0 is the id that the rows beyond the count show.
    let first = paper.objects[0].planned.id;
    let id = random.pick(&[0, first.wrapping_add(1), first ^ 0x8000]);
    compare_reading(paper, library, id, seen, input)
}

fn compare_reading(
    paper: &Run,
    library: &ffi::Run,
    id: u16,
    seen: &mut Seen,
    input: &dyn Fn() -> String,
) -> Result<(), String> {
    let answer = paper.reading(id);
    seen.reading(&answer);
    let told = || format!("id {id}, {}", input());
    agree(
        "channelfox_read_value",
        &cform::reading(&answer),
        &ffi::read_value(library, id),
        told,
    )
}

/// What the runs have shown.
#[derive(Default)]
struct Seen {
    slots: u64,
    stolen: u64,
    longest: u64,
    most_objects: u64,
    turns: u64,
    skips: u64,
    free_runs: u64,
    in_hold: u64,
    kept_waiting: u64,
    begun_in_hold: u64,
    skips_at_the_end: u64,
    lapsed_but_young: u64,
    none: u64,
    stale: u64,
    fresh: u64,
    unknown: u64,
    chunks_of_0: u64,
    chunks_of_1: u64,
    longer_chunks: u64,
}

const LAPSED_BUT_YOUNG: &str = "samples in hand that had lapsed and look young";
const FREE_RUNS: &str = "runs from a start, no slot stolen and no release skipped";
const IN_HOLD: &str = "slots that left a job in its hold";
const KEPT_WAITING: &str = "slots that a hold had, though an object ahead had work";
const BEGUN_IN_HOLD: &str = "runs from a state with a job in its hold";

fn expect_runs(tally: &mut Tally) {
    tally.expect("runs from a start", 2_000);
    tally.expect("runs from any acceptable state", 2_000);
    tally.expect("slots", 1_000_000);
    tally.expect("slots stolen", 100_000);
    tally.expect("slots in the longest run", 4_500);
    tally.expect("objects in the largest run", 64);
    tally.expect("turns of the clock from 4,294,967,295 to 0", 1_000);
    tally.expect("releases skipped", 10_000);
    tally.expect(FREE_RUNS, 100);
    tally.expect(IN_HOLD, 10_000);
    tally.expect(KEPT_WAITING, 5_000);
    tally.expect(BEGUN_IN_HOLD, 500);
    tally.expect("objects whose skips stopped at 4,294,967,295", 100);
    tally.expect(LAPSED_BUT_YOUNG, 1_000);
    tally.expect("readings of none", 10_000);
    tally.expect("readings of stale", 10_000);
    tally.expect("readings of fresh", 10_000);
    tally.expect("readings with refusal 14", 10_000);
    tally.expect("chunks of no slot", 100);
    tally.expect("chunks of one slot", 100);
    tally.expect("chunks of more slots", 100);
}

impl Seen {
    fn reading(&mut self, answer: &Result<Value, Refusal>) {
        match answer {
            Ok(Value::None) => self.none += 1,
            Ok(Value::Stale) => self.stale += 1,
            Ok(Value::Fresh { .. }) => self.fresh += 1,
            Err(_) => self.unknown += 1,
        }
    }

    fn chunk(&mut self, chunk: &[u8]) {
        match chunk.len() {
            0 => self.chunks_of_0 += 1,
            1 => self.chunks_of_1 += 1,
            _ => self.longer_chunks += 1,
        }
    }

    /// What a slot says of holds: the place that worked in it, if one did, and the run after it. Whoever is ahead of
    /// that place and has work now had it before.
    fn work(&mut self, after: &Run, worked: Option<usize>) {
        let in_hold = after.objects.iter().any(Object::is_in_hold);
        self.in_hold += u64::from(in_hold);
        let ahead = &after.objects[..worked.unwrap_or(0)];
        self.kept_waiting += u64::from(ahead.iter().any(|object| object.job.is_some()));
    }

    fn run(&mut self, from: &ffi::Run, paper: &Run, slots: &[u8]) {
        let length = slots.len() as u64;
        self.slots += length;
        self.stolen += slots.iter().filter(|byte| **byte != 0).count() as u64;
        self.longest = self.longest.max(length);
        self.most_objects = self.most_objects.max(paper.objects.len() as u64);
        self.turns += (u64::from(from.clock) + length) >> 32;
        let begun = taken_up(&cform::state(from)).expect("the state is acceptable");
        self.begun_in_hold += u64::from(begun.objects.iter().any(Object::is_in_hold));
        for (row, object) in from.rows.iter().zip(&paper.objects) {
            let before = u64::from(row.skips);
            self.skips += object.skips - before;
            let most = u64::from(u32::MAX);
            self.skips_at_the_end += u64::from(before <= most && object.skips > most);
            let looks_young = from.clock.wrapping_sub(row.sample) < row.planned.validity;
            self.lapsed_but_young += u64::from(row.left > 0 && row.lapsed == 1 && looks_young);
        }
    }

    fn tell(&self, tally: &mut Tally) {
        tally.add("slots", self.slots);
        tally.add("slots stolen", self.stolen);
        tally.add("slots in the longest run", self.longest);
        tally.add("objects in the largest run", self.most_objects);
        tally.add("turns of the clock from 4,294,967,295 to 0", self.turns);
        tally.add("releases skipped", self.skips);
        tally.add(FREE_RUNS, self.free_runs);
        tally.add(IN_HOLD, self.in_hold);
        tally.add(KEPT_WAITING, self.kept_waiting);
        tally.add(BEGUN_IN_HOLD, self.begun_in_hold);
        tally.add("objects whose skips stopped at 4,294,967,295", self.skips_at_the_end);
        tally.add(LAPSED_BUT_YOUNG, self.lapsed_but_young);
        tally.add("readings of none", self.none);
        tally.add("readings of stale", self.stale);
        tally.add("readings of fresh", self.fresh);
        tally.add("readings with refusal 14", self.unknown);
        tally.add("chunks of no slot", self.chunks_of_0);
        tally.add("chunks of one slot", self.chunks_of_1);
        tally.add("chunks of more slots", self.longer_chunks);
    }
}
