//! What channelfox.h declares, as Rust sees it: one place for the second program and for the benchmark.

use std::fmt::{self, Debug, Formatter};
use std::mem::size_of;

/// The rows of a table, a plan and a run: CHANNELFOX_ROWS.
pub const ROWS: usize = 64;

/// How a stored value is told: CHANNELFOX_STORED_NONE, _HELD and _LAPSED.
pub const NONE: u32 = 0;
pub const HELD: u32 = 1;
pub const LAPSED: u32 = 2;

/// How a reading is told: CHANNELFOX_READING_NONE, _STALE and _FRESH; 0 where it is refused.
pub const NEVER: u32 = 3;
pub const STALE: u32 = 4;
pub const FRESH: u32 = 5;

/// How a stored form is told: CHANNELFOX_FORM_NONE, _ONE and _TWO.
pub const FORM_NONE: u32 = 0;
pub const FORM_ONE: u32 = 1;
pub const FORM_TWO: u32 = 2;

/// The source of a part: the site bytes or the factory bytes.
pub const SITE: u32 = 1;
pub const FACTORY: u32 = 2;

#[repr(C)]
#[derive(Clone, Copy, PartialEq, Eq, Debug, Default)]
pub struct Verdict {
    pub number: u8,
    pub place: usize,
}

#[repr(C)]
#[derive(Clone, Copy, PartialEq, Eq, Debug, Default)]
pub struct ObjectRow {
    pub id: u16,
    pub cost: u32,
    pub validity: u32,
    pub hold: u32,
}

#[repr(C)]
#[derive(Clone, Copy, PartialEq, Eq)]
pub struct Table {
    pub count: usize,
    pub rows: [ObjectRow; ROWS],
}

#[repr(C)]
#[derive(Clone, Copy, PartialEq, Eq, Debug, Default)]
pub struct PlanRow {
    pub id: u16,
    pub cost: u32,
    pub validity: u32,
    pub hold: u32,
    pub deadline: u32,
    pub period: u32,
}

#[repr(C)]
#[derive(Clone, Copy, PartialEq, Eq)]
pub struct Plan {
    pub count: usize,
    pub rows: [PlanRow; ROWS],
}

#[repr(C)]
#[derive(Clone, Copy, PartialEq, Eq, Debug, Default)]
pub struct RunRow {
    pub planned: PlanRow,
    pub next: u32,
    pub left: u32,
    pub sample: u32,
    pub lapsed: u32,
    pub stored: u32,
    pub held: u32,
    pub skips: u32,
}

#[repr(C)]
#[derive(Clone, Copy, PartialEq, Eq)]
pub struct Run {
    pub clock: u32,
    pub count: usize,
    pub rows: [RunRow; ROWS],
}

#[repr(C)]
#[derive(Clone, Copy, PartialEq, Eq, Debug)]
pub struct ReadAnswer {
    pub verdict: Verdict,
    pub table: Table,
}

#[repr(C)]
#[derive(Clone, Copy, PartialEq, Eq, Debug)]
pub struct Stored {
    pub form: u32,
    pub table: Table,
    pub firsts: [u32; ROWS],
}

#[repr(C)]
#[derive(Clone, Copy, PartialEq, Eq, Debug)]
pub struct StoredAnswer {
    pub verdict: Verdict,
    pub stored: Stored,
}

#[repr(C)]
#[derive(Clone, Copy, PartialEq, Eq, Debug)]
pub struct PlanAnswer {
    pub verdict: Verdict,
    pub plan: Plan,
}

#[repr(C)]
#[derive(Clone, Copy, PartialEq, Eq, Debug)]
pub struct RunAnswer {
    pub verdict: Verdict,
    pub run: Run,
}

#[repr(C)]
#[derive(Clone, Copy, PartialEq, Eq, Debug)]
pub struct Reading {
    pub verdict: Verdict,
    pub value: u32,
    pub age: u32,
}

#[repr(C)]
#[derive(Clone, Copy, PartialEq, Eq, Debug)]
pub struct Part {
    pub source: u32,
    pub form: u32,
    pub start: usize,
    pub size: usize,
}

#[repr(C)]
#[derive(Clone, Copy, PartialEq, Eq, Debug)]
pub struct Written {
    pub verdict: Verdict,
    pub size: usize,
}

// The sizes that channelfox.h tells of these.
const _: () = assert!(size_of::<ObjectRow>() == 16 && size_of::<PlanRow>() == 24 && size_of::<RunRow>() == 52);
const _: () = assert!(size_of::<Table>() == 1032 && size_of::<Stored>() == 1296 && size_of::<Part>() == 24);

impl Default for Table {
    fn default() -> Table {
        let rows = [ObjectRow::default(); ROWS];
        Table { count: 0, rows }
    }
}

impl Default for Stored {
    fn default() -> Stored {
        Stored {
            form: FORM_NONE,
            table: Table::default(),
            firsts: [0; ROWS],
        }
    }
}

impl Default for Plan {
    fn default() -> Plan {
        let rows = [PlanRow::default(); ROWS];
        Plan { count: 0, rows }
    }
}

impl Default for Run {
    fn default() -> Run {
        let rows = [RunRow::default(); ROWS];
        Run {
            clock: 0,
            count: 0,
            rows,
        }
    }
}

impl Debug for Table {
    fn fmt(&self, to: &mut Formatter) -> fmt::Result {
        write!(to, "count {}", self.count)?;
        tell_rows(to, &self.rows)
    }
}

impl Debug for Plan {
    fn fmt(&self, to: &mut Formatter) -> fmt::Result {
        write!(to, "count {}", self.count)?;
        tell_rows(to, &self.rows)
    }
}

impl Debug for Run {
    fn fmt(&self, to: &mut Formatter) -> fmt::Result {
        write!(to, "clock {} count {}", self.clock, self.count)?;
        tell_rows(to, &self.rows)
    }
}

/// Of 64 rows only those that are not zero, each with its place.
fn tell_rows<T: Debug + Default + PartialEq>(to: &mut Formatter, rows: &[T]) -> fmt::Result {
    for (place, row) in rows.iter().enumerate() {
        if *row != T::default() {
            write!(to, "\n    {place}: {row:?}")?;
        }
    }
    Ok(())
}

// The name of the archive is told here and its folder in build.rs, so that the paper by itself does without it. To call
// one of these is unsafe, and the file that does so is ffi.rs.
#[link(name = "channelfox", kind = "static")]
extern "C" {
    pub fn channelfox_read(bytes: *const u8, length: usize) -> StoredAnswer;
    pub fn channelfox_rows(rows: *const ObjectRow, length: usize) -> ReadAnswer;
    pub fn channelfox_choose(site: *const u8, site_length: usize, factory: *const u8, factory_length: usize) -> Part;
    pub fn channelfox_plan_table(table: Table) -> PlanAnswer;
    pub fn channelfox_plan_classic(table: Table) -> PlanAnswer;
    pub fn channelfox_ranked(table: Table) -> ReadAnswer;
    pub fn channelfox_plan_stored(bytes: *const u8, length: usize) -> PlanAnswer;
    pub fn channelfox_start(table: Table, clock: u32, firsts: *const u32, length: usize) -> RunAnswer;
    pub fn channelfox_slot(run: *mut Run, stolen: bool) -> Verdict;
    pub fn channelfox_advance(run: Run, stolen: *const u8, length: usize) -> RunAnswer;
    pub fn channelfox_read_value(run: Run, id: u16) -> Reading;
    pub fn channelfox_write(table: Table, buffer: *mut u8, length: usize) -> Written;
    pub fn channelfox_write_stored(stored: Stored, buffer: *mut u8, length: usize) -> Written;
    pub fn channelfox_convert(
        bytes: *const u8,
        length: usize,
        from: u32,
        buffer: *mut u8,
        buffer_length: usize,
    ) -> Written;
    pub fn channelfox_start_stored(bytes: *const u8, length: usize, clock: u32) -> RunAnswer;
    pub fn channelfox_import(bytes: *const u8, length: usize) -> ReadAnswer;
    pub fn channelfox_export(table: Table, buffer: *mut u8, length: usize) -> Written;
}
