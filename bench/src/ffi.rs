//! The calls of the C interface that are timed, and the entry of libtiming.a. The only file with unsafe code.

pub use crate::header::*;

/// What timing_slots tells of a run: its clock, and numbers of one row.
#[repr(C)]
#[derive(Clone, Copy, PartialEq, Eq, Debug, Default)]
pub struct Seen {
    pub clock: u32,
    pub next: u32,
    pub left: u32,
    pub sample: u32,
    pub skips: u32,
}

#[link(name = "timing", kind = "static")]
extern "C" {
    fn timing_slots(
        table: Table,
        clock: u32,
        firsts: *const u32,
        count: usize,
        stolen: *const u8,
        length: usize,
        place: u8,
    ) -> Seen;
}

/// Plans a table.
#[inline]
pub fn plan_table(table: &Table) -> PlanAnswer {
    // Safety: all of it goes by value.
    unsafe { channelfox_plan_table(*table) }
}

/// Plans a table the classic way, Half-Half.
pub fn plan_classic(table: &Table) -> PlanAnswer {
    // Safety: all of it goes by value.
    unsafe { channelfox_plan_classic(*table) }
}

/// One slot, in place.
#[inline]
pub fn slot(run: &mut Run, stolen: bool) -> Verdict {
    // Safety: the run is lent to the call alone.
    unsafe { channelfox_slot(run, stolen) }
}

/// One slot for each byte.
#[inline]
pub fn advance(run: &Run, stolen: &[u8]) -> RunAnswer {
    // Safety: the pointer goes with its length, and the bytes outlive the call.
    unsafe { channelfox_advance(*run, stolen.as_ptr(), stolen.len()) }
}

/// A run from its start, one checked slot in place for each byte.
#[inline]
pub fn slots_in_place(table: &Table, clock: u32, firsts: &[u32], stolen: &[u8], place: u8) -> Seen {
    // Safety: each pointer goes with its length, and what it points to outlives the call.
    unsafe {
        timing_slots(
            *table,
            clock,
            firsts.as_ptr(),
            firsts.len(),
            stolen.as_ptr(),
            stolen.len(),
            place,
        )
    }
}
