//! The calls of the C interface. The only file with unsafe code.

pub use crate::header::*;

/// What was lent for reading has been changed, which the paper never allows.
#[derive(Clone, Copy, PartialEq, Eq, Debug)]
pub struct LentChanged;

/// How many elements lie on either side of what is lent. An odd number, so that lent bytes begin at an odd address.
const MARGIN: usize = 3;

/// Lends a copy with a margin on both sides, and looks afterwards whether all of it is as it was.
fn lend<T: Copy + PartialEq, A>(
    what: &[T],
    margin: T,
    call: impl FnOnce(*const T, usize) -> A,
) -> Result<A, LentChanged> {
    let mut given = vec![margin; MARGIN];
    given.extend_from_slice(what);
    given.extend_from_slice(&[margin; MARGIN]);
    // Lent from a mutable copy: a change, were there one, would then be seen and not be assumed away.
    let mut lent = given.clone();
    let answer = call(lent[MARGIN..].as_mut_ptr(), what.len());
    if lent == given {
        Ok(answer)
    } else {
        Err(LentChanged)
    }
}

const BYTE: u8 = 0xA5;

/// Something beside the buffer that was lent for writing has been touched, which the paper never allows.
#[derive(Clone, Copy, PartialEq, Eq, Debug)]
pub struct BesideTouched;

/// How many bytes lie on either side of a buffer: more than any table or sheet has, so that what is written beyond a
/// buffer is seen and does no harm, however small the buffer is. An odd number too.
const BESIDE: usize = 2001;

/// Lends a copy of the buffer for writing, and hands back what has become of it.
fn lend_to_write<A>(buffer: &[u8], call: impl FnOnce(*mut u8, usize) -> A) -> Result<(A, Vec<u8>), BesideTouched> {
    let mut lent = vec![BYTE; BESIDE];
    lent.extend_from_slice(buffer);
    lent.extend_from_slice(&[BYTE; BESIDE]);
    let answer = call(lent[BESIDE..].as_mut_ptr(), buffer.len());
    let beyond = lent.split_off(BESIDE + buffer.len());
    let after = lent.split_off(BESIDE);
    if lent == [BYTE; BESIDE] && beyond == [BYTE; BESIDE] {
        Ok((answer, after))
    } else {
        Err(BesideTouched)
    }
}

/// Reads stored bytes of either form.
pub fn read(bytes: &[u8]) -> Result<StoredAnswer, LentChanged> {
    // Safety: the pointer goes with its length, and the bytes outlive the call.
    lend(bytes, BYTE, |at, length| unsafe { channelfox_read(at, length) })
}

/// The second door.
pub fn rows(rows: &[ObjectRow]) -> Result<ReadAnswer, LentChanged> {
    let margin = ObjectRow {
        id: 0xA5A5,
        cost: 1,
        validity: 2,
        hold: 1,
    };
    // Safety: the pointer goes with its length, and the rows outlive the call.
    lend(rows, margin, |at, length| unsafe { channelfox_rows(at, length) })
}

/// The choice between site and factory table.
pub fn choose(site: &[u8], factory: &[u8]) -> Result<Part, LentChanged> {
    lend(site, BYTE, |site_at, site_length| {
        lend(factory, BYTE, |factory_at, factory_length| {
            // Safety: both pointers go with their lengths, and the bytes outlive the call.
            unsafe { channelfox_choose(site_at, site_length, factory_at, factory_length) }
        })
    })?
}

/// Plans a table.
pub fn plan_table(table: &Table) -> PlanAnswer {
    // Safety: all of it goes by value.
    unsafe { channelfox_plan_table(*table) }
}

/// Plans a table the classic way.
pub fn plan_classic(table: &Table) -> PlanAnswer {
    // Safety: all of it goes by value.
    unsafe { channelfox_plan_classic(*table) }
}

/// The rows in priority order.
pub fn ranked(table: &Table) -> ReadAnswer {
    // Safety: all of it goes by value.
    unsafe { channelfox_ranked(*table) }
}

/// Reads a stored table and plans it.
pub fn plan_stored(bytes: &[u8]) -> Result<PlanAnswer, LentChanged> {
    // Safety: the pointer goes with its length, and the bytes outlive the call.
    lend(bytes, BYTE, |at, length| unsafe { channelfox_plan_stored(at, length) })
}

/// Reads stored bytes, plans what they hold and starts a run of it.
pub fn start_stored(bytes: &[u8], clock: u32) -> Result<RunAnswer, LentChanged> {
    lend(bytes, BYTE, |at, length| {
        // Safety: the pointer goes with its length, and the bytes outlive the call.
        unsafe { channelfox_start_stored(at, length, clock) }
    })
}

/// Plans a table and starts a run of it.
pub fn start(table: &Table, clock: u32, firsts: &[u32]) -> Result<RunAnswer, LentChanged> {
    lend(firsts, 0, |at, length| {
        // Safety: the pointer goes with its length, and the numbers outlive the call.
        unsafe { channelfox_start(*table, clock, at, length) }
    })
}

/// One slot, in place.
pub fn slot(run: &mut Run, stolen: bool) -> Verdict {
    // Safety: the run is lent to the call alone.
    unsafe { channelfox_slot(run, stolen) }
}

/// One slot for each byte.
pub fn advance(run: &Run, stolen: &[u8]) -> Result<RunAnswer, LentChanged> {
    // Safety: the pointer goes with its length, and the bytes outlive the call.
    lend(stolen, BYTE, |at, length| unsafe {
        channelfox_advance(*run, at, length)
    })
}

/// What is known of an object's value.
pub fn read_value(run: &Run, id: u16) -> Reading {
    // Safety: all of it goes by value.
    unsafe { channelfox_read_value(*run, id) }
}

/// Writes a table to a copy of the buffer, and hands back what has become of it.
pub fn write(table: &Table, buffer: &[u8]) -> Result<(Written, Vec<u8>), BesideTouched> {
    lend_to_write(buffer, |at, length| {
        // Safety: the pointer goes with its length, and the buffer is lent to the call alone.
        unsafe { channelfox_write(*table, at, length) }
    })
}

/// Writes in the form told to a copy of the buffer, and hands back what has become of it.
pub fn write_stored(stored: &Stored, buffer: &[u8]) -> Result<(Written, Vec<u8>), BesideTouched> {
    lend_to_write(buffer, |at, length| {
        // Safety: the pointer goes with its length, and the buffer is lent to the call alone.
        unsafe { channelfox_write_stored(*stored, at, length) }
    })
}

/// Converts stored bytes of the form told to a copy of the buffer, and hands back what has become of it.
pub fn convert(
    bytes: &[u8],
    from: u32,
    buffer: &[u8],
) -> Result<Result<(Written, Vec<u8>), BesideTouched>, LentChanged> {
    lend(bytes, BYTE, |bytes_at, bytes_length| {
        lend_to_write(buffer, |at, length| {
            // Safety: both pointers go with their lengths, the bytes outlive the call, and the buffer, which is no part
            // of them, is lent to the call alone.
            unsafe { channelfox_convert(bytes_at, bytes_length, from, at, length) }
        })
    })
}

/// Reads a sheet.
pub fn import(bytes: &[u8]) -> Result<ReadAnswer, LentChanged> {
    // Safety: the pointer goes with its length, and the bytes outlive the call.
    lend(bytes, BYTE, |at, length| unsafe { channelfox_import(at, length) })
}

/// Writes a table as a sheet to a copy of the buffer, and hands back what has become of it.
pub fn export(table: &Table, buffer: &[u8]) -> Result<(Written, Vec<u8>), BesideTouched> {
    lend_to_write(buffer, |at, length| {
        // Safety: the pointer goes with its length, and the buffer is lent to the call alone.
        unsafe { channelfox_export(*table, at, length) }
    })
}
