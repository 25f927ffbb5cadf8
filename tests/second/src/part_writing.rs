//! Part 7: tables written in form one into a lent buffer. Both forms are in part 10.

use paper::forms::{Form, Stored};
use paper::tables::ObjectRow;
use paper::writing::write;

use crate::buffers::Writer;
use crate::tally::{agree, for_cases, hex, Tally};
use crate::{cform, ffi};

const TABLES: u64 = 120_000;

const WRITER: Writer = Writer {
    name: "channelfox_write",
    paper: write,
    library: ffi::write,
    needed: |rows| Form::One.length(rows.len()),
    reads_back,
};

pub fn written_tables(seed: u64) -> Result<(), String> {
    let mut tally = Tally::new();
    WRITER.expect(&mut tally);
    for_cases(seed, 70, TABLES, |random| WRITER.compare(random, &mut tally))?;
    tally.close()
}

fn reads_back(bytes: &[u8], rows: &[ObjectRow]) -> Result<(), String> {
    let expected = cform::stored_answer(&Ok(Stored::one(rows)));
    let what = "what channelfox_write has written, read";
    agree(what, &Ok(expected), &ffi::read(bytes), || hex(bytes))
}
