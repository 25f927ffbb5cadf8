//! Part 13: stored bytes of both forms that were worked out by hand, held against the library. The paper's modules have
//! them in their own tests.

use paper::form_numbers::{ConvertNumbers, CONVERSIONS, READS, STARTS};
use paper::forms::{Form, Stored};
use paper::planning::plan;
use paper::tables::{refused, Refusal};

use crate::tally::{agree, hex, Tally};
use crate::{cform, ffi};

pub fn numbers(_seed: u64) -> Result<(), String> {
    let mut tally = Tally::new();
    reads(&mut tally)?;
    choices(&mut tally)?;
    for numbers in CONVERSIONS {
        conversion(numbers)?;
        tally.add("conversions, to buffers of every length", 1);
    }
    forms_that_are_none(&mut tally)?;
    first_releases_in_form_one(&mut tally)?;
    starts(&mut tally)?;
    tally.close()
}

/// What bytes hold, and where they have no unread bytes, the same written again; and what a plan of them is.
fn reads(tally: &mut Tally) -> Result<(), String> {
    for numbers in READS {
        let bytes = numbers.bytes();
        let told = || format!("{}: {}", numbers.from, hex(&bytes));
        let answer = numbers.answer();
        let expected = cform::stored_answer(&answer);
        agree("channelfox_read", &Ok(expected), &ffi::read(&bytes), told)?;
        let planned = answer.clone().and_then(|held| plan(held.rows.len(), &held.rows));
        let planned = Ok(cform::plan_answer(&planned));
        agree("channelfox_plan_stored", &planned, &ffi::plan_stored(&bytes), told)?;
        tally.add("stored bytes, good and bad", 1);
        if answer.is_ok_and(|held| held.form.length(held.rows.len()) == bytes.len()) {
            let library = ffi::write_stored(&expected.stored, &vec![0xEE; bytes.len()]);
            let written = (cform::written(&Ok(bytes.len())), bytes.clone());
            agree("channelfox_write_stored", &Ok(written), &library, told)?;
            tally.add("of them written again as the same bytes", 1);
        }
    }
    Ok(())
}

/// The form of what is chosen, with every pair of good and bad bytes: 20 or 24 bytes with one record, or 8 zero bytes.
fn choices(tally: &mut Tally) -> Result<(), String> {
    let record = [9, 0, 0, 0, 1, 0, 0, 0, 2, 0, 0, 0];
    let one = [&record[..], &[20, 0, 0, 0, 1, 0, 0x4D, 0x4C]].concat();
    let two = [
        &[0xEE, 0xEE],
        &record[..],
        &[7, 0, 0, 0],
        &[24, 0, 0, 0, 1, 0, 0x4D, 0x32],
    ]
    .concat();
    // Bytes, and the form, start and size of what is chosen of them: of bad ones the empty part, which has no form.
    let kinds = [
        (one, ffi::FORM_ONE, 0, 12),
        (two, ffi::FORM_TWO, 2, 16),
        (vec![0; 8], ffi::FORM_NONE, 0, 0),
    ];
    for site in &kinds {
        for factory in &kinds {
            let (source, chosen) = match site.1 {
                ffi::FORM_NONE => (ffi::FACTORY, factory),
                _ => (ffi::SITE, site),
            };
            let expected = ffi::Part {
                source,
                form: chosen.1,
                start: chosen.2,
                size: chosen.3,
            };
            let library = ffi::choose(&site.0, &factory.0);
            agree("channelfox_choose", &Ok(expected), &library, || {
                format!("site {}\n  factory {}", hex(&site.0), hex(&factory.0))
            })?;
            tally.add("choices", 1);
        }
    }
    Ok(())
}

/// A refusal with every buffer, or 16 with those too small; both leave the buffer alone, as does what is beyond the bytes
/// in those that are large enough.
fn conversion(numbers: &ConvertNumbers) -> Result<(), String> {
    let bytes = numbers.bytes();
    let from = cform::form(Some(numbers.form));
    for length in 0..60 {
        let mut buffer = vec![0xEE; length];
        let answer = numbers.answer().and_then(|to| {
            let start = buffer.get_mut(..to.len()).ok_or(refused(16))?;
            start.copy_from_slice(&to);
            Ok(to.len())
        });
        let expected = (cform::written(&answer), buffer);
        let library = ffi::convert(&bytes, from, &vec![0xEE; length]);
        agree("channelfox_convert", &Ok(Ok(expected)), &library, || {
            format!("{}: from {from}, to {length} bytes, {}", numbers.from, hex(&bytes))
        })?;
    }
    Ok(())
}

/// A number that tells no form gets 3: in a conversion after 1 and 2, in writing before all.
fn forms_that_are_none(tally: &mut Tally) -> Result<(), String> {
    for form in [0, 3, 4, 0x101, 0x1_0001, 0x1_0002, u32::MAX] {
        for numbers in READS {
            let bytes = numbers.bytes();
            let refusal = match numbers.answer() {
                Err(refusal @ Refusal { number: 1 | 2, .. }) => refusal,
                _ => refused(3),
            };
            let expected = (cform::written(&Err(refusal)), vec![0xEE; 60]);
            let library = ffi::convert(&bytes, form, &[0xEE; 60]);
            agree("channelfox_convert", &Ok(Ok(expected)), &library, || {
                format!("{}: from {form}, {}", numbers.from, hex(&bytes))
            })?;
        }
        for (count, cost) in [(1, 1), (1, 0), (0, 1), (65, 1)] {
            let held = Stored::of(Form::One, &[(1, cost, 2, 1, 5)]);
            let in_c = cform::stored_handed_in(form, count, &held.rows, &held.firsts);
            let expected = (cform::written(&Err(refused(3))), vec![0xEE; 7]);
            let library = ffi::write_stored(&in_c, &[0xEE; 7]);
            agree("channelfox_write_stored", &Ok(expected), &library, || {
                format!("{in_c:?}")
            })?;
        }
        tally.add("numbers that tell no form", 1);
    }
    Ok(())
}

/// One record of 64 with a first release, at every place: form two has room for it, and form one has not.
fn first_releases_in_form_one(tally: &mut Tally) -> Result<(), String> {
    for place in 0..64_u16 {
        let record = |id: u16| (id, 1, 2, 1, if id == place { 1 << (id % 32) } else { 0 });
        let records: Vec<(u16, u32, u32, u32, u32)> = (0..64).map(record).collect();
        let mut in_c = cform::stored(&Stored::of(Form::One, &records));
        // Before 16: a buffer too small by one, and one that has just room.
        for length in [775, 776] {
            let refusal = Refusal {
                number: 18,
                place: u32::from(place),
            };
            let given = vec![0xEE; length];
            let expected = (cform::written(&Err(refusal)), given.clone());
            let library = ffi::write_stored(&in_c, &given);
            agree("channelfox_write_stored", &Ok(expected), &library, || {
                format!("{in_c:?}")
            })?;
        }
        in_c.form = ffi::FORM_TWO;
        for (length, answer) in [(1031, Err(refused(16))), (1032, Ok(1032))] {
            let library = ffi::write_stored(&in_c, &vec![0xEE; length]).map(|(written, _)| written);
            let expected = Ok(cform::written(&answer));
            agree("channelfox_write_stored", &expected, &library, || format!("{in_c:?}"))?;
        }
        tally.add("first releases that form one has no room for", 1);
    }
    Ok(())
}

/// Each object's next release, in priority order, or the refusal.
fn starts(tally: &mut Tally) -> Result<(), String> {
    for numbers in STARTS {
        let bytes = numbers.bytes();
        let told = || format!("{}: clock {}, {}", numbers.from, numbers.clock, hex(&bytes));
        let library = ffi::start_stored(&bytes, numbers.clock);
        let library = library.map_err(|told| format!("{told:?}: {}", numbers.from))?;
        let answer = numbers.answer();
        agree(
            "channelfox_start_stored",
            &cform::verdict(&answer),
            &library.verdict,
            told,
        )?;
        match answer {
            Ok(objects) => {
                let rows = library.run.rows[..objects.len()].iter();
                let nexts: Vec<(u16, u32)> = rows.map(|row| (row.planned.id, row.next)).collect();
                agree("the next releases", objects, &nexts[..], told)?;
                let expected = (numbers.clock, objects.len());
                agree(
                    "clock and count",
                    &expected,
                    &(library.run.clock, library.run.count),
                    told,
                )?;
            }
            Err(_) => agree("a refused start", &ffi::Run::default(), &library.run, told)?,
        }
        tally.add("starts from stored bytes", 1);
    }
    Ok(())
}
