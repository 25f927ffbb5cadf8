//! Stored bytes of either form read, and the choice between two of them: refusals 1 to 9, and 15.

use std::ops::Range;

use crate::forms::{Form, Stored, FORMS, TRAILER};
use crate::tables::{check_row, refused, ObjectRow, Refusal, MOST_BYTES, MOST_OBJECTS};

/// The two tables of the router.
#[derive(Clone, Copy, PartialEq, Eq, Debug)]
pub enum Source {
    Site,
    Factory,
}

/// What the choice hands back: a part of the lent bytes, from whom, and where in them it starts; and the form of the
/// table that it is from, or none where neither reads.
#[derive(Clone, Copy, PartialEq, Eq, Debug)]
pub struct Part<'a> {
    pub source: Source,
    pub form: Option<Form>,
    pub start: usize,
    pub bytes: &'a [u8],
}

/// Reads stored bytes of either form.
pub fn read(bytes: &[u8]) -> Result<Stored, Refusal> {
    read_as(bytes, &FORMS)
}

/// Reads stored bytes of one of these forms: checks 1 to 5 and 15 on the whole, then the records one after the other.
pub fn read_as(bytes: &[u8], forms: &[Form]) -> Result<Stored, Refusal> {
    let (form, part) = records_part(bytes, forms)?;
    let mut rows = Vec::new();
    let mut firsts = Vec::new();
    for record in bytes[part].chunks(form.record()) {
        let row = ObjectRow {
            id: little_endian(&record[0..2]) as u16,
            cost: little_endian(&record[4..8]) as u32,
            validity: little_endian(&record[8..12]) as u32,
            hold: little_endian(&record[2..4]) as u32 + 1,
        };
        check_row(row, &rows)?;
        rows.push(row);
        // What is left of the record: nothing in form one, which makes 0.
        firsts.push(little_endian(&record[12..]) as u32);
    }
    Ok(Stored { form, rows, firsts })
}

/// Checks 1 to 5 and then 15, where 3 is a mark of none of these forms; and the form and the part of the bytes where the
/// records are.
fn records_part(bytes: &[u8], forms: &[Form]) -> Result<(Form, Range<usize>), Refusal> {
    let length = bytes.len();
    if length < TRAILER {
        return Err(refused(1));
    }
    if length > MOST_BYTES {
        return Err(refused(2));
    }
    let trailer = &bytes[length - TRAILER..];
    let distance = little_endian(&trailer[0..4]);
    let count = little_endian(&trailer[4..6]);
    let form = Form::with_mark(&trailer[6..8]);
    let form = form.filter(|form| forms.contains(form)).ok_or(refused(3))?;
    if count == 0 || count > MOST_OBJECTS as u64 {
        return Err(refused(4));
    }
    if distance < form.length(count as usize) as u64 {
        return Err(refused(5));
    }
    if distance > length as u64 {
        return Err(refused(15));
    }
    let start = length - distance as usize;
    Ok((form, start..start + form.record() * count as usize))
}

/// The records part of the site table if that one reads, otherwise of the factory table if that one does, otherwise the
/// empty part at the start of the factory bytes, which has no form.
pub fn choose<'a>(site: &'a [u8], factory: &'a [u8]) -> Part<'a> {
    for (source, bytes) in [(Source::Site, site), (Source::Factory, factory)] {
        // A table may point at its records well and still not read, for what is in them.
        if let (Ok((form, part)), Ok(_)) = (records_part(bytes, &FORMS), read(bytes)) {
            return Part {
                source,
                form: Some(form),
                start: part.start,
                bytes: &bytes[part],
            };
        }
    }
    Part {
        source: Source::Factory,
        form: None,
        start: 0,
        bytes: &factory[..0],
    }
}

/// The number these bytes hold, the lowest byte first.
fn little_endian(bytes: &[u8]) -> u64 {
    bytes
        .iter()
        .rev()
        .fold(0, |number, byte| number * 256 + u64::from(*byte))
}

#[cfg(test)]
mod tests {
    use super::*;
    use crate::form_numbers::READS;
    use crate::tables::refused_at;

    /// Stored bytes of these rows, with bytes before the records and between them and the trailer. In form two the first
    /// releases count up from 1.
    fn stored(form: Form, rows: &[ObjectRow], before: usize, between: usize) -> Vec<u8> {
        let mut bytes = vec![0xEE; before];
        for (row, first) in rows.iter().zip(1_u32..) {
            bytes.extend(row.id.to_le_bytes());
            bytes.extend((row.hold as u16).wrapping_sub(1).to_le_bytes());
            bytes.extend(row.cost.to_le_bytes());
            bytes.extend(row.validity.to_le_bytes());
            if form == Form::Two {
                bytes.extend(first.to_le_bytes());
            }
        }
        bytes.extend(vec![0xDD; between]);
        let distance = (form.length(rows.len()) + between) as u32;
        bytes.extend(distance.to_le_bytes());
        bytes.extend((rows.len() as u16).to_le_bytes());
        bytes.extend(form.mark());
        bytes
    }

    fn row(id: u16, cost: u32, validity: u32) -> ObjectRow {
        ObjectRow::plain(id, cost, validity)
    }

    /// As many rows as asked for, each of them good.
    fn rows(count: usize) -> Vec<ObjectRow> {
        (0..count).map(|id| row(id as u16, 1, 10)).collect()
    }

    fn rows_of(bytes: &[u8]) -> Result<Vec<ObjectRow>, Refusal> {
        read(bytes).map(|stored| stored.rows)
    }

    #[test]
    fn bytes_worked_out_by_hand() {
        for numbers in READS {
            assert_eq!(read(&numbers.bytes()), numbers.answer(), "{}", numbers.from);
        }
    }

    #[test]
    fn the_papers_own_refusals() {
        assert_eq!(read(&[0; 7]), Err(refused(1)));
        assert_eq!(read(&[0; 8]), Err(refused(3)));
        assert_eq!(read(&[8, 0, 0, 0, 65, 0, 0x4D, 0x4C]), Err(refused(4)), "count 65");
        let mut one = stored(Form::One, &rows(1), 0, 0);
        assert_eq!(one.len(), 20);
        assert_eq!(rows_of(&one), Ok(rows(1)), "distance 20 in 20 bytes");
        one[12] = 19;
        assert_eq!(read(&one), Err(refused(5)), "distance 19");
        one[12] = 21;
        assert_eq!(read(&one), Err(refused(15)), "distance above the number of bytes");
    }

    #[test]
    fn too_small_a_distance_is_told_before_one_too_large() {
        // One record told of, in bytes that cannot hold it.
        let trailer = |distance: u8| [distance, 0, 0, 0, 1, 0, 0x4D, 0x4C];
        assert_eq!(read(&trailer(8)), Err(refused(5)), "too small alone");
        assert_eq!(read(&trailer(9)), Err(refused(5)), "too small and too large");
        assert_eq!(read(&trailer(19)), Err(refused(5)), "too small and too large");
        assert_eq!(read(&trailer(20)), Err(refused(15)), "too large alone");
    }

    #[test]
    fn the_56_bytes_of_the_plan_program() {
        let four = [row(40, 1, 20), row(10, 1, 4), row(30, 1, 8), row(20, 1, 5)];
        let bytes = stored(Form::One, &four, 0, 0);
        assert_eq!(bytes.len(), 56);
        assert_eq!(bytes[48..], [0x38, 0, 0, 0, 4, 0, 0x4D, 0x4C]);
        assert_eq!(read(&bytes), Ok(Stored::one(&four)));
    }

    #[test]
    fn each_form_alone() {
        for form in FORMS {
            let bytes = stored(form, &rows(2), 1, 2);
            assert_eq!(read_as(&bytes, &[form]), read(&bytes));
            assert_eq!(read_as(&bytes, &[form.other()]), Err(refused(3)));
            assert_eq!(read_as(&bytes, &[]), Err(refused(3)));
            assert_eq!(read_as(&bytes[..7], &[]), Err(refused(1)), "before 3");
            assert_eq!(read_as(&[0; 4097], &[]), Err(refused(2)), "before 3");
        }
    }

    #[test]
    fn gaps_are_not_read() {
        for (form, part) in [(Form::One, 7..43), (Form::Two, 7..55)] {
            let bytes = stored(form, &rows(3), 7, 11);
            assert_eq!(records_part(&bytes, &FORMS), Ok((form, part)));
            assert_eq!(rows_of(&bytes), Ok(rows(3)));
        }
        assert_eq!(read(&stored(Form::One, &rows(3), 7, 11)).unwrap().firsts, [0, 0, 0]);
        assert_eq!(read(&stored(Form::Two, &rows(3), 7, 11)).unwrap().firsts, [1, 2, 3]);
    }

    #[test]
    fn the_most_bytes() {
        for form in FORMS {
            let room = MOST_BYTES - form.length(64);
            let fits = stored(form, &rows(64), room, 0);
            assert_eq!(fits.len(), 4096);
            assert_eq!(rows_of(&fits), Ok(rows(64)));
            let above = stored(form, &rows(64), 0, room + 1);
            assert_eq!(above.len(), 4097);
            assert_eq!(read(&above), Err(refused(2)));
        }
    }

    #[test]
    fn a_distance_that_fits_form_one_does_not_fit_form_two() {
        // In one and the same bytes, of which only the second of the mark differs.
        for count in 1..=64 {
            let mut bytes = stored(Form::Two, &rows(count), 100, 0);
            let last = bytes.len() - 1;
            let distances = [8 + 12 * count, 8 + 16 * count - 1];
            for distance in distances {
                bytes[last - 7..last - 3].copy_from_slice(&(distance as u32).to_le_bytes());
                bytes[last] = 0x32;
                assert_eq!(read(&bytes), Err(refused(5)));
                bytes[last] = 0x4C;
                assert_ne!(read(&bytes), Err(refused(5)));
            }
        }
    }

    #[test]
    fn faults_of_a_record_in_the_order_of_the_checks() {
        for form in FORMS {
            let record = form.record();
            let mut bytes = stored(form, &[row(5, 1, 2), row(5, 0, 1), row(6, 0, 2)], 0, 0);
            bytes[record + 3] = 1;
            assert_eq!(read(&bytes), Err(refused_at(7, 1)), "7 comes before 6");
            bytes[record + 4] = 1;
            assert_eq!(read(&bytes), Err(refused_at(6, 1)));
            bytes[record + 3] = 0;
            assert_eq!(read(&bytes), Err(refused_at(8, 1)));
            bytes[record + 8] = 2;
            assert_eq!(read(&bytes), Err(refused_at(9, 1)));
            bytes[record] = 7;
            assert_eq!(read(&bytes), Err(refused_at(7, 2)));
        }
    }

    #[test]
    fn the_two_bytes_of_a_hold_tell_it_minus_1() {
        let with_bytes = |form: Form, cost: u32, told: u16| {
            let mut bytes = stored(form, &[row(5, 1, 9), row(6, cost, 1_000_000)], 0, 0);
            let at = form.record() + 2;
            bytes[at..at + 2].copy_from_slice(&told.to_le_bytes());
            rows_of(&bytes).map(|rows| rows[1].hold)
        };
        for form in FORMS {
            assert_eq!(with_bytes(form, 1, 0), Ok(1));
            assert_eq!(with_bytes(form, 1, 1), Err(refused_at(6, 1)));
            assert_eq!(with_bytes(form, 3, 2), Ok(3));
            assert_eq!(with_bytes(form, 3, 3), Err(refused_at(6, 1)));
            assert_eq!(with_bytes(form, 257, 256), Ok(257));
            assert_eq!(with_bytes(form, 65_535, 0xFFFF), Err(refused_at(6, 1)));
            assert_eq!(with_bytes(form, 65_536, 0xFFFF), Ok(65_536));
            assert_eq!(with_bytes(form, 1_000_000, 0xFFFF), Ok(65_536));
        }
    }

    #[test]
    fn the_choice() {
        let bad = [0; 8];
        for (site_form, factory_form) in [(Form::One, Form::Two), (Form::Two, Form::One)] {
            let site = stored(site_form, &rows(2), 3, 1);
            let factory = stored(factory_form, &rows(1), 5, 0);
            let chosen = choose(&site, &factory);
            assert_eq!(
                (chosen.source, chosen.form, chosen.start),
                (Source::Site, Some(site_form), 3)
            );
            assert_eq!(chosen.bytes, &site[3..3 + 2 * site_form.record()]);
            let chosen = choose(&bad, &factory);
            assert_eq!(
                (chosen.source, chosen.form, chosen.start),
                (Source::Factory, Some(factory_form), 5)
            );
            assert_eq!(chosen.bytes, &factory[5..5 + factory_form.record()]);
        }
        let chosen = choose(&bad, &bad);
        assert_eq!((chosen.source, chosen.form, chosen.start), (Source::Factory, None, 0));
        assert!(chosen.bytes.is_empty());
    }
}
