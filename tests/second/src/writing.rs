//! Writing stored bytes of either form: the records and the trailer, without gap, into a lent buffer. Refusals 16 and
//! 18, and 3 where no form is told.

use crate::forms::{Form, Stored};
use crate::tables::{check_table, refused, refused_at, ObjectRow, Refusal};

/// Writes a table in form one at the start of the buffer and tells how many bytes that takes. Checks 4, 7, 6, 8 and 9,
/// then 16; what is refused leaves the buffer as it was.
pub fn write(count: usize, rows: &[ObjectRow], buffer: &mut [u8]) -> Result<usize, Refusal> {
    let used = check_table(count, rows)?;
    put(&stored_bytes(&Stored::one(used)), buffer)
}

/// The same in the form told, with first releases: 3 before all where no form is told, and 18 before 16 where form one
/// has no room for them. Neither rows nor first releases beyond the count are read.
pub fn write_stored(
    form: Option<Form>,
    count: usize,
    rows: &[ObjectRow],
    firsts: &[u32],
    buffer: &mut [u8],
) -> Result<usize, Refusal> {
    let form = form.ok_or(refused(3))?;
    let rows = check_table(count, rows)?;
    let firsts = &firsts[..count];
    check_first_releases(form, firsts)?;
    let stored = Stored {
        form,
        rows: rows.to_vec(),
        firsts: firsts.to_vec(),
    };
    put(&stored_bytes(&stored), buffer)
}

/// Check 18: form one has no room for a first release, so each of them must be 0.
fn check_first_releases(form: Form, firsts: &[u32]) -> Result<(), Refusal> {
    match firsts.iter().position(|first| *first != 0) {
        Some(record) if form == Form::One => Err(refused_at(18, record)),
        _ => Ok(()),
    }
}

/// The stored bytes of good rows, without a byte that is not read.
pub fn stored_bytes(stored: &Stored) -> Vec<u8> {
    let (form, count) = (stored.form, stored.rows.len());
    let mut bytes = Vec::new();
    for (row, first) in stored.rows.iter().zip(&stored.firsts) {
        bytes.extend(row.id.to_le_bytes());
        // A good hold is from 1 to 65,536, so one less fits in the two bytes.
        bytes.extend(((row.hold - 1) as u16).to_le_bytes());
        bytes.extend(row.cost.to_le_bytes());
        bytes.extend(row.validity.to_le_bytes());
        if form == Form::Two {
            bytes.extend(first.to_le_bytes());
        }
    }
    bytes.extend((form.length(count) as u32).to_le_bytes());
    bytes.extend((count as u16).to_le_bytes());
    bytes.extend(form.mark());
    assert_eq!(bytes.len(), form.length(count));
    bytes
}

/// Puts all the bytes at the start of the buffer and touches nothing beyond, or, if it is too small, nothing at all.
pub fn put(bytes: &[u8], buffer: &mut [u8]) -> Result<usize, Refusal> {
    let start = buffer.get_mut(..bytes.len()).ok_or(refused(16))?;
    start.copy_from_slice(bytes);
    Ok(bytes.len())
}

#[cfg(test)]
mod tests {
    use super::*;
    use crate::form_numbers::READS;
    use crate::forms::FORMS;
    use crate::reading::read;

    fn row(id: u16, cost: u32, validity: u32) -> ObjectRow {
        ObjectRow::plain(id, cost, validity)
    }

    /// What writing to a buffer of so many bytes 0xEE answers, and the buffer afterwards.
    fn written(count: usize, rows: &[ObjectRow], length: usize) -> (Result<usize, Refusal>, Vec<u8>) {
        let mut buffer = vec![0xEE; length];
        let answer = write(count, rows, &mut buffer);
        (answer, buffer)
    }

    #[test]
    fn the_56_bytes_of_the_plan_program() {
        let four = [row(40, 1, 20), row(10, 1, 4), row(30, 1, 8), row(20, 1, 5)];
        let (answer, buffer) = written(4, &four, 56);
        assert_eq!(answer, Ok(56));
        assert_eq!(buffer[..12], [40, 0, 0, 0, 1, 0, 0, 0, 20, 0, 0, 0]);
        assert_eq!(buffer[36..48], [20, 0, 0, 0, 1, 0, 0, 0, 5, 0, 0, 0]);
        assert_eq!(buffer[48..], [0x38, 0, 0, 0, 4, 0, 0x4D, 0x4C]);
        assert_eq!(read(&buffer), Ok(Stored::one(&four)));
    }

    #[test]
    fn bytes_are_little_endian() {
        let (answer, buffer) = written(1, &[row(0x1234, 0x0A_0B0C, 0x0D_0E0F)], 20);
        assert_eq!(answer, Ok(20));
        assert_eq!(
            buffer[..12],
            [0x34, 0x12, 0, 0, 0x0C, 0x0B, 0x0A, 0, 0x0F, 0x0E, 0x0D, 0]
        );
    }

    #[test]
    fn holds_are_written_minus_1() {
        for (hold, told) in [(1, [0, 0]), (2, [1, 0]), (257, [0, 1]), (65_536, [0xFF, 0xFF])] {
            let rows = [ObjectRow::held(7, 65_536, 1_000_000, hold)];
            let (answer, buffer) = written(1, &rows, 20);
            assert_eq!(answer, Ok(20));
            assert_eq!(buffer[..8], [7, 0, told[0], told[1], 0, 0, 1, 0]);
            assert_eq!(read(&buffer), Ok(Stored::one(&rows)));
        }
    }

    #[test]
    fn a_buffer_too_small_exact_and_larger() {
        let one = [row(9, 1, 2)];
        for length in [0, 1, 8, 12, 19] {
            assert_eq!(written(1, &one, length), (Err(refused(16)), vec![0xEE; length]));
        }
        let (answer, exact) = written(1, &one, 20);
        assert_eq!(answer, Ok(20));
        let (answer, larger) = written(1, &one, 33);
        assert_eq!(answer, Ok(20));
        assert_eq!(larger[..20], exact);
        assert_eq!(larger[20..], [0xEE; 13]);
    }

    #[test]
    fn rows_are_checked_before_the_buffer_and_leave_it_untouched() {
        let refusal = |count, rows: &[ObjectRow]| {
            for length in [0, 19, 2000] {
                let (answer, buffer) = written(count, rows, length);
                assert_eq!(buffer, vec![0xEE; length]);
                assert_eq!(answer, written(count, rows, 0).0);
            }
            written(count, rows, 0).0.unwrap_err()
        };
        assert_eq!(refusal(0, &[]), refused(4));
        assert_eq!(refusal(65, &[row(1, 1, 2); 65]), refused(4));
        assert_eq!(refusal(2, &[row(1, 1, 2), row(2, 0, 2)]), refused_at(7, 1));
        assert_eq!(
            refusal(2, &[row(1, 1, 2), ObjectRow::held(2, 1, 1, 0)]),
            refused_at(6, 1)
        );
        assert_eq!(
            refusal(2, &[row(1, 1, 2), ObjectRow::held(2, 1, 1, 2)]),
            refused_at(6, 1)
        );
        assert_eq!(refusal(2, &[row(1, 1, 2), row(2, 1, 1)]), refused_at(8, 1));
        assert_eq!(refusal(2, &[row(1, 1, 2), row(1, 1, 2)]), refused_at(9, 1));
    }

    #[test]
    fn rows_beyond_the_count_are_not_read() {
        let rows = [row(1, 1, 2), row(1, 0, 0)];
        assert_eq!(written(1, &rows, 20), written(1, &rows[..1], 20));
    }

    #[test]
    fn both_ways_round() {
        let rows: Vec<ObjectRow> = (0..64)
            .map(|k| ObjectRow::held(65_535 - k, 1_000_000 - u32::from(k), 2, 65_536 - 1000 * u32::from(k)))
            .collect();
        for count in 1..=64 {
            let (answer, buffer) = written(count, &rows, 800);
            assert_eq!(answer, Ok(8 + 12 * count));
            let bytes = &buffer[..8 + 12 * count];
            let again = read(bytes).unwrap();
            assert_eq!(again, Stored::one(&rows[..count]));
            assert_eq!(
                written(count, &again.rows, bytes.len()),
                (Ok(bytes.len()), bytes.to_vec())
            );
        }
    }

    /// The same for what is written in a form.
    fn written_in(form: Option<Form>, stored: &Stored, length: usize) -> (Result<usize, Refusal>, Vec<u8>) {
        let mut buffer = vec![0xEE; length];
        let count = stored.rows.len();
        let answer = write_stored(form, count, &stored.rows, &stored.firsts, &mut buffer);
        (answer, buffer)
    }

    #[test]
    fn what_is_read_without_unread_bytes_is_written_as_the_same_bytes() {
        let mut seen = 0;
        for numbers in READS {
            let Ok(stored) = numbers.answer() else {
                continue;
            };
            let bytes = numbers.bytes();
            let needed = stored.form.length(stored.rows.len());
            let (answer, buffer) = written_in(Some(stored.form), &stored, needed + 3);
            assert_eq!(answer, Ok(needed));
            assert_eq!(buffer[needed..], [0xEE; 3]);
            assert_eq!(read(&buffer[..needed]), Ok(stored.clone()), "{}", numbers.from);
            if bytes.len() == needed {
                seen += 1;
                assert_eq!(buffer[..needed], bytes, "{}", numbers.from);
            }
            for length in [0, 1, needed - 1] {
                let refused = (Err(refused(16)), vec![0xEE; length]);
                assert_eq!(written_in(Some(stored.form), &stored, length), refused);
            }
        }
        assert!(seen >= 5);
    }

    #[test]
    fn no_form_is_refused_before_all() {
        let bad = Stored::of(Form::One, &[(1, 0, 0, 0, 5)]);
        assert_eq!(written_in(None, &bad, 0), (Err(refused(3)), vec![]));
        assert_eq!(written_in(None, &bad, 40), (Err(refused(3)), vec![0xEE; 40]));
        let answer = write_stored(None, 65, &[], &[], &mut []);
        assert_eq!(answer, Err(refused(3)));
        for form in FORMS {
            let answer = write_stored(Some(form), 65, &[], &[], &mut []);
            assert_eq!(answer, Err(refused(4)));
        }
    }

    #[test]
    fn first_releases_have_no_room_in_form_one() {
        let with = |firsts: [u32; 3]| {
            let records = [1, 2, 3].map(|id: u16| (id, 1, 2, 1, firsts[usize::from(id) - 1]));
            Stored::of(Form::One, &records)
        };
        for length in [0, 43, 44, 100] {
            let refusal = |firsts| {
                let (answer, buffer) = written_in(Some(Form::One), &with(firsts), length);
                assert_eq!(buffer, vec![0xEE; length]);
                answer.unwrap_err()
            };
            assert_eq!(refusal([1, 0, 0]), refused_at(18, 0));
            assert_eq!(refusal([0, 256, 7]), refused_at(18, 1));
            assert_eq!(refusal([0, 0, 1 << 24]), refused_at(18, 2));
        }
        assert_eq!(written_in(Some(Form::One), &with([0; 3]), 44).0, Ok(44));
        assert_eq!(written_in(Some(Form::Two), &with([1, 2, 3]), 56).0, Ok(56));
        assert_eq!(written_in(Some(Form::Two), &with([1, 2, 3]), 55).0, Err(refused(16)));
    }

    #[test]
    fn rows_are_checked_before_first_releases() {
        let bad = Stored::of(Form::One, &[(1, 1, 2, 1, 5), (1, 1, 2, 1, 0)]);
        assert_eq!(written_in(Some(Form::One), &bad, 0).0, Err(refused_at(9, 1)));
        let mut buffer = [0xEE; 20];
        let answer = write_stored(Some(Form::One), 1, &bad.rows, &[0, 9], &mut buffer);
        assert_eq!(answer, Ok(20), "what is beyond the count is not read");
    }
}
