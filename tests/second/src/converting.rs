//! Stored bytes of one form converted to the other: refusal 3 for a mark that is not that of the form told.

use crate::forms::Form;
use crate::reading::read_as;
use crate::tables::Refusal;
use crate::writing::write_stored;

/// Reads bytes of the form told and no other, and writes what they hold in the other form, without gap, at the start of
/// the buffer. Nothing is planned. Where no form is told, no mark is that of the form converted from.
///
/// From form one all first releases are 0; from form two 18, before 16, is one that form one has no room for. What is
/// refused leaves the buffer as it was.
pub fn convert(bytes: &[u8], from: Option<Form>, buffer: &mut [u8]) -> Result<usize, Refusal> {
    let stored = read_as(bytes, from.as_slice())?;
    let to = stored.form.other();
    write_stored(Some(to), stored.rows.len(), &stored.rows, &stored.firsts, buffer)
}

#[cfg(test)]
mod tests {
    use super::*;
    use crate::form_numbers::{CONVERSIONS, READS};
    use crate::forms::FORMS;
    use crate::reading::read;
    use crate::tables::refused;

    /// What converting to a buffer of so many bytes 0xEE answers, and the buffer afterwards.
    fn converted(bytes: &[u8], from: Option<Form>, length: usize) -> (Result<usize, Refusal>, Vec<u8>) {
        let mut buffer = vec![0xEE; length];
        let answer = convert(bytes, from, &mut buffer);
        (answer, buffer)
    }

    #[test]
    fn bytes_worked_out_by_hand() {
        for numbers in CONVERSIONS {
            let bytes = numbers.bytes();
            let answer = numbers.answer();
            for length in 0..60 {
                let (told, buffer) = converted(&bytes, Some(numbers.form), length);
                let mut expected = vec![0xEE; length];
                match &answer {
                    Ok(to) if to.len() <= length => {
                        assert_eq!(told, Ok(to.len()), "{}", numbers.from);
                        expected[..to.len()].copy_from_slice(to);
                    }
                    Ok(_) => assert_eq!(told, Err(refused(16)), "{}", numbers.from),
                    Err(refusal) => assert_eq!(told, Err(*refusal), "{}", numbers.from),
                }
                assert_eq!(buffer, expected, "{}", numbers.from);
            }
        }
    }

    #[test]
    fn back_and_forth() {
        let mut same = 0;
        for numbers in READS.iter().filter(|numbers| numbers.answer().is_ok()) {
            let bytes = numbers.bytes();
            let form = read(&bytes).unwrap().form;
            let (Ok(length), there) = converted(&bytes, Some(form), 100) else {
                continue;
            };
            let (answer, back) = converted(&there[..length], Some(form.other()), 100);
            let back = &back[..answer.unwrap()];
            assert_eq!(read(back), read(&bytes), "{}", numbers.from);
            same += usize::from(back == bytes);
            assert_eq!(back == bytes, back.len() == bytes.len(), "{}", numbers.from);
        }
        assert!(same >= 3);
    }

    #[test]
    fn no_form_gets_3_after_1_and_2() {
        for numbers in READS {
            let (answer, buffer) = converted(&numbers.bytes(), None, 30);
            let number = answer.unwrap_err().number;
            let read_number = numbers.answer().map_or_else(|refusal| refusal.number, |_| 0);
            let expected = if read_number == 1 || read_number == 2 {
                read_number
            } else {
                3
            };
            assert_eq!(number, expected, "{}", numbers.from);
            assert_eq!(buffer, [0xEE; 30]);
        }
    }

    #[test]
    fn what_does_not_read_is_refused_as_in_reading() {
        for numbers in READS {
            let bytes = numbers.bytes();
            let (Err(refusal), Some(form)) = (numbers.answer(), Form::with_mark(&bytes[bytes.len() - 2..])) else {
                continue;
            };
            assert_eq!(converted(&bytes, Some(form), 0).0, Err(refusal), "{}", numbers.from);
        }
        for form in FORMS {
            assert_eq!(converted(&[], Some(form), 0).0, Err(refused(1)));
        }
    }
}
