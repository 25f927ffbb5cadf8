//! The reseller's sheet: lines of id, cost, validity and hold, separated by commas and each ended by CR LF. Refusal 17.

use std::str::{self, FromStr};

use crate::tables::{check_table, refused, refused_at, ObjectRow, Refusal, MOST_BYTES};
use crate::writing::put;

/// What ends every line.
const END: &str = "\r\n";

/// Reads a sheet: 2, then 17 on every line there is, then 4, then 7, 6, 8 and 9 row by row.
pub fn import(bytes: &[u8]) -> Result<Vec<ObjectRow>, Refusal> {
    if bytes.len() > MOST_BYTES {
        return Err(refused(2));
    }
    let mut rows = Vec::new();
    for (place, line) in lines(bytes).into_iter().enumerate() {
        rows.push(row(line).ok_or(refused_at(17, place))?);
    }
    check_table(rows.len(), &rows)?;
    Ok(rows)
}

/// Writes a table as a sheet at the start of the buffer and tells how many bytes that takes. Checks 4, 7, 6, 8 and 9,
/// then 16; what is refused leaves the buffer as it was.
pub fn export(count: usize, rows: &[ObjectRow], buffer: &mut [u8]) -> Result<usize, Refusal> {
    let used = check_table(count, rows)?;
    put(sheet(used).as_bytes(), buffer)
}

/// The sheet of these rows, good or bad.
pub fn sheet(rows: &[ObjectRow]) -> String {
    let line = |row: &ObjectRow| format!("{},{},{},{}{END}", row.id, row.cost, row.validity, row.hold);
    rows.iter().map(line).collect()
}

/// The lines, each with the CR LF that ends it. What comes after the last CR LF, if anything, is a line without one.
pub fn lines(bytes: &[u8]) -> Vec<&[u8]> {
    let mut lines = Vec::new();
    let mut rest = bytes;
    while !rest.is_empty() {
        let end = rest.windows(END.len()).position(|pair| pair == END.as_bytes());
        let (line, after) = rest.split_at(end.map_or(rest.len(), |at| at + END.len()));
        lines.push(line);
        rest = after;
    }
    lines
}

/// The row of a line, or none where it is not of the form.
fn row(line: &[u8]) -> Option<ObjectRow> {
    let fields: Vec<&str> = str::from_utf8(line).ok()?.strip_suffix(END)?.split(',').collect();
    let [id, cost, validity, hold] = fields[..] else {
        return None;
    };
    Some(ObjectRow {
        id: number(id)?,
        cost: number(cost)?,
        validity: number(validity)?,
        hold: number(hold)?,
    })
}

/// The number of a field, if that is just how the number is printed: digits alone, no leading zero, and not too many of
/// them for its kind, 16 bits or 32.
fn number<N: FromStr + ToString>(field: &str) -> Option<N> {
    let number: N = field.parse().ok()?;
    (number.to_string() == field).then_some(number)
}

#[cfg(test)]
mod tests {
    use super::*;

    fn row(id: u16, cost: u32, validity: u32) -> ObjectRow {
        ObjectRow::plain(id, cost, validity)
    }

    fn refusal(bytes: impl AsRef<[u8]>) -> Refusal {
        import(bytes.as_ref()).unwrap_err()
    }

    /// So many lines, each of them good.
    fn good_lines(count: usize) -> String {
        (0..count).map(|id| format!("{id},1,2,1\r\n")).collect()
    }

    #[test]
    fn a_sheet() {
        let rows = vec![
            row(40, 1, 20),
            ObjectRow::held(0, 1_000_000, 2, 65_536),
            ObjectRow::held(65_535, 10, 1_000_000, 10),
        ];
        let text = "40,1,20,1\r\n0,1000000,2,65536\r\n65535,10,1000000,10\r\n";
        assert_eq!(import(text.as_bytes()), Ok(rows.clone()));
        assert_eq!(sheet(&rows), text);
    }

    #[test]
    fn fields_that_are_not_of_the_form() {
        for field in [
            "",
            "00",
            "01",
            "+1",
            "-1",
            "-0",
            " 1",
            "1 ",
            "\"1\"",
            "1.0",
            "1e1",
            "0x1",
            "1;",
            "a",
            "\t1",
            "1\0",
            "\u{FF11}",
            "\u{0663}",
            "99999999999999999999999999999999999999999999999999",
        ] {
            for line in [
                format!("{field},1,2,1\r\n"),
                format!("1,{field},2,1\r\n"),
                format!("1,1,{field},1\r\n"),
                format!("1,1,2,{field}\r\n"),
            ] {
                assert_eq!(refusal(&line), refused_at(17, 0), "{line:?}");
                assert_eq!(refusal(good_lines(5) + &line), refused_at(17, 5), "{line:?}");
                assert_eq!(refusal(line.clone() + &good_lines(70)), refused_at(17, 0), "{line:?}");
            }
        }
    }

    #[test]
    fn lines_that_are_not_of_the_form() {
        for line in [
            "\r\n",
            ",\r\n",
            ",,\r\n",
            "1\r\n",
            "1,1\r\n",
            "1,1,2\r\n",
            "1,1,2,\r\n",
            "1,1,2,1,\r\n",
            ",1,1,2,1\r\n",
            ",1,1,2\r\n",
            "1,1,2,1,1\r\n",
            "1,1,2,1\r\r\n",
            "1,1,2,1\n\r\n",
            "1,1\r\n,2,1\r\n",
            "1,1,2\r\n,1\r\n",
            "1;1;2;1\r\n",
            "id,cost,validity,hold\r\n",
        ] {
            assert_eq!(refusal(line), refused_at(17, 0), "{line:?}");
            assert_eq!(
                refusal(good_lines(3) + line + &good_lines(3)),
                refused_at(17, 3),
                "{line:?}"
            );
        }
        assert_eq!(refusal(b"1,1,\xFF2,1\r\n"), refused_at(17, 0));
    }

    #[test]
    fn lines_that_are_not_ended() {
        for end in ["", "\r", "\n", "\n\r", " "] {
            let line = format!("9,1,2,1{end}");
            assert_eq!(refusal(&line), refused_at(17, 0), "{line:?}");
            assert_eq!(refusal(good_lines(3) + &line), refused_at(17, 3), "{line:?}");
            assert_eq!(refusal(line.clone() + &good_lines(3)), refused_at(17, 0), "{line:?}");
        }
        for left_over in ["\r", "\n", "\r\n", "0", "\u{1A}"] {
            assert_eq!(refusal(good_lines(2) + left_over), refused_at(17, 2), "{left_over:?}");
        }
    }

    #[test]
    fn numbers_at_their_limits() {
        assert_eq!(import(b"65535,1,2,1\r\n"), Ok(vec![row(65_535, 1, 2)]));
        assert_eq!(refusal("65536,1,2,1\r\n"), refused_at(17, 0));
        assert_eq!(refusal("1,4294967295,2,1\r\n"), refused(7));
        assert_eq!(refusal("1,4294967296,2,1\r\n"), refused_at(17, 0));
        assert_eq!(refusal("1,1,4294967295,1\r\n"), refused(8));
        assert_eq!(refusal("1,1,4294967296,1\r\n"), refused_at(17, 0));
        assert_eq!(refusal("1,0,2,1\r\n"), refused(7));
        assert_eq!(refusal("1,1,0,1\r\n"), refused(8));
    }

    #[test]
    fn holds_at_their_limits() {
        assert_eq!(
            import(b"1,65536,2,65536\r\n"),
            Ok(vec![ObjectRow::held(1, 65_536, 2, 65_536)])
        );
        assert_eq!(refusal("1,65537,2,65537\r\n"), refused(6));
        assert_eq!(import(b"1,7,2,7\r\n"), Ok(vec![ObjectRow::held(1, 7, 2, 7)]));
        assert_eq!(refusal("1,7,2,8\r\n"), refused(6));
        assert_eq!(refusal("1,7,2,0\r\n"), refused(6));
        assert_eq!(refusal("1,1,2,4294967295\r\n"), refused(6));
        assert_eq!(refusal("1,1,2,4294967296\r\n"), refused_at(17, 0));
    }

    #[test]
    fn counts_at_their_limits() {
        assert_eq!(refusal(""), refused(4));
        assert_eq!(import(good_lines(64).as_bytes()).map(|rows| rows.len()), Ok(64));
        assert_eq!(refusal(good_lines(65)), refused(4));
        let mut bad = good_lines(70);
        bad.push_str("1,2,3\r\n");
        assert_eq!(refusal(bad), refused_at(17, 70), "17 of every line comes before 4");
        assert_eq!(
            refusal("1,0,2,1\r\n".repeat(65)),
            refused(4),
            "4 comes before 7, 6, 8 and 9"
        );
    }

    #[test]
    fn lengths_at_their_limits() {
        assert_eq!(refusal("1".repeat(4096)), refused_at(17, 0));
        assert_eq!(refusal("1".repeat(4097)), refused(2));
        assert_eq!(refusal(format!("1,1,2,{}\r\n", "9".repeat(4088))), refused_at(17, 0));
        let full = "0,0,0,0\r\n".repeat(455) + "\r";
        assert_eq!(full.len(), 4096);
        assert_eq!(refusal(&full), refused_at(17, 455));
        assert_eq!(refusal(full + "\n"), refused(2), "2 comes before 17");
    }

    #[test]
    fn faults_of_rows_after_all_lines() {
        assert_eq!(refusal("1,1,2,1\r\n1,0,1,0\r\n"), refused_at(7, 1));
        assert_eq!(refusal("1,1,2,1\r\n1,1,1,0\r\n"), refused_at(6, 1));
        assert_eq!(refusal("1,1,2,1\r\n1,1,1,1\r\n"), refused_at(8, 1));
        assert_eq!(refusal("1,1,2,1\r\n1,1,2,1\r\n2,0,0,0\r\n"), refused_at(9, 1));
        assert_eq!(
            refusal("1,0,2,1\r\n2,01,2,1\r\n"),
            refused_at(17, 1),
            "17 comes before 7"
        );
    }

    #[test]
    fn a_buffer_too_small_exact_and_larger() {
        let rows = [ObjectRow::held(1, 10, 200, 10), row(2, 1, 2)];
        let text = "1,10,200,10\r\n2,1,2,1\r\n";
        for length in [0, 1, 7, 10, text.len() - 1] {
            let mut buffer = vec![0xEE; length];
            assert_eq!(export(2, &rows, &mut buffer), Err(refused(16)));
            assert_eq!(buffer, vec![0xEE; length]);
        }
        for more in [0, 1, 9] {
            let mut buffer = vec![0xEE; text.len() + more];
            assert_eq!(export(2, &rows, &mut buffer), Ok(text.len()));
            assert_eq!(buffer[..text.len()], *text.as_bytes());
            assert_eq!(buffer[text.len()..], vec![0xEE; more]);
        }
    }

    #[test]
    fn an_export_refused_for_its_rows_leaves_the_buffer_untouched() {
        for (count, rows, refusal) in [
            (0, vec![], refused(4)),
            (65, vec![row(1, 1, 2); 65], refused(4)),
            (2, vec![row(1, 1, 2), row(2, 0, 0)], refused_at(7, 1)),
            (2, vec![row(1, 1, 2), ObjectRow::held(2, 1, 1, 0)], refused_at(6, 1)),
            (2, vec![row(1, 1, 2), row(2, 1, 1)], refused_at(8, 1)),
            (2, vec![row(1, 1, 2), row(1, 1, 2)], refused_at(9, 1)),
        ] {
            for length in [0, 3000] {
                let mut buffer = vec![0xEE; length];
                assert_eq!(export(count, &rows, &mut buffer), Err(refusal));
                assert_eq!(buffer, vec![0xEE; length]);
            }
        }
    }

    #[test]
    fn the_longest_sheet() {
        let rows: Vec<ObjectRow> = (0..64)
            .map(|k| ObjectRow::held(65_535 - k, 1_000_000, 1_000_000, 65_536))
            .collect();
        assert_eq!(sheet(&rows).len(), 1856);
        assert_eq!(export(64, &rows, &mut [0; 1856]), Ok(1856));
        assert_eq!(export(64, &rows, &mut [0; 1855]), Err(refused(16)));
    }

    #[test]
    fn both_ways_round() {
        let rows: Vec<ObjectRow> = (0..64)
            .map(|k| {
                ObjectRow::held(
                    65_535 - 1000 * k,
                    1 << (k % 20),
                    1_000_000 >> (k % 19),
                    1 << (k % 17).min(k % 20),
                )
            })
            .collect();
        for count in 1..=64 {
            let mut buffer = [0; 2000];
            let length = export(count, &rows, &mut buffer).unwrap();
            let again = import(&buffer[..length]).unwrap();
            assert_eq!(again, rows[..count]);
            assert_eq!(sheet(&again).as_bytes(), &buffer[..length]);
        }
    }
}
