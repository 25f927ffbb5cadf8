//! A start from stored bytes of either form: refusals as in reading, then 10 and 12.

use crate::planning::ranked;
use crate::reading::read;
use crate::running::Run;
use crate::tables::Refusal;

/// Reads the bytes, plans what they hold and starts a run of it, each object with the first release of its record. Form
/// one tells none, and starts with 0.
///
/// The first releases stand in the order of the records and a start takes them in priority order. There are as many as
/// objects, so 11 is not met.
pub fn start_stored(bytes: &[u8], clock: u32) -> Result<Run, Refusal> {
    let stored = read(bytes)?;
    let count = stored.rows.len();
    let ordered = ranked(count, &stored.rows)?;
    let firsts: Vec<u32> = ordered.iter().map(|row| stored.first_of(row.id)).collect();
    Run::start(count, &stored.rows, clock, &firsts)
}

#[cfg(test)]
mod tests {
    use super::*;
    use crate::form_numbers::{READS, STARTS};
    use crate::states::shown;

    #[test]
    fn bytes_worked_out_by_hand() {
        for numbers in STARTS {
            let run = start_stored(&numbers.bytes(), numbers.clock);
            let told = run.map(|run| {
                let state = shown(&run);
                assert_eq!(state.clock, numbers.clock);
                let rows = state.rows[..state.count].iter();
                rows.map(|row| (row.planned.id, row.next)).collect::<Vec<(u16, u32)>>()
            });
            assert_eq!(told, numbers.answer().map(<[_]>::to_vec), "{}", numbers.from);
        }
    }

    #[test]
    fn what_does_not_read_is_refused_as_in_reading() {
        for numbers in READS {
            if let Err(refusal) = numbers.answer() {
                assert_eq!(start_stored(&numbers.bytes(), 5), Err(refusal), "{}", numbers.from);
            }
        }
    }
}
