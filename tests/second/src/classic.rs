//! The classic plan, Half-Half: deadline and period are both half the validity, rounded down. Request 5.

use crate::planning::{ranked, smallest_balance, PlanRow};
use crate::tables::{refused_at, ObjectRow, Refusal};

/// Plans a table the classic way: checks 4, 7, 6, 8 and 9, then each object in the same order as in our plan. The first
/// object that does not fit has its place told with 10.
pub fn plan_classic(count: usize, rows: &[ObjectRow]) -> Result<Vec<PlanRow>, Refusal> {
    let ordered = ranked(count, rows)?;
    let mut planned = Vec::new();
    for (place, row) in ordered.iter().enumerate() {
        if !fits(row, &planned, &ordered[place + 1..]) {
            return Err(refused_at(10, place));
        }
        planned.push(with_halves(row));
    }
    Ok(planned)
}

/// An object fits if the smallest t that balances with the half periods ahead, and with the same wait for a hold behind
/// as in our plan, is at most its half. As t is whole, that says the same as twice t being at most the validity.
fn fits(row: &ObjectRow, ahead: &[PlanRow], behind: &[ObjectRow]) -> bool {
    smallest_balance(row, ahead, behind).is_some()
}

fn with_halves(row: &ObjectRow) -> PlanRow {
    let half = row.validity / 2;
    PlanRow::of(row, half, half)
}

#[cfg(test)]
mod tests {
    use super::*;
    use crate::held_numbers::{every_short_object, HELD};
    use crate::numbers::CLASSIC_PLANS;
    use crate::planning::plan;

    #[test]
    fn the_papers_numbers() {
        for numbers in CLASSIC_PLANS {
            let mut rows = numbers.rows();
            assert_eq!(plan_classic(rows.len(), &rows), numbers.plan(), "{}", numbers.from);
            rows.reverse();
            assert_eq!(plan_classic(rows.len(), &rows), numbers.plan(), "{}", numbers.from);
        }
    }

    #[test]
    fn numbers_with_holds() {
        for numbers in HELD {
            let mut rows = numbers.rows();
            assert_eq!(plan_classic(rows.len(), &rows), numbers.half_half(), "{}", numbers.from);
            rows.reverse();
            assert_eq!(plan_classic(rows.len(), &rows), numbers.half_half(), "{}", numbers.from);
        }
    }

    #[test]
    fn rows_are_checked_as_for_our_plan() {
        let row = ObjectRow::held;
        let bad = [
            row(1, 0, 1, 0),
            row(1, 1, 1, 2),
            row(1, 1, 1, 1),
            row(1, 1, 9, 1),
            row(1, 1, 9, 1),
        ];
        for (count, from) in [(0, 0), (65, 0), (5, 0), (4, 1), (3, 2), (2, 3)] {
            let rows = &bad[from..];
            assert!(plan_classic(count, rows).is_err());
            assert_eq!(plan_classic(count, rows), plan(count, rows));
        }
    }

    /// The request word by word: every t from 1 to the half.
    fn fits_by_every_t(place: usize, ordered: &[ObjectRow]) -> bool {
        let row = ordered[place];
        let (ahead, behind) = (&ordered[..place], &ordered[place + 1..]);
        let added = behind.iter().map(|other| other.hold - 1).max().unwrap_or(0);
        let balances = |t: u32| {
            let asked = |other: &ObjectRow| t.div_ceil(other.validity / 2) * other.cost;
            t == row.cost + added + ahead.iter().map(asked).sum::<u32>()
        };
        (1..=row.validity / 2).any(balances)
    }

    #[test]
    fn every_table_of_three_short_objects() {
        let short = every_short_object(16);
        let (mut planned, mut refused) = (0, 0);
        for first in &short {
            for second in &short {
                for third in &short {
                    let rows = [(1, first), (2, second), (3, third)]
                        .map(|(id, &(cost, validity, hold))| ObjectRow::held(id, cost, validity, hold));
                    let ordered = ranked(3, &rows).unwrap();
                    let expected = match (0..3).find(|place| !fits_by_every_t(*place, &ordered)) {
                        None => Ok(ordered.iter().map(with_halves).collect()),
                        Some(place) => Err(refused_at(10, place)),
                    };
                    assert_eq!(plan_classic(3, &rows), expected, "{rows:?}");
                    *if expected.is_ok() { &mut planned } else { &mut refused } += 1;
                }
            }
        }
        assert!(planned > 10_000 && refused > 10_000, "{planned} and {refused}");
    }
}
