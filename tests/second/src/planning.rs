//! The order of objects, and their deadlines and periods: refusal 10.

use std::cmp::Reverse;

use crate::tables::{check_table, refused_at, ObjectRow, Refusal};

/// A row of a plan: an object row with its deadline and period.
#[derive(Clone, Copy, PartialEq, Eq, Debug, Default)]
pub struct PlanRow {
    pub id: u16,
    pub cost: u32,
    pub validity: u32,
    pub hold: u32,
    pub deadline: u32,
    pub period: u32,
}

impl PlanRow {
    /// An object row with these for its deadline and period.
    pub fn of(row: &ObjectRow, deadline: u32, period: u32) -> PlanRow {
        PlanRow {
            id: row.id,
            cost: row.cost,
            validity: row.validity,
            hold: row.hold,
            deadline,
            period,
        }
    }
}

/// Plans a table: checks 4, 7, 6, 8 and 9 again, then a deadline and period for each object in priority order. The
/// first object without a deadline has its place told.
pub fn plan(count: usize, rows: &[ObjectRow]) -> Result<Vec<PlanRow>, Refusal> {
    let ordered = ranked(count, rows)?;
    let mut planned = Vec::new();
    for (place, row) in ordered.iter().enumerate() {
        let behind = &ordered[place + 1..];
        let deadline = smallest_balance(row, &planned, behind).ok_or(refused_at(10, place))?;
        planned.push(PlanRow::of(row, deadline, row.validity - deadline));
    }
    Ok(planned)
}

/// The rows in priority order, in which the places of 10 and 12 are told: checks 4, 7, 6, 8 and 9 alone.
pub fn ranked(count: usize, rows: &[ObjectRow]) -> Result<Vec<ObjectRow>, Refusal> {
    check_table(count, rows).map(in_priority_order)
}

/// Shortest validity first; of equal validities the larger cost, which has less slack; then the smaller id. The hold
/// has no say in it.
fn in_priority_order(rows: &[ObjectRow]) -> Vec<ObjectRow> {
    let mut ordered = rows.to_vec();
    ordered.sort_by_key(|row| (row.validity, Reverse(row.cost), row.id));
    ordered
}

/// The smallest t, at least 1, that balances, if twice t is at most the validity.
///
/// The search does not try every t. While t is below its demand it goes on at the demand, and misses nothing by that:
/// the demand never falls as t grows, since no part of it does, so each t' from t up to but not including demand(t) has
/// demand(t') >= demand(t) > t' and does not balance. Nor is t ever above its demand: it begins at 1, which no demand
/// is below, and each later t is the demand of a smaller one and so no larger than its own.
pub(crate) fn smallest_balance(row: &ObjectRow, ahead: &[PlanRow], behind: &[ObjectRow]) -> Option<u32> {
    let mut t = 1;
    while 2 * t <= u64::from(row.validity) {
        let needed = demand(row, ahead, behind, t);
        assert!(needed >= t, "the search has gone past a t that balances");
        if needed == t {
            return Some(t as u32);
        }
        t = needed;
    }
    None
}

/// The cost of the object, the longest wait for a hold, and for each object ahead its cost as often as it is released
/// in t slots.
fn demand(row: &ObjectRow, ahead: &[PlanRow], behind: &[ObjectRow], t: u64) -> u64 {
    let of_those_ahead: u64 = ahead
        .iter()
        .map(|other| t.div_ceil(u64::from(other.period)) * u64::from(other.cost))
        .sum();
    u64::from(row.cost) + longest_wait(behind) + of_those_ahead
}

/// How long one of these can keep an object ahead of it waiting: it has done its first unit when that is released, and
/// does the others of its hold. Only one of them can be so far, so the largest counts and not the sum.
fn longest_wait(behind: &[ObjectRow]) -> u64 {
    let waits = behind.iter().map(|other| u64::from(other.hold) - 1);
    waits.max().unwrap_or(0)
}

#[cfg(test)]
mod tests {
    use super::*;
    use crate::held_numbers::HELD;
    use crate::numbers::PLANS;
    use crate::tables::refused;

    fn row(id: u16, cost: u32, validity: u32) -> ObjectRow {
        ObjectRow::plain(id, cost, validity)
    }

    /// The definition word by word: every t from 1 on.
    fn deadline_by_every_t(row: &ObjectRow, ahead: &[PlanRow], behind: &[ObjectRow]) -> Option<u32> {
        let added = behind.iter().map(|other| other.hold - 1).max().unwrap_or(0);
        let balances = |t: &u32| {
            let asked = |other: &PlanRow| t.div_ceil(other.period) * other.cost;
            *t == row.cost + added + ahead.iter().map(asked).sum::<u32>()
        };
        (1..=row.validity / 2).find(balances)
    }

    #[test]
    fn the_papers_numbers() {
        for numbers in PLANS {
            let rows = numbers.rows();
            assert_eq!(plan(rows.len(), &rows), numbers.plan(), "{}", numbers.from);
        }
    }

    #[test]
    fn numbers_with_holds() {
        for numbers in HELD {
            let mut rows = numbers.rows();
            assert_eq!(plan(rows.len(), &rows), numbers.more_less(), "{}", numbers.from);
            rows.reverse();
            assert_eq!(plan(rows.len(), &rows), numbers.more_less(), "{}", numbers.from);
            assert_eq!(ranked(rows.len(), &rows), Ok(numbers.rows()), "{}", numbers.from);
        }
    }

    #[test]
    fn the_order_of_the_records_does_not_matter() {
        for numbers in PLANS {
            let mut rows = numbers.rows();
            rows.reverse();
            assert_eq!(plan(rows.len(), &rows), numbers.plan(), "{}", numbers.from);
            assert_eq!(ranked(rows.len(), &rows), Ok(numbers.rows()), "{}", numbers.from);
        }
    }

    #[test]
    fn the_first_object_without_a_deadline_is_told_by_its_place_in_priority_order() {
        // By rows the last is without a deadline and by priority the middle one; the slowest is without one too.
        let rows = [row(1, 90, 100), row(2, 1, 10), row(3, 21, 40)];
        assert_eq!(plan(3, &rows), Err(refused_at(10, 1)));
        let order: Vec<u16> = ranked(3, &rows).unwrap().iter().map(|row| row.id).collect();
        assert_eq!(order, [2, 3, 1]);
        assert_eq!(ranked(2, &[row(1, 1, 9), row(1, 1, 8)]), Err(refused_at(9, 1)));
    }

    #[test]
    fn objects_behind_change_nothing_unless_they_have_a_hold() {
        let ahead = [row(1, 1, 10), ObjectRow::held(2, 3, 40, 3)];
        let with = |behind: ObjectRow| plan(3, &[ahead[0], ahead[1], behind]).unwrap()[..2].to_vec();
        let alone = plan(2, &ahead).unwrap();
        assert_eq!(with(row(3, 1, 90)), alone);
        assert_eq!(with(row(3, 20, 100)), alone);
        // The first waits for the second already, and the second for none.
        let longer = with(ObjectRow::held(3, 20, 100, 3));
        assert_eq!(longer[0], alone[0]);
        assert_eq!(longer[1].deadline, alone[1].deadline + 2);
    }

    #[test]
    fn holds_are_checked_before_anything_is_planned() {
        for hold in [0, 4, 65_537, u32::MAX] {
            // The first row is without a deadline, and 10 comes after 6.
            let rows = [row(1, 90, 100), ObjectRow::held(2, 3, 200, hold)];
            assert_eq!(plan(2, &rows), Err(refused_at(6, 1)));
            assert_eq!(ranked(2, &rows), Err(refused_at(6, 1)));
        }
        let longest = |hold| plan(1, &[ObjectRow::held(1, 65_537, 200_000, hold)]).map(|planned| planned[0].hold);
        assert_eq!(longest(65_536), Ok(65_536));
        assert_eq!(longest(65_537), Err(refused(6)));
    }

    #[test]
    fn ties_go_to_the_larger_cost_then_the_smaller_id() {
        let rows = [
            row(9, 1, 50),
            row(3, 1, 50),
            ObjectRow::held(7, 2, 50, 1),
            row(8, 1, 49),
            ObjectRow::held(65535, 2, 50, 2),
        ];
        let planned = plan(5, &rows).unwrap();
        let ids: Vec<u16> = planned.iter().map(|row| row.id).collect();
        assert_eq!(ids, [8, 7, 65535, 3, 9]);
    }

    #[test]
    fn the_search_misses_no_smaller_deadline() {
        // Every table of three objects in a small range, without a generator to go wrong.
        let short = crate::held_numbers::every_short_object(16);
        let mut found = 0;
        let mut none = 0;
        for first in &short {
            for second in &short {
                for third in &short {
                    let rows = [(1, first), (2, second), (3, third)]
                        .map(|(id, &(cost, validity, hold))| ObjectRow::held(id, cost, validity, hold));
                    let ordered = in_priority_order(&rows);
                    let planned = until_one_has_none(&ordered);
                    found += planned.len();
                    none += 3 - planned.len();
                }
            }
        }
        assert!(found > 300_000 && none > 300_000, "{found} and {none}");
    }

    /// The plan of these rows up to the first without a deadline, each deadline found in both ways.
    fn until_one_has_none(ordered: &[ObjectRow]) -> Vec<PlanRow> {
        let mut planned = Vec::new();
        for (place, row) in ordered.iter().enumerate() {
            let behind = &ordered[place + 1..];
            let by_every_t = deadline_by_every_t(row, &planned, behind);
            assert_eq!(smallest_balance(row, &planned, behind), by_every_t, "{ordered:?}");
            let Some(deadline) = by_every_t else {
                break;
            };
            planned.push(PlanRow::of(row, deadline, row.validity - deadline));
        }
        planned
    }
}
