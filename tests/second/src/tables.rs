//! Object rows, refusals, and the checks on rows: refusals 4 and 6 to 9. The second door is one of them.

use std::ops::RangeInclusive;

/// The most objects a table holds.
pub const MOST_OBJECTS: usize = 64;
/// The most bytes a stored table or a sheet may have, all together.
pub const MOST_BYTES: usize = 4096;
/// The range of a cost.
pub const COST: RangeInclusive<u32> = 1..=1_000_000;
/// The range of a validity.
pub const VALIDITY: RangeInclusive<u32> = 2..=1_000_000;
/// The longest hold, and the longest that the two bytes of a record can tell.
pub const MOST_HOLD: u32 = 65_536;

/// An object row: what a table says of one object.
#[derive(Clone, Copy, PartialEq, Eq, Debug, Default)]
pub struct ObjectRow {
    pub id: u16,
    pub cost: u32,
    pub validity: u32,
    /// How many units a job of it does at a stretch, once it has done the first of them.
    pub hold: u32,
}

impl ObjectRow {
    /// A row as 01 has it: its hold of 1 keeps nobody waiting.
    pub const fn plain(id: u16, cost: u32, validity: u32) -> ObjectRow {
        ObjectRow::held(id, cost, validity, 1)
    }

    pub const fn held(id: u16, cost: u32, validity: u32, hold: u32) -> ObjectRow {
        ObjectRow {
            id,
            cost,
            validity,
            hold,
        }
    }
}

/// The holds that an object of this cost may have: none, if the cost is 0.
pub fn holds(cost: u32) -> RangeInclusive<u32> {
    1..=cost.min(MOST_HOLD)
}

/// A refusal: its number and the place told.
#[derive(Clone, Copy, PartialEq, Eq, Debug)]
pub struct Refusal {
    pub number: u32,
    pub place: u32,
}

/// A refusal that tells no place, which is place 0.
pub fn refused(number: u32) -> Refusal {
    Refusal { number, place: 0 }
}

/// A refusal that tells a place.
pub fn refused_at(number: u32, place: usize) -> Refusal {
    Refusal {
        number,
        place: place as u32,
    }
}

/// The rows in use of a table that comes from outside: checks 4, 7, 6, 8 and 9. What is beyond the count is not
/// read.
///
/// The second door is this with the length of the list as the count.
pub fn check_table(count: usize, rows: &[ObjectRow]) -> Result<&[ObjectRow], Refusal> {
    if count == 0 || count > MOST_OBJECTS {
        return Err(refused(4));
    }
    let used = &rows[..count];
    for place in 0..count {
        check_row(used[place], &used[..place])?;
    }
    Ok(used)
}

/// Checks 7, 6, 8 and 9, in this order, on the row that comes after the earlier ones.
pub fn check_row(row: ObjectRow, earlier: &[ObjectRow]) -> Result<(), Refusal> {
    let place = earlier.len();
    if !COST.contains(&row.cost) {
        return Err(refused_at(7, place));
    }
    if !holds(row.cost).contains(&row.hold) {
        return Err(refused_at(6, place));
    }
    if !VALIDITY.contains(&row.validity) {
        return Err(refused_at(8, place));
    }
    if earlier.iter().any(|other| other.id == row.id) {
        return Err(refused_at(9, place));
    }
    Ok(())
}

#[cfg(test)]
mod tests {
    use super::*;

    fn row(id: u16, cost: u32, validity: u32) -> ObjectRow {
        ObjectRow::plain(id, cost, validity)
    }

    #[test]
    fn ranges_of_cost_and_validity() {
        let alone = |cost, validity| check_table(1, &[row(0, cost, validity)]).map(|_| ());
        assert_eq!(alone(1, 2), Ok(()));
        assert_eq!(alone(1_000_000, 1_000_000), Ok(()));
        assert_eq!(alone(0, 2), Err(refused(7)));
        assert_eq!(alone(1_000_001, 2), Err(refused(7)));
        assert_eq!(alone(1, 1), Err(refused(8)));
        assert_eq!(alone(1, 1_000_001), Err(refused(8)));
    }

    #[test]
    fn ranges_of_holds_in_memory() {
        let alone = |cost, hold| check_table(1, &[ObjectRow::held(0, cost, 2, hold)]).map(|_| ());
        for (cost, most) in [
            (1, 1),
            (7, 7),
            (65_535, 65_535),
            (65_536, 65_536),
            (65_537, 65_536),
            (1_000_000, 65_536),
        ] {
            assert_eq!(alone(cost, 1), Ok(()));
            assert_eq!(alone(cost, most), Ok(()));
            assert_eq!(alone(cost, 0), Err(refused(6)));
            assert_eq!(alone(cost, most + 1), Err(refused(6)));
            assert_eq!(alone(cost, 65_537), Err(refused(6)));
            assert_eq!(alone(cost, u32::MAX), Err(refused(6)));
        }
        assert_eq!(alone(0, 0), Err(refused(7)), "7 comes before 6");
        assert_eq!(
            check_table(1, &[ObjectRow::held(0, 1, 0, 2)]),
            Err(refused(6)),
            "6 comes before 8"
        );
    }

    #[test]
    fn the_second_door() {
        assert_eq!(check_table(0, &[]), Err(refused(4)));
        let many: Vec<ObjectRow> = (0..65).map(|id| row(id, 1, 10)).collect();
        assert_eq!(check_table(65, &many), Err(refused(4)));
        assert_eq!(check_table(64, &many), Ok(&many[..64]));
        let twice = [row(1, 1, 9), row(2, 1, 9), row(1, 1, 9)];
        assert_eq!(check_table(3, &twice), Err(refused_at(9, 2)));
        assert_eq!(check_table(2, &twice), Ok(&twice[..2]), "what is beyond the count");
    }
}
