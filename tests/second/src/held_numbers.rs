//! Tables with holds and what both ways of planning make of them, worked out by hand from request 6. The request gives
//! no numbers of its own but one: with a hold of 1 everywhere those of `numbers` stand.

use crate::planning::PlanRow;
use crate::tables::{refused_at, ObjectRow, Refusal};

/// Answers (deadline, period) in priority order, or the place told with refusal 10.
type Answers = Result<&'static [(u32, u32)], usize>;

/// Objects (id, cost, validity, hold) in priority order, and the answers of both ways.
pub struct HeldNumbers {
    pub from: &'static str,
    pub objects: &'static [(u16, u32, u32, u32)],
    pub more_less: Answers,
    pub half_half: Answers,
}

impl HeldNumbers {
    /// The object rows, in priority order.
    pub fn rows(&self) -> Vec<ObjectRow> {
        let row = |&(id, cost, validity, hold): &(u16, u32, u32, u32)| ObjectRow::held(id, cost, validity, hold);
        self.objects.iter().map(row).collect()
    }

    /// Our plan, or refusal 10 with its place.
    pub fn more_less(&self) -> Result<Vec<PlanRow>, Refusal> {
        self.plan(self.more_less)
    }

    /// The classic plan, or refusal 10 with its place.
    pub fn half_half(&self) -> Result<Vec<PlanRow>, Refusal> {
        self.plan(self.half_half)
    }

    fn plan(&self, answers: Answers) -> Result<Vec<PlanRow>, Refusal> {
        let answers = answers.map_err(|place| refused_at(10, place))?;
        let rows = self.rows();
        assert_eq!(rows.len(), answers.len());
        let planned = rows.iter().zip(answers);
        Ok(planned
            .map(|(row, &(deadline, period))| PlanRow::of(row, deadline, period))
            .collect())
    }
}

/// The tables. Where nothing depends on the ids, they count up from 1.
pub const HELD: &[HeldNumbers] = &[
    HeldNumbers {
        // The first waits 4 for the second, and 1 + 4 is its half.
        from: "a hold that just fits",
        objects: &[(1, 1, 10, 1), (2, 9, 40, 5)],
        more_less: Ok(&[(5, 5), (12, 28)]),
        half_half: Ok(&[(5, 5), (20, 20)]),
    },
    HeldNumbers {
        from: "a hold that just does not fit",
        objects: &[(1, 1, 10, 1), (2, 9, 40, 6)],
        more_less: Err(0),
        half_half: Err(0),
    },
    HeldNumbers {
        // Its half is 1, and the first needs 2 slots.
        from: "000, Table 3, with a hold of 2",
        objects: &[(1, 1, 3, 1), (2, 2, 20, 2)],
        more_less: Err(0),
        half_half: Err(0),
    },
    HeldNumbers {
        // The last cost made 2. The second needs 1 + 1 + 1, and its half is 2.
        from: "000, Table 4, with a hold of 2",
        objects: &[(10, 1, 4, 1), (20, 1, 5, 1), (30, 1, 8, 1), (40, 2, 20, 2)],
        more_less: Err(1),
        half_half: Err(1),
    },
    HeldNumbers {
        // The last cost made 2.
        from: "000, Table 5, with a hold of 2",
        objects: &[(1, 1, 8, 1), (2, 1, 10, 1), (3, 2, 12, 2)],
        more_less: Ok(&[(2, 6), (3, 7), (4, 8)]),
        half_half: Ok(&[(4, 4), (5, 5), (6, 6)]),
    },
    HeldNumbers {
        // The last cost made 3. With halves the last needs 7 slots of its 6.
        from: "000, Table 5, with a hold of 3",
        objects: &[(1, 1, 8, 1), (2, 1, 10, 1), (3, 3, 12, 3)],
        more_less: Ok(&[(3, 5), (4, 6), (5, 7)]),
        half_half: Err(2),
    },
    HeldNumbers {
        // The holds shorten the periods ahead, so the last needs 10 slots where it needed 6; 10 is its half.
        from: "002, Figure 2, with holds of 2 and 12 made 20",
        objects: &[(1, 2, 8, 2), (2, 2, 10, 2), (3, 2, 20, 2)],
        more_less: Ok(&[(3, 5), (5, 5), (10, 10)]),
        half_half: Err(1),
    },
    HeldNumbers {
        from: "002, Figure 2, with holds of 2 and 12 made 19",
        objects: &[(1, 2, 8, 2), (2, 2, 10, 2), (3, 2, 19, 2)],
        more_less: Err(2),
        half_half: Err(1),
    },
    HeldNumbers {
        // The second has a hold but waits for none: behind it is a hold of 1. With halves the last needs 12 of its 10.
        from: "002, Figure 2, with holds of 2 on the first two and 12 made 20",
        objects: &[(1, 2, 8, 2), (2, 2, 10, 2), (3, 2, 20, 1)],
        more_less: Ok(&[(3, 5), (4, 6), (10, 10)]),
        half_half: Err(2),
    },
    HeldNumbers {
        // The largest of the holds behind counts, not the next one and not their sum.
        from: "several holds behind",
        objects: &[(1, 1, 20, 1), (2, 3, 40, 3), (3, 5, 60, 5), (4, 2, 80, 2)],
        more_less: Ok(&[(5, 15), (8, 32), (10, 50), (11, 69)]),
        half_half: Ok(&[(10, 10), (20, 20), (30, 30), (40, 40)]),
    },
    HeldNumbers {
        // The larger cost is first, and a hold ahead adds nothing.
        from: "a tie in validity",
        objects: &[(2, 3, 10, 3), (1, 1, 10, 1)],
        more_less: Ok(&[(3, 7), (4, 6)]),
        half_half: Ok(&[(5, 5), (5, 5)]),
    },
    HeldNumbers {
        // The smaller id is first, whichever hold is the larger.
        from: "a tie in validity and cost, the larger hold behind",
        objects: &[(1, 3, 20, 2), (2, 3, 20, 3)],
        more_less: Ok(&[(5, 15), (6, 14)]),
        half_half: Ok(&[(10, 10), (10, 10)]),
    },
    HeldNumbers {
        from: "a tie in validity and cost, the larger hold ahead",
        objects: &[(1, 3, 20, 3), (2, 3, 20, 2)],
        more_less: Ok(&[(4, 16), (6, 14)]),
        half_half: Ok(&[(10, 10), (10, 10)]),
    },
    HeldNumbers {
        // 1 + 65,535 is just the half of 131,072.
        from: "a hold of 65,536 that just fits",
        objects: &[(1, 1, 131_072, 1), (2, 65_536, 300_000, 65_536)],
        more_less: Ok(&[(65_536, 65_536), (65_538, 234_462)]),
        half_half: Ok(&[(65_536, 65_536), (150_000, 150_000)]),
    },
    HeldNumbers {
        from: "a hold of 65,536 that just does not fit",
        objects: &[(1, 1, 131_071, 1), (2, 65_536, 300_000, 65_536)],
        more_less: Err(0),
        half_half: Err(0),
    },
    HeldNumbers {
        from: "the longest hold alone",
        objects: &[(1, 500_000, 1_000_000, 65_536)],
        more_less: Ok(&[(500_000, 500_000)]),
        half_half: Ok(&[(500_000, 500_000)]),
    },
];

/// Two objects of which the one behind keeps the one ahead waiting for just h minus 1 slots: (1,10) with a hold of 1,
/// and (4,40) with a hold of 3. Their plan is (3,7), (5,35).
pub const WAITING: &[(u16, u32, u32, u32)] = &[(1, 1, 10, 1), (2, 4, 40, 3)];

/// With first releases 1 and 0 the slots go to the places 1, 1, 1, 0, 1: at 1 the first is released, while the second
/// has done one unit of three. The first ends at 4, just at its deadline.
pub const WAITING_FIRSTS: [u32; 2] = [1, 0];
pub const WAITING_SLOTS: [usize; 5] = [1, 1, 1, 0, 1];

/// Every (cost, validity, hold) with a cost up to 4, a validity up to this, and a hold of 1 or of the cost.
#[cfg(test)]
pub(crate) fn every_short_object(most_validity: u32) -> Vec<(u32, u32, u32)> {
    let mut objects = Vec::new();
    for cost in 1..=4 {
        for validity in 2..=most_validity {
            objects.push((cost, validity, 1));
            if cost > 1 {
                objects.push((cost, validity, cost));
            }
        }
    }
    objects
}
