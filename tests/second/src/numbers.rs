//! The paper's own numbers, as it lists them under "Numbers to hold against it". They are from before there were holds,
//! and with a hold of 1 everywhere they stand.

use crate::planning::PlanRow;
use crate::tables::{refused_at, ObjectRow, Refusal};

/// Objects (id, cost, validity) in priority order with the answers (deadline, period), or, where the paper has refusal
/// 10, the place of the first object without a deadline.
pub struct Numbers {
    pub from: &'static str,
    pub objects: &'static [(u16, u32, u32)],
    pub answers: Result<&'static [(u32, u32)], usize>,
}

impl Numbers {
    /// The object rows, in priority order.
    pub fn rows(&self) -> Vec<ObjectRow> {
        self.objects
            .iter()
            .map(|&(id, cost, validity)| ObjectRow::plain(id, cost, validity))
            .collect()
    }

    /// The plan rows, or refusal 10 with its place.
    pub fn plan(&self) -> Result<Vec<PlanRow>, Refusal> {
        let answers = self.answers.map_err(|place| refused_at(10, place))?;
        let rows = self.rows();
        assert_eq!(rows.len(), answers.len());
        let planned = rows.iter().zip(answers);
        Ok(planned
            .map(|(row, &(deadline, period))| PlanRow::of(row, deadline, period))
            .collect())
    }
}

/// The plans of the paper. Where it gives no ids, they count up from 1.
pub const PLANS: &[Numbers] = &[
    Numbers {
        from: "000, Table 3",
        objects: &[(1, 1, 3), (2, 2, 20)],
        answers: Ok(&[(1, 2), (4, 16)]),
    },
    Numbers {
        from: "000, Table 4",
        objects: &[(10, 1, 4), (20, 1, 5), (30, 1, 8), (40, 1, 20)],
        answers: Ok(&[(1, 3), (2, 3), (3, 5), (9, 11)]),
    },
    Numbers {
        from: "000, Table 5",
        objects: &[(1, 1, 8), (2, 1, 10), (3, 1, 12)],
        answers: Ok(&[(1, 7), (2, 8), (3, 9)]),
    },
    Numbers {
        from: "002, Figure 2",
        objects: FIGURE_2,
        answers: Ok(&[(2, 6), (4, 6), (6, 6)]),
    },
    Numbers {
        from: "002, Figure 2, with 12 made 11",
        objects: &[(1, 2, 8), (2, 2, 10), (3, 2, 11)],
        answers: Err(2),
    },
    Numbers {
        from: "(1,2)",
        objects: &[(1, 1, 2)],
        answers: Ok(&[(1, 1)]),
    },
    Numbers {
        from: "(1,2), (1,1000000)",
        objects: &[(1, 1, 2), (2, 1, 1_000_000)],
        answers: Err(1),
    },
    Numbers {
        from: "(500000,1000000)",
        objects: &[(1, 500_000, 1_000_000)],
        answers: Ok(&[(500_000, 500_000)]),
    },
    Numbers {
        from: "(500001,1000000)",
        objects: &[(1, 500_001, 1_000_000)],
        answers: Err(0),
    },
    Numbers {
        from: "(1,3), (1,4)",
        objects: &[(1, 1, 3), (2, 1, 4)],
        answers: Ok(&[(1, 2), (2, 2)]),
    },
    Numbers {
        from: "(1,3), (1,3)",
        objects: &[(1, 1, 3), (2, 1, 3)],
        answers: Err(1),
    },
    Numbers {
        from: "id 1 (1,10), id 2 (3,10)",
        objects: &[(2, 3, 10), (1, 1, 10)],
        answers: Ok(&[(3, 7), (4, 6)]),
    },
];

/// Classic plans. 000 gives those of its Tables 4 and 5, request 5 the place of the former; the others are worked out by
/// hand from the request.
pub const CLASSIC_PLANS: &[Numbers] = &[
    Numbers {
        from: "000, Table 4, classic",
        objects: &[(10, 1, 4), (20, 1, 5), (30, 1, 8), (40, 1, 20)],
        answers: Err(2),
    },
    Numbers {
        from: "000, Table 5, classic",
        objects: &[(1, 1, 8), (2, 1, 10), (3, 1, 12)],
        answers: Ok(&[(4, 4), (5, 5), (6, 6)]),
    },
    Numbers {
        // 1.5 rounded down: the first object takes every slot.
        from: "000, Table 3, classic",
        objects: &[(1, 1, 3), (2, 2, 20)],
        answers: Err(1),
    },
    Numbers {
        // The second object's t is 4, its half.
        from: "(1,4), (2,8), classic",
        objects: &[(1, 1, 4), (2, 2, 8)],
        answers: Ok(&[(2, 2), (4, 4)]),
    },
    Numbers {
        from: "(1,4), (3,8), classic",
        objects: &[(1, 1, 4), (2, 3, 8)],
        answers: Err(1),
    },
    Numbers {
        // The second object's t is 6, and its half is 5.
        from: "(1,6), (4,11), classic",
        objects: &[(1, 1, 6), (2, 4, 11)],
        answers: Err(1),
    },
    Numbers {
        from: "(1,2), classic",
        objects: &[(1, 1, 2)],
        answers: Ok(&[(1, 1)]),
    },
    Numbers {
        from: "(500000,1000000), classic",
        objects: &[(1, 500_000, 1_000_000)],
        answers: Ok(&[(500_000, 500_000)]),
    },
    Numbers {
        from: "(500001,1000000), classic",
        objects: &[(1, 500_001, 1_000_000)],
        answers: Err(0),
    },
    Numbers {
        from: "id 1 (1,11), id 2 (3,11), classic",
        objects: &[(2, 3, 11), (1, 1, 11)],
        answers: Ok(&[(5, 5), (5, 5)]),
    },
];

/// 002's set, of which the paper also tells a run.
pub const FIGURE_2: &[(u16, u32, u32)] = &[(1, 2, 8), (2, 2, 10), (3, 2, 12)];
