//! The two stored forms: what sets them apart, and what bytes in either of them hold.

use crate::tables::ObjectRow;

/// The bytes of the trailer, in both forms: distance 4, count 2, mark 2.
pub const TRAILER: usize = 8;

/// A stored form. Form two is form one with a first release at the end of each record, and with a mark of its own.
#[derive(Clone, Copy, PartialEq, Eq, Debug)]
pub enum Form {
    One,
    Two,
}

pub const FORMS: [Form; 2] = [Form::One, Form::Two];

impl Form {
    /// The last two bytes of a stored table of this form.
    pub fn mark(self) -> [u8; 2] {
        match self {
            Form::One => [0x4D, 0x4C],
            Form::Two => [0x4D, 0x32],
        }
    }

    /// The bytes of a record: id 2, hold minus 1 in 2, cost 4, validity 4, and in form two the first release in 4.
    pub fn record(self) -> usize {
        match self {
            Form::One => 12,
            Form::Two => 16,
        }
    }

    /// The bytes of so many records and the trailer, without gap.
    pub fn length(self, count: usize) -> usize {
        TRAILER + self.record() * count
    }

    /// The form that one of this form is converted to.
    pub fn other(self) -> Form {
        match self {
            Form::One => Form::Two,
            Form::Two => Form::One,
        }
    }

    /// The form with this mark, if it is the mark of one.
    pub fn with_mark(mark: &[u8]) -> Option<Form> {
        FORMS.into_iter().find(|form| form.mark() == *mark)
    }
}

/// What stored bytes hold: their form, and for each record, in their order, its row and its first release. In form one
/// every first release is 0.
#[derive(Clone, PartialEq, Eq, Debug)]
pub struct Stored {
    pub form: Form,
    pub rows: Vec<ObjectRow>,
    pub firsts: Vec<u32>,
}

impl Stored {
    /// These rows in form one.
    pub fn one(rows: &[ObjectRow]) -> Stored {
        Stored {
            form: Form::One,
            rows: rows.to_vec(),
            firsts: vec![0; rows.len()],
        }
    }

    /// These (id, cost, validity, hold, first release) in this form.
    pub fn of(form: Form, records: &[(u16, u32, u32, u32, u32)]) -> Stored {
        let row = |&(id, cost, validity, hold, _)| ObjectRow::held(id, cost, validity, hold);
        Stored {
            form,
            rows: records.iter().map(row).collect(),
            firsts: records.iter().map(|record| record.4).collect(),
        }
    }

    /// The first release of the object with this id, which is the id of one record.
    pub fn first_of(&self, id: u16) -> u32 {
        let place = self.rows.iter().position(|row| row.id == id);
        self.firsts[place.expect("a record has this id")]
    }
}
