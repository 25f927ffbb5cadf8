//! Stored bytes of both forms, worked out by hand from request 7: what they hold, what they are converted to, and what
//! a start from them gives.

use crate::forms::{Form, Stored};
use crate::tables::Refusal;

/// Bytes in pieces, so that a record or a trailer has a line of its own.
type Pieces = &'static [&'static [u8]];

/// A refusal's number and place.
type Refused = (u32, u32);

/// Records (id, cost, validity, hold, first release).
type Records = &'static [(u16, u32, u32, u32, u32)];

fn refusal((number, place): Refused) -> Refusal {
    Refusal { number, place }
}

/// Bytes, and what reading them answers.
pub struct ReadNumbers {
    pub from: &'static str,
    bytes: Pieces,
    answer: Result<(Form, Records), Refused>,
}

impl ReadNumbers {
    pub fn bytes(&self) -> Vec<u8> {
        self.bytes.concat()
    }

    pub fn answer(&self) -> Result<Stored, Refusal> {
        let stored = |(form, records)| Stored::of(form, records);
        self.answer.map(stored).map_err(refusal)
    }
}

/// Bytes, the form converted from, and the bytes of the other form.
pub struct ConvertNumbers {
    pub from: &'static str,
    pub form: Form,
    bytes: Pieces,
    answer: Result<Pieces, Refused>,
}

impl ConvertNumbers {
    pub fn bytes(&self) -> Vec<u8> {
        self.bytes.concat()
    }

    pub fn answer(&self) -> Result<Vec<u8>, Refusal> {
        self.answer.map(|pieces| pieces.concat()).map_err(refusal)
    }
}

/// Bytes, the clock, and the objects of the run that starts from them: id and the clock value of the next release, in
/// priority order.
pub struct StartNumbers {
    pub from: &'static str,
    bytes: Pieces,
    pub clock: u32,
    answer: Result<&'static [(u16, u32)], Refused>,
}

impl StartNumbers {
    pub fn bytes(&self) -> Vec<u8> {
        self.bytes.concat()
    }

    pub fn answer(&self) -> Result<&'static [(u16, u32)], Refusal> {
        self.answer.map_err(refusal)
    }
}

const fn read(from: &'static str, bytes: Pieces, form: Form, records: Records) -> ReadNumbers {
    let answer = Ok((form, records));
    ReadNumbers { from, bytes, answer }
}

const fn not_read(from: &'static str, bytes: Pieces, refused: Refused) -> ReadNumbers {
    let answer = Err(refused);
    ReadNumbers { from, bytes, answer }
}

const fn converted(from: &'static str, form: Form, bytes: Pieces, to: Pieces) -> ConvertNumbers {
    let answer = Ok(to);
    ConvertNumbers {
        from,
        form,
        bytes,
        answer,
    }
}

const fn not_converted(from: &'static str, form: Form, bytes: Pieces, refused: Refused) -> ConvertNumbers {
    let answer = Err(refused);
    ConvertNumbers {
        from,
        form,
        bytes,
        answer,
    }
}

/// A record of form one, and records of form two that begin with it: id 9, cost 1, validity 2, hold 1.
const NINE: &[u8] = &[9, 0, 0, 0, 1, 0, 0, 0, 2, 0, 0, 0];
const NINE_AT_0: &[u8] = &[9, 0, 0, 0, 1, 0, 0, 0, 2, 0, 0, 0, 0, 0, 0, 0];
const NINE_AT_1: &[u8] = &[9, 0, 0, 0, 1, 0, 0, 0, 2, 0, 0, 0, 1, 0, 0, 0];
const NINE_AT_4030201: &[u8] = &[9, 0, 0, 0, 1, 0, 0, 0, 2, 0, 0, 0, 1, 2, 3, 4];

/// Another: id 0x0807, cost 3, validity 500, hold 2.
const EIGHT: &[u8] = &[7, 8, 1, 0, 3, 0, 0, 0, 0xF4, 1, 0, 0];
const EIGHT_AT_0: &[u8] = &[7, 8, 1, 0, 3, 0, 0, 0, 0xF4, 1, 0, 0, 0, 0, 0, 0];
const EIGHT_AT_255: &[u8] = &[7, 8, 1, 0, 3, 0, 0, 0, 0xF4, 1, 0, 0, 255, 0, 0, 0];
const EIGHT_AT_THE_LAST: &[u8] = &[7, 8, 1, 0, 3, 0, 0, 0, 0xF4, 1, 0, 0, 255, 255, 255, 255];

/// Trailers of one and of two records without a gap before them.
const ONE_OF_1: &[u8] = &[20, 0, 0, 0, 1, 0, 0x4D, 0x4C];
const TWO_OF_1: &[u8] = &[24, 0, 0, 0, 1, 0, 0x4D, 0x32];
const ONE_OF_2: &[u8] = &[32, 0, 0, 0, 2, 0, 0x4D, 0x4C];
const TWO_OF_2: &[u8] = &[40, 0, 0, 0, 2, 0, 0x4D, 0x32];

/// Bytes that are not read.
const UNREAD: &[u8] = &[0x4D, 0x32, 0x4D, 0x4C, 0xEE];

pub const READS: &[ReadNumbers] = &[
    read("form one", &[NINE, ONE_OF_1], Form::One, &[(9, 1, 2, 1, 0)]),
    read("form two", &[NINE_AT_0, TWO_OF_1], Form::Two, &[(9, 1, 2, 1, 0)]),
    read(
        // Its period is 1. Reading does not plan.
        "a first release in four bytes, the lowest first",
        &[NINE_AT_4030201, TWO_OF_1],
        Form::Two,
        &[(9, 1, 2, 1, 0x0403_0201)],
    ),
    read(
        "two records in form one",
        &[EIGHT, NINE, ONE_OF_2],
        Form::One,
        &[(0x0807, 3, 500, 2, 0), (9, 1, 2, 1, 0)],
    ),
    read(
        "first releases in the order of the records",
        &[EIGHT_AT_THE_LAST, NINE_AT_1, TWO_OF_2],
        Form::Two,
        &[(0x0807, 3, 500, 2, u32::MAX), (9, 1, 2, 1, 1)],
    ),
    read(
        "unread bytes before the records and behind them, in form one",
        &[UNREAD, NINE, UNREAD, &[25, 0, 0, 0, 1, 0, 0x4D, 0x4C]],
        Form::One,
        &[(9, 1, 2, 1, 0)],
    ),
    read(
        "unread bytes before the records and behind them, in form two",
        &[UNREAD, NINE_AT_1, UNREAD, &[29, 0, 0, 0, 1, 0, 0x4D, 0x32]],
        Form::Two,
        &[(9, 1, 2, 1, 1)],
    ),
    read(
        "a record of form two under the mark of form one, its first release unread",
        &[NINE_AT_4030201, &[24, 0, 0, 0, 1, 0, 0x4D, 0x4C]],
        Form::One,
        &[(9, 1, 2, 1, 0)],
    ),
    read(
        "a record of form one under the mark of form two, unread bytes taken for its first release",
        &[NINE, &[0xEE, 0, 0, 0], TWO_OF_1],
        Form::Two,
        &[(9, 1, 2, 1, 0xEE)],
    ),
    not_read("7 bytes, the mark of form two", &[&[0, 0, 0, 1, 0, 0x4D, 0x32]], (1, 0)),
    not_read("2 bytes, the mark of form two", &[&[0x4D, 0x32]], (1, 0)),
    not_read("4,097 bytes of form two", &[&[0; 4073], NINE_AT_0, TWO_OF_1], (2, 0)),
    not_read("8 zero bytes", &[&[0; 8]], (3, 0)),
    not_read("4D 33", &[NINE_AT_0, &[24, 0, 0, 0, 1, 0, 0x4D, 0x33]], (3, 0)),
    not_read("32 4D", &[NINE_AT_0, &[24, 0, 0, 0, 1, 0, 0x32, 0x4D]], (3, 0)),
    not_read("4C 4D", &[NINE, &[20, 0, 0, 0, 1, 0, 0x4C, 0x4D]], (3, 0)),
    not_read("4C 32", &[NINE_AT_0, &[24, 0, 0, 0, 1, 0, 0x4C, 0x32]], (3, 0)),
    not_read("00 32", &[NINE_AT_0, &[24, 0, 0, 0, 1, 0, 0, 0x32]], (3, 0)),
    not_read("3 before 4", &[&[0, 0, 0, 0, 0, 0, 0x4D, 2]], (3, 0)),
    not_read("no record in form two", &[&[8, 0, 0, 0, 0, 0, 0x4D, 0x32]], (4, 0)),
    not_read("65 records in form two", &[&[8, 0, 0, 0, 65, 0, 0x4D, 0x32]], (4, 0)),
    not_read(
        "257 records in form two",
        &[NINE_AT_0, &[24, 0, 0, 0, 1, 1, 0x4D, 0x32]],
        (4, 0),
    ),
    not_read(
        "a distance that fits form one and not form two",
        &[NINE_AT_0, &[20, 0, 0, 0, 1, 0, 0x4D, 0x32]],
        (5, 0),
    ),
    not_read(
        // The same in form one: 20 bytes back is at the cost, which is then id and hold.
        "the same distance in form one, with the first release for a validity",
        &[NINE_AT_4030201, ONE_OF_1],
        (8, 0),
    ),
    not_read(
        "a record of form one under the mark of form two",
        &[NINE, &[20, 0, 0, 0, 1, 0, 0x4D, 0x32]],
        (5, 0),
    ),
    not_read(
        "23 in 24 bytes, form two",
        &[NINE_AT_0, &[23, 0, 0, 0, 1, 0, 0x4D, 0x32]],
        (5, 0),
    ),
    not_read(
        "25 in 24 bytes, form two",
        &[NINE_AT_0, &[25, 0, 0, 0, 1, 0, 0x4D, 0x32]],
        (15, 0),
    ),
    not_read(
        "24 in 20 bytes, form two",
        &[NINE, &[24, 0, 0, 0, 1, 0, 0x4D, 0x32]],
        (15, 0),
    ),
    not_read("23 in 8 bytes, form two", &[&[23, 0, 0, 0, 1, 0, 0x4D, 0x32]], (5, 0)),
    not_read("23 in 8 bytes, form one", &[&[23, 0, 0, 0, 1, 0, 0x4D, 0x4C]], (15, 0)),
    not_read("24 in 8 bytes, form two", &[&[24, 0, 0, 0, 1, 0, 0x4D, 0x32]], (15, 0)),
    not_read(
        "a cost of 0 in the second record of form two, before 6, 8 and 9",
        &[NINE_AT_0, &[9, 0, 1, 0, 0, 0, 0, 0, 1, 0, 0, 0, 5, 0, 0, 0], TWO_OF_2],
        (7, 1),
    ),
    not_read(
        "a hold above the cost in the second record of form two, before 8 and 9",
        &[NINE_AT_0, &[9, 0, 1, 0, 1, 0, 0, 0, 1, 0, 0, 0, 5, 0, 0, 0], TWO_OF_2],
        (6, 1),
    ),
    not_read(
        "a validity of 1 in the second record of form two, before 9",
        &[NINE_AT_0, &[9, 0, 0, 0, 1, 0, 0, 0, 1, 0, 0, 0, 5, 0, 0, 0], TWO_OF_2],
        (8, 1),
    ),
    not_read("an id twice in form two", &[NINE_AT_0, NINE_AT_1, TWO_OF_2], (9, 1)),
];

pub const CONVERSIONS: &[ConvertNumbers] = &[
    converted("one to two", Form::One, &[NINE, ONE_OF_1], &[NINE_AT_0, TWO_OF_1]),
    converted("two to one", Form::Two, &[NINE_AT_0, TWO_OF_1], &[NINE, ONE_OF_1]),
    converted(
        "one to two, two records",
        Form::One,
        &[EIGHT, NINE, ONE_OF_2],
        &[EIGHT_AT_0, NINE_AT_0, TWO_OF_2],
    ),
    converted(
        "two to one, two records",
        Form::Two,
        &[NINE_AT_0, EIGHT_AT_0, TWO_OF_2],
        &[NINE, EIGHT, ONE_OF_2],
    ),
    converted(
        "one to two, unread bytes left out",
        Form::One,
        &[UNREAD, NINE, UNREAD, &[25, 0, 0, 0, 1, 0, 0x4D, 0x4C]],
        &[NINE_AT_0, TWO_OF_1],
    ),
    converted(
        "two to one, unread bytes left out",
        Form::Two,
        &[UNREAD, NINE_AT_0, UNREAD, &[29, 0, 0, 0, 1, 0, 0x4D, 0x32]],
        &[NINE, ONE_OF_1],
    ),
    converted(
        "two to one, unread bytes that are no first release",
        Form::Two,
        &[NINE_AT_0, &[1], &[25, 0, 0, 0, 1, 0, 0x4D, 0x32]],
        &[NINE, ONE_OF_1],
    ),
    not_converted("form two as one", Form::One, &[NINE_AT_0, TWO_OF_1], (3, 0)),
    not_converted("form one as two", Form::Two, &[NINE, ONE_OF_1], (3, 0)),
    not_converted(
        "neither as one",
        Form::One,
        &[NINE, &[20, 0, 0, 0, 1, 0, 0x4D, 0]],
        (3, 0),
    ),
    not_converted(
        "neither as two",
        Form::Two,
        &[NINE, &[20, 0, 0, 0, 1, 0, 0x4D, 0]],
        (3, 0),
    ),
    not_converted(
        "form two as one, before 4",
        Form::One,
        &[&[8, 0, 0, 0, 0, 0, 0x4D, 0x32]],
        (3, 0),
    ),
    not_converted(
        "7 bytes of form two as one",
        Form::One,
        &[&[0, 0, 0, 1, 0, 0x4D, 0x32]],
        (1, 0),
    ),
    not_converted(
        "4,097 bytes of form one as two",
        Form::Two,
        &[&[0; 4077], NINE, ONE_OF_1],
        (2, 0),
    ),
    not_converted("no record", Form::Two, &[&[8, 0, 0, 0, 0, 0, 0x4D, 0x32]], (4, 0)),
    not_converted(
        "a distance that fits form one, from two",
        Form::Two,
        &[NINE_AT_0, &[20, 0, 0, 0, 1, 0, 0x4D, 0x32]],
        (5, 0),
    ),
    not_converted("24 in 20 bytes, from two", Form::Two, &[NINE, TWO_OF_1], (15, 0)),
    not_converted("an id twice, from one", Form::One, &[NINE, NINE, ONE_OF_2], (9, 1)),
    not_converted(
        "an id twice, from two, before 18",
        Form::Two,
        &[NINE_AT_1, NINE_AT_0, TWO_OF_2],
        (9, 1),
    ),
    not_converted(
        "a first release at record 0",
        Form::Two,
        &[NINE_AT_1, EIGHT_AT_0, TWO_OF_2],
        (18, 0),
    ),
    not_converted(
        "a first release at record 1",
        Form::Two,
        &[NINE_AT_0, EIGHT_AT_255, TWO_OF_2],
        (18, 1),
    ),
    not_converted(
        "first releases at both",
        Form::Two,
        &[EIGHT_AT_THE_LAST, NINE_AT_1, TWO_OF_2],
        (18, 0),
    ),
    not_converted(
        "a first release in its last byte alone",
        Form::Two,
        &[EIGHT_AT_0, &[9, 0, 0, 0, 1, 0, 0, 0, 2, 0, 0, 0, 0, 0, 0, 1], TWO_OF_2],
        (18, 1),
    ),
];

/// 000's Table 4 in the order of the plan program: the order of the records is not that of the objects, which is 10, 20,
/// 30, 40 with the periods 3, 3, 5, 11.
const FORTY_AT_10: &[u8] = &[40, 0, 0, 0, 1, 0, 0, 0, 20, 0, 0, 0, 10, 0, 0, 0];
const FORTY_AT_11: &[u8] = &[40, 0, 0, 0, 1, 0, 0, 0, 20, 0, 0, 0, 11, 0, 0, 0];
const TEN_AT_2: &[u8] = &[10, 0, 0, 0, 1, 0, 0, 0, 4, 0, 0, 0, 2, 0, 0, 0];
const TEN_AT_3: &[u8] = &[10, 0, 0, 0, 1, 0, 0, 0, 4, 0, 0, 0, 3, 0, 0, 0];
const THIRTY_AT_4: &[u8] = &[30, 0, 0, 0, 1, 0, 0, 0, 8, 0, 0, 0, 4, 0, 0, 0];
const THIRTY_AT_5: &[u8] = &[30, 0, 0, 0, 1, 0, 0, 0, 8, 0, 0, 0, 5, 0, 0, 0];
const TWENTY_AT_0: &[u8] = &[20, 0, 0, 0, 1, 0, 0, 0, 5, 0, 0, 0, 0, 0, 0, 0];
const TWENTY_AT_THE_LAST: &[u8] = &[20, 0, 0, 0, 1, 0, 0, 0, 5, 0, 0, 0, 255, 255, 255, 255];
const FIFTY_AT_THE_LAST: &[u8] = &[50, 0, 0, 0, 1, 0, 0, 0, 100, 0, 0, 0, 255, 255, 255, 255];
const TWO_OF_4: &[u8] = &[72, 0, 0, 0, 4, 0, 0x4D, 0x32];

pub const STARTS: &[StartNumbers] = &[
    StartNumbers {
        from: "form two, each first release with its object, all but one the last that is good",
        bytes: &[FORTY_AT_10, TEN_AT_2, THIRTY_AT_4, TWENTY_AT_0, TWO_OF_4],
        clock: 1000,
        answer: Ok(&[(10, 1002), (20, 1000), (30, 1004), (40, 1010)]),
    },
    StartNumbers {
        from: "form two, around the turn of the clock",
        bytes: &[TWENTY_AT_0, THIRTY_AT_4, TEN_AT_2, FORTY_AT_10, TWO_OF_4],
        clock: u32::MAX - 2,
        answer: Ok(&[(10, u32::MAX), (20, u32::MAX - 2), (30, 1), (40, 7)]),
    },
    StartNumbers {
        from: "form two, two of them not below their periods, the one of record 0 at place 3",
        bytes: &[FORTY_AT_11, TEN_AT_2, THIRTY_AT_5, TWENTY_AT_0, TWO_OF_4],
        clock: 0,
        answer: Err((12, 2)),
    },
    StartNumbers {
        from: "form two, the one of record 0 at place 3 alone",
        bytes: &[FORTY_AT_11, TEN_AT_2, THIRTY_AT_4, TWENTY_AT_0, TWO_OF_4],
        clock: 0,
        answer: Err((12, 3)),
    },
    StartNumbers {
        from: "form two, three of them",
        bytes: &[FORTY_AT_11, THIRTY_AT_5, TWENTY_AT_THE_LAST, TEN_AT_2, TWO_OF_4],
        clock: u32::MAX,
        answer: Err((12, 1)),
    },
    StartNumbers {
        from: "form two, all but the last object",
        bytes: &[FORTY_AT_10, THIRTY_AT_5, TWENTY_AT_THE_LAST, TEN_AT_3, TWO_OF_4],
        clock: 7,
        answer: Err((12, 0)),
    },
    StartNumbers {
        from: "form one, as if with first releases of 0",
        bytes: &[EIGHT, ONE_OF_1],
        clock: 4,
        answer: Ok(&[(0x0807, 4)]),
    },
    StartNumbers {
        from: "form two, the period is 1",
        bytes: &[UNREAD, NINE_AT_0, UNREAD, &[29, 0, 0, 0, 1, 0, 0x4D, 0x32]],
        clock: u32::MAX,
        answer: Ok(&[(9, u32::MAX)]),
    },
    StartNumbers {
        from: "form two, the period is 1, and so is the first release",
        bytes: &[NINE_AT_1, TWO_OF_1],
        clock: 0,
        answer: Err((12, 0)),
    },
    StartNumbers {
        // (1,2) takes every slot, so (1,100) of record 0 has no deadline.
        from: "form two, 10 before 12",
        bytes: &[FIFTY_AT_THE_LAST, NINE_AT_1, TWO_OF_2],
        clock: 0,
        answer: Err((10, 1)),
    },
    StartNumbers {
        // (1,2) cannot wait for the hold of the other.
        from: "form one, 10",
        bytes: &[EIGHT, NINE, ONE_OF_2],
        clock: 0,
        answer: Err((10, 0)),
    },
    StartNumbers {
        from: "form two, 9 before 10 and 12",
        bytes: &[NINE_AT_1, NINE_AT_1, TWO_OF_2],
        clock: 0,
        answer: Err((9, 1)),
    },
    StartNumbers {
        from: "neither mark",
        bytes: &[NINE_AT_0, &[24, 0, 0, 0, 1, 0, 0x4D, 0x33]],
        clock: 0,
        answer: Err((3, 0)),
    },
    StartNumbers {
        from: "a distance that fits form one, in form two",
        bytes: &[NINE_AT_0, &[20, 0, 0, 0, 1, 0, 0x4D, 0x32]],
        clock: 0,
        answer: Err((5, 0)),
    },
];
