//! Random stored tables of both forms, good and damaged.

use paper::forms::{Form, FORMS, TRAILER};
use paper::tables::{ObjectRow, MOST_BYTES, MOST_HOLD, MOST_OBJECTS};

use crate::generate::{bad_cost, bad_validity, first_words, object_count, object_rows, overload_rows, place, Times};
use crate::random::Random;

/// A stored table in its parts, which need not fit together.
struct Draft {
    /// How the records are laid out, whatever the mark tells.
    form: Form,
    before: Vec<u8>,
    records: Vec<ObjectRow>,
    firsts: Vec<u32>,
    between: Vec<u8>,
    distance: u32,
    count: u16,
    mark: [u8; 2],
}

/// A stored table of any kind.
pub fn any(random: &mut Random) -> Vec<u8> {
    match random.below(23) {
        0 => tiny(random),
        1 => noise(random),
        2..=6 => good(random),
        7..=11 => {
            let mut draft = good_draft(random);
            spoil_records(random, &mut draft);
            draft.bytes()
        }
        12..=14 => {
            let mut draft = good_draft(random);
            spoil_trailer(random, &mut draft);
            draft.bytes()
        }
        15 => {
            let mut draft = good_draft(random);
            lengthen(random, &mut draft);
            draft.bytes()
        }
        16 => {
            let bytes = good(random);
            cut(random, bytes)
        }
        17 | 18 => {
            let bytes = good(random);
            flip_bits(random, bytes)
        }
        19 => told_of_too_many(random),
        20 | 21 => under_the_other_mark(random),
        _ => spoiled_in_many_ways(random),
    }
}

/// A stored table that reads.
pub fn good(random: &mut Random) -> Vec<u8> {
    good_draft(random).bytes()
}

/// A stored table that does not, most of the time.
pub fn bad(random: &mut Random) -> Vec<u8> {
    match random.below(5) {
        0 => tiny(random),
        1 => noise(random),
        2 => {
            let bytes = good(random);
            flip_bits(random, bytes)
        }
        3 => under_the_other_mark(random),
        _ => spoiled_in_many_ways(random),
    }
}

/// A stored table of these rows and first releases, which reads if they are good. In form one the latter are left out.
pub fn of_rows(random: &mut Random, form: Form, rows: &[ObjectRow], firsts: &[u32]) -> Vec<u8> {
    drafted(random, form, rows.to_vec(), firsts.to_vec()).bytes()
}

/// These bytes damaged in a way that may leave them good.
pub fn damaged(random: &mut Random, bytes: Vec<u8>) -> Vec<u8> {
    match random.one_in(3) {
        true => cut(random, bytes),
        false => flip_bits(random, bytes),
    }
}

/// A stored table that reads and has no unread bytes, most of the time; sometimes any.
pub fn to_write_again(random: &mut Random) -> Vec<u8> {
    match random.below(4) {
        0 => any(random),
        1 => {
            let bytes = without_gap(random);
            flip_bits(random, bytes)
        }
        _ => without_gap(random),
    }
}

/// A stored table that reads and has no unread bytes.
pub fn without_gap(random: &mut Random) -> Vec<u8> {
    let mut draft = good_draft(random);
    draft.before.clear();
    draft.between.clear();
    draft.fit_trailer();
    draft.bytes()
}

fn good_draft(random: &mut Random) -> Draft {
    let count = object_count(random);
    let times = match random.below(16) {
        0 => Times::Long,
        1..=3 => Times::Ends,
        4..=6 => Times::Middle,
        7..=9 => Times::Tied,
        _ => Times::Short,
    };
    let mut rows = object_rows(random, count, times);
    if random.one_in(6) {
        overload_rows(random, &mut rows);
    }
    let firsts = first_words(random, count);
    let form = random.pick(&FORMS);
    drafted(random, form, rows, firsts)
}

/// A draft of these rows with a trailer that fits, and any gaps.
fn drafted(random: &mut Random, form: Form, records: Vec<ObjectRow>, firsts: Vec<u32>) -> Draft {
    let room = MOST_BYTES - form.length(records.len());
    let before = gap(random, room);
    let between = gap(random, room - before.len());
    let mut draft = Draft {
        form,
        before,
        records,
        firsts,
        between,
        distance: 0,
        count: 0,
        mark: form.mark(),
    };
    draft.fit_trailer();
    draft
}

/// Bytes that are not read: mostly none or a few, sometimes all there is room for.
fn gap(random: &mut Random, room: usize) -> Vec<u8> {
    let length = match random.below(8) {
        0..=2 => 0,
        3 | 4 => random.between(1, 3).min(room),
        5 | 6 => random.between(0, 40).min(room),
        _ => random.pick(&[room, room / 2]),
    };
    random.bytes(length)
}

impl Draft {
    fn bytes(&self) -> Vec<u8> {
        let mut bytes = self.before.clone();
        for (record, first) in self.records.iter().zip(&self.firsts) {
            bytes.extend(record.id.to_le_bytes());
            // Every hold of a draft, good or bad, is one that the two bytes can tell.
            bytes.extend(((record.hold - 1) as u16).to_le_bytes());
            bytes.extend(record.cost.to_le_bytes());
            bytes.extend(record.validity.to_le_bytes());
            if self.form == Form::Two {
                bytes.extend(first.to_le_bytes());
            }
        }
        bytes.extend(&self.between);
        bytes.extend(self.distance.to_le_bytes());
        bytes.extend(self.count.to_le_bytes());
        bytes.extend(self.mark);
        bytes
    }

    fn length(&self) -> usize {
        self.before.len() + self.form.length(self.records.len()) + self.between.len()
    }

    /// Tells count and distance as the other parts ask for.
    fn fit_trailer(&mut self) {
        self.count = self.records.len() as u16;
        self.distance = (self.length() - self.before.len()) as u32;
    }
}

/// The records of one form under the mark of the other, half of the time with bytes enough for that one, and often just
/// one or two records: these may read.
fn under_the_other_mark(random: &mut Random) -> Vec<u8> {
    let mut draft = good_draft(random);
    if random.one_in(2) {
        draft.records.truncate(random.between(1, 2));
        draft.firsts.truncate(draft.records.len());
    }
    if random.one_in(2) && draft.length() + 4 * draft.records.len() <= MOST_BYTES {
        let more = random.bytes(4 * draft.records.len());
        draft.between.extend(more);
    }
    draft.fit_trailer();
    draft.mark = draft.form.other().mark();
    draft.bytes()
}

/// One to four faults in the records, half of them in the record of the fault before: so the order of the checks within
/// a record shows, and the order of the records.
fn spoil_records(random: &mut Random, draft: &mut Draft) {
    let count = draft.records.len();
    let mut at = place(random, count);
    for _ in 0..random.between(1, 4) {
        match random.below(4) {
            0 => draft.records[at].hold = hold_above(random, draft.records[at].cost),
            1 => draft.records[at].cost = bad_cost(random),
            2 => draft.records[at].validity = bad_validity(random),
            _ => draft.records[at].id = draft.records[place(random, count)].id,
        }
        if random.one_in(2) {
            at = place(random, count);
        }
    }
}

/// A hold above this cost, by one or by more, if the two bytes can tell one; otherwise the longest, which is good.
fn hold_above(random: &mut Random, cost: u32) -> u32 {
    let least = cost.min(MOST_HOLD - 1) + 1;
    let any = random.words(least, MOST_HOLD);
    random.pick(&[least, least, any, MOST_HOLD])
}

/// Faults in one, two or all three of the parts of the trailer.
fn spoil_trailer(random: &mut Random, draft: &mut Draft) {
    let parts = random.between(1, 7);
    if parts & 1 != 0 {
        draft.distance = odd_distance(random, draft);
    }
    if parts & 2 != 0 {
        draft.count = odd_count(random, draft.count);
    }
    if parts & 4 != 0 {
        draft.mark = odd_mark(random);
    }
}

/// A distance near one of its limits, or far off, or any.
fn odd_distance(random: &mut Random, draft: &Draft) -> u32 {
    let needed = draft.form.length(draft.records.len()) as u32;
    // What the other form asks for: less or more by 4 for each record.
    let other = draft.form.other().length(draft.records.len()) as u32;
    let length = draft.length() as u32;
    let any = random.word();
    let within = random.words(needed, length);
    // What fits only if numbers come round.
    let around = length.wrapping_sub(random.words(length + 1, length + 5000));
    random.pick(&[
        needed - 1,
        needed,
        length,
        length + 1,
        within,
        0,
        7,
        8,
        needed - draft.form.record() as u32,
        other,
        other - 1,
        any % 5000,
        any,
        1 << 31,
        u32::MAX - 7,
        u32::MAX,
        around,
    ])
}

/// A trailer that tells of more records than the bytes can hold, with a distance around the number of bytes and what so
/// many records take: so checks 5 and 15 both apply, or one of them.
fn told_of_too_many(random: &mut Random) -> Vec<u8> {
    let mut draft = good_draft(random);
    let fit = (draft.length() - TRAILER) / draft.form.record();
    if fit < MOST_OBJECTS {
        draft.count = random.between(fit + 1, MOST_OBJECTS) as u16;
    }
    let needed = draft.form.length(usize::from(draft.count)) as u32;
    let length = draft.length() as u32;
    let any = random.words(length.min(needed), length.max(needed));
    draft.distance = random.pick(&[length, length + 1, needed - 1, needed, needed + 1, any]);
    draft.bytes()
}

fn odd_count(random: &mut Random, good: u16) -> u16 {
    let any = random.word() as u16;
    random.pick(&[
        0,
        good.wrapping_sub(1),
        good + 1,
        MOST_OBJECTS as u16,
        MOST_OBJECTS as u16 + 1,
        good + 256,
        256,
        65_535,
        any,
    ])
}

/// Two bytes that are no mark, or the mark of the other form, or close to either.
fn odd_mark(random: &mut Random) -> [u8; 2] {
    let [first, second] = random.pick(&FORMS).mark();
    let any = random.byte();
    random.pick(&[
        [first, second],
        [second, first],
        [first, any],
        [any, second],
        [0, 0],
        [first, first],
        [second, second],
        [first, second ^ 1],
        [any, any],
    ])
}

/// Too many bytes by one or by many, or just as many as may be, with the distance kept or stretched over them.
fn lengthen(random: &mut Random, draft: &mut Draft) {
    let length = random.pick(&[MOST_BYTES, MOST_BYTES + 1, MOST_BYTES + 1, MOST_BYTES + 2, 5000, 70_000]);
    let more = length - draft.length().min(length);
    if random.one_in(2) {
        draft.before.extend(random.bytes(more));
    } else {
        draft.between.extend(random.bytes(more));
        if random.one_in(2) {
            draft.distance = draft.distance.wrapping_add(more as u32);
        }
    }
}

/// At most nine bytes, sometimes with a trailer that would be good if there were something before it.
fn tiny(random: &mut Random) -> Vec<u8> {
    let mut trailer = random.bytes(2);
    trailer.extend(random.words(8, 33).to_le_bytes());
    trailer.extend([1, 0]);
    trailer.extend(random.pick(&FORMS).mark());
    if random.one_in(2) {
        trailer = random.bytes(trailer.len());
    }
    if random.one_in(4) {
        trailer.fill(0);
    }
    trailer.split_off(1 + random.below(trailer.len()))
}

/// Any bytes, sometimes with a mark, and sometimes with a count and a distance that may do.
fn noise(random: &mut Random) -> Vec<u8> {
    let most = random.pick(&[20, 40, 200, 1000, 4100]);
    let length = random.between(8, most);
    let mut bytes = random.bytes(length);
    if random.one_in(4) {
        bytes.fill(0);
    }
    let trailer = length - TRAILER;
    if !random.one_in(4) {
        bytes[length - 2..].copy_from_slice(&random.pick(&FORMS).mark());
    }
    if !random.one_in(3) {
        let count = random.words(0, 66) as u16;
        bytes[trailer + 4..trailer + 6].copy_from_slice(&count.to_le_bytes());
    }
    if !random.one_in(3) {
        let distance = random.words(0, length as u32 + 2);
        bytes[trailer..trailer + 4].copy_from_slice(&distance.to_le_bytes());
    }
    bytes
}

/// Takes bytes off the front or the back, a few or many.
fn cut(random: &mut Random, mut bytes: Vec<u8>) -> Vec<u8> {
    let most = random.pick(&[1, 2, 13, bytes.len()]);
    let less = random.between(1, most).min(bytes.len());
    if random.one_in(3) {
        bytes.truncate(bytes.len() - less);
        bytes
    } else {
        bytes.split_off(less)
    }
}

/// Flips one to six bits, half of the time close to the end, where the trailer is.
fn flip_bits(random: &mut Random, mut bytes: Vec<u8>) -> Vec<u8> {
    for _ in 0..random.between(1, 6) {
        let length = bytes.len();
        let at = match random.one_in(2) {
            true => length - 1 - random.below(length.min(TRAILER)),
            false => random.below(length),
        };
        bytes[at] ^= 1 << random.below(8);
    }
    bytes
}

/// Several kinds of faults at once.
fn spoiled_in_many_ways(random: &mut Random) -> Vec<u8> {
    let mut draft = good_draft(random);
    if !random.one_in(3) {
        spoil_records(random, &mut draft);
    }
    if random.one_in(2) {
        spoil_trailer(random, &mut draft);
    }
    if random.one_in(4) {
        lengthen(random, &mut draft);
    }
    let mut bytes = draft.bytes();
    if random.one_in(4) {
        bytes = cut(random, bytes);
    }
    if random.one_in(4) && !bytes.is_empty() {
        bytes = flip_bits(random, bytes);
    }
    bytes
}
