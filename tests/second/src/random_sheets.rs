//! Random sheets: good, spoiled and at their limits, kind by kind, and damaged in any way.

use paper::sheet::sheet;
use paper::tables::{refused, refused_at, ObjectRow, Refusal, MOST_BYTES, MOST_HOLD, MOST_OBJECTS};

use crate::generate::{bad_cost, bad_hold, bad_validity, object_count, object_rows, place, spoil_rows, Times};
use crate::random::Random;

/// A sheet, and its answer where the way it was made leaves no choice: imported, or this refusal.
pub struct Sheet {
    pub bytes: Vec<u8>,
    pub known: Option<Result<(), Refusal>>,
}

/// A kind of sheet.
pub struct Kind {
    pub name: &'static str,
    make: Make,
}

/// How a sheet of a kind is made. All but the first spoil one line of a sheet, which gets 17 at that line.
enum Make {
    Whole(fn(&mut Random) -> Sheet),
    /// Another text for any of the four fields, given the good one.
    Field(fn(&mut Random, &str) -> Vec<u8>),
    /// Another text for the id.
    Id(fn(&mut Random, &str) -> Vec<u8>),
    /// Another text for the cost, the validity or the hold.
    Number(fn(&mut Random, &str) -> Vec<u8>),
    /// Another text for the line, given the good one without what ends it.
    Line(fn(&mut Random, &str) -> Vec<u8>),
}

impl Kind {
    pub fn sheet(&self, random: &mut Random) -> Sheet {
        match self.make {
            Make::Whole(make) => make(random),
            Make::Field(text) => {
                let which = random.below(4);
                spoiled_at_a_line(random, |random, row| with_field(random, row, which, text))
            }
            Make::Id(text) => spoiled_at_a_line(random, |random, row| with_field(random, row, 0, text)),
            Make::Number(text) => {
                let which = random.between(1, 3);
                spoiled_at_a_line(random, |random, row| with_field(random, row, which, text))
            }
            Make::Line(text) => spoiled_at_a_line(random, |random, row| text(random, &without_end(row))),
        }
    }
}

const fn whole(name: &'static str, make: fn(&mut Random) -> Sheet) -> Kind {
    Kind {
        name,
        make: Make::Whole(make),
    }
}

const fn field(name: &'static str, text: fn(&mut Random, &str) -> Vec<u8>) -> Kind {
    Kind {
        name,
        make: Make::Field(text),
    }
}

const fn id(name: &'static str, text: fn(&mut Random, &str) -> Vec<u8>) -> Kind {
    Kind {
        name,
        make: Make::Id(text),
    }
}

const fn number(name: &'static str, text: fn(&mut Random, &str) -> Vec<u8>) -> Kind {
    Kind {
        name,
        make: Make::Number(text),
    }
}

const fn line(name: &'static str, text: fn(&mut Random, &str) -> Vec<u8>) -> Kind {
    Kind {
        name,
        make: Make::Line(text),
    }
}

pub const KINDS: &[Kind] = &[
    // Sheets that are of the form.
    whole("good", |random| {
        let count = object_count(random);
        imported(good_rows(random, count))
    }),
    whole("64 lines", |random| imported(good_rows(random, MOST_OBJECTS))),
    whole("ids 0 and 65,535", |random| {
        let count = random.between(2, MOST_OBJECTS);
        let mut rows = good_rows(random, count);
        let ids = [0, 65_535].into_iter().chain(1..);
        rows.iter_mut().zip(ids).for_each(|(row, id)| row.id = id);
        random.shuffle(&mut rows);
        imported(rows)
    }),
    whole("a cost out of its range", |random| {
        one_bad_row(random, 7, |random, row| row.cost = bad_cost(random))
    }),
    whole("a cost of 0", |random| one_bad_row(random, 7, |_, row| row.cost = 0)),
    whole("a cost of 4,294,967,295", |random| {
        one_bad_row(random, 7, |_, row| row.cost = u32::MAX)
    }),
    whole("a validity out of its range", |random| {
        one_bad_row(random, 8, |random, row| row.validity = bad_validity(random))
    }),
    whole("a validity of 0", |random| {
        one_bad_row(random, 8, |_, row| row.validity = 0)
    }),
    whole("a validity of 4,294,967,295", |random| {
        one_bad_row(random, 8, |_, row| row.validity = u32::MAX)
    }),
    whole("a hold out of its range", |random| {
        one_bad_row(random, 6, |random, row| row.hold = bad_hold(random, row))
    }),
    whole("a hold of 0", |random| one_bad_row(random, 6, |_, row| row.hold = 0)),
    whole("a hold one above its range", |random| {
        one_bad_row(random, 6, |_, row| row.hold = row.cost.min(MOST_HOLD) + 1)
    }),
    whole("a hold of 4,294,967,295", |random| {
        one_bad_row(random, 6, |_, row| row.hold = u32::MAX)
    }),
    whole("a hold of 65,536", |random| {
        let count = object_count(random);
        let mut rows = good_rows(random, count);
        let at = place(random, count);
        rows[at].cost = random.words(MOST_HOLD, 1_000_000);
        rows[at].hold = MOST_HOLD;
        imported(rows)
    }),
    whole("a hold out of its range, and a cost", |random| {
        one_bad_row(random, 7, |random, row| {
            row.hold = bad_hold(random, row);
            row.cost = bad_cost(random);
        })
    }),
    whole("a hold out of its range, and a validity", |random| {
        one_bad_row(random, 6, |random, row| {
            row.hold = bad_hold(random, row);
            row.validity = bad_validity(random);
        })
    }),
    whole("equal ids", equal_ids),
    whole("spoiled rows", |random| {
        let count = object_count(random);
        let mut rows = good_rows(random, count);
        spoil_rows(random, &mut rows);
        of_any_answer(sheet(&rows).into_bytes())
    }),
    whole("an empty file", |_| refused_sheet(Vec::new(), refused(4))),
    whole("65 lines", |random| too_many_lines(random, MOST_OBJECTS + 1)),
    whole("more than 65 lines", |random| {
        let count = random.between(MOST_OBJECTS + 2, 140);
        too_many_lines(random, count)
    }),
    whole("4,096 bytes of lines", |random| {
        refused_sheet(lines_of(random, MOST_BYTES), refused(4))
    }),
    whole("4,097 bytes of lines", |random| {
        refused_sheet(lines_of(random, MOST_BYTES + 1), refused(2))
    }),
    whole("more bytes, of any kind", |random| {
        let length = random.pick(&[MOST_BYTES + 1, MOST_BYTES + 2, 5000, 8192, 70_000]);
        let mut bytes = any_damage(random);
        bytes.resize_with(length, || random.pick(b"0,\r\n"));
        refused_sheet(bytes, refused(2))
    }),
    // Digits, and nothing else.
    whole("4,096 bytes of digits", |random| {
        refused_sheet(digits(random, MOST_BYTES), refused_at(17, 0))
    }),
    whole("4,097 bytes of digits", |random| {
        refused_sheet(digits(random, MOST_BYTES + 1), refused(2))
    }),
    whole("a number that fills the file", a_number_that_fills_the_file),
    // Numbers too large.
    id("an id of 65,536", |_, _| b"65536".to_vec()),
    id("an id above 65,535", |random, _| {
        let any = random.words(65_536, u32::MAX);
        text(random.pick(&[65_537, 99_999, 100_000, 655_350, u32::MAX, any]))
    }),
    id("an id good only in its lower 16 bits", |random, good| {
        above(good, u128::from(random.words(1, 65_535)) << 16)
    }),
    number("a number of 4,294,967,296", |_, _| b"4294967296".to_vec()),
    number("a number above 4,294,967,295", |random, _| {
        let any = (1 << 32) + u64::from(random.word());
        text(random.pick(&[4_294_967_297, 4_294_967_300, 5_000_000_000, 9_999_999_999, any]))
    }),
    field("a number good only in its lower 32 bits", |random, good| {
        above(good, u128::from(random.word().max(1)) << 32)
    }),
    field("a number good only in its lower 64 bits", |random, good| {
        above(good, u128::from(random.word().max(1)) << 64)
    }),
    field("a number of 11 to 60 digits", |random, _| {
        let length = random.between(11, 60);
        digits(random, length)
    }),
    // Zeros that lead.
    field("00", |_, _| b"00".to_vec()),
    field("a leading zero", |_, good| text(format!("0{good}"))),
    field("many leading zeros", |random, good| {
        let zeros = "0".repeat(random.between(2, 30));
        text(format!("{zeros}{good}"))
    }),
    // Signs, spaces, quotes and other things that are not digits.
    field("+1", |_, _| b"+1".to_vec()),
    field("a sign", |random, good| {
        text(format!("{}{good}", random.pick(&["+", "-", "--", "+-"])))
    }),
    field("-0", |_, _| b"-0".to_vec()),
    field("an empty field", |_, _| Vec::new()),
    field("a space before", |random, good| {
        text(format!("{}{good}", random.pick(&[" ", "  ", "\t", "\u{B}", "\u{A0}"])))
    }),
    field("a space after", |random, good| {
        text(format!("{good}{}", random.pick(&[" ", "  ", "\t", "\u{C}", "\u{A0}"])))
    }),
    field("a space alone", |_, _| b" ".to_vec()),
    field("quotes", |random, good| {
        let quote = random.pick(&["\"", "'", "\"\""]);
        text(format!("{quote}{good}{quote}"))
    }),
    field("a quote that does not end", |_, good| text(format!("\"{good}"))),
    field("other ways to print a number", |random, good| {
        let ways = ["#.0", "#e0", "0x#", "#_0", "#'000", "#.", "#%", "(#)", "=#"];
        text(random.pick(&ways).replace('#', good))
    }),
    field("digits of other scripts", |random, _| {
        text(random.pick(&["\u{FF11}", "\u{663}", "\u{967}", "\u{B2}", "\u{1D7D9}"]))
    }),
    field("a byte next to the digits", |random, good| {
        let byte = random.pick(b"/:");
        with_byte(random, good, byte)
    }),
    field("a byte above 127", |random, good| {
        let byte = random.words(128, 255) as u8;
        with_byte(random, good, byte)
    }),
    field("a digit with its highest bit set", |random, good| {
        let mut bytes = good.as_bytes().to_vec();
        let at = random.below(bytes.len());
        bytes[at] |= 0x80;
        bytes
    }),
    field("a byte 0", |random, good| with_byte(random, good, 0)),
    // Lines with too few or too many fields.
    line("an empty line", |_, _| b"\r\n".to_vec()),
    line("one field", |random, _| text(format!("{}\r\n", random.words(0, 9)))),
    line("two fields", |_, good| {
        let two: Vec<&str> = good.split(',').take(2).collect();
        text(format!("{}\r\n", two.join(",")))
    }),
    line("three fields, as before there were holds", |_, good| {
        let (three, _) = good.rsplit_once(',').expect("four fields");
        text(format!("{three}\r\n"))
    }),
    line("five fields", |random, good| {
        text(format!("{good},{}\r\n", random.words(0, 99)))
    }),
    line("a comma after the last field", |_, good| text(format!("{good},\r\n"))),
    line("a comma before the first field", |_, good| text(format!(",{good}\r\n"))),
    line("commas alone", |random, _| {
        text(format!("{}\r\n", ",".repeat(random.between(1, 4))))
    }),
    line("other marks between the fields", |random, good| {
        let mark = random.pick(&[";", "\t", " ", ", ", " ,", "|", ".", ",,"]);
        text(format!("{}\r\n", good.replace(',', mark)))
    }),
    // Lines that do not end as they should.
    line("no CR LF", |_, good| text(good)),
    line("no CR", |_, good| text(format!("{good}\n"))),
    line("a lone CR", |_, good| text(format!("{good}\r"))),
    line("LF CR", |_, good| text(format!("{good}\n\r"))),
    line("CR CR LF", |_, good| text(format!("{good}\r\r\n"))),
    line("LF CR LF", |_, good| text(format!("{good}\n\r\n"))),
    line("something between the last field and CR LF", |random, good| {
        text(format!("{good}{}\r\n", random.pick(&[" ", "\0", "\t", "\u{1A}", "x"])))
    }),
    line("CR, LF or CR LF within the line", |random, good| {
        // Not within the last field, where CR LF would leave a line of the form.
        let last_field = good.rfind(',').expect("four fields") + 1;
        let at = random.between(0, last_field);
        let mark = random.pick(&["\r", "\n", "\r\n"]);
        text(format!("{}{mark}{}\r\n", &good[..at], &good[at..]))
    }),
    line("a header in the place of a line", |_, _| {
        b"id,cost,validity,hold\r\n".to_vec()
    }),
    // What stands before the first line, or after the last.
    whole("a header", |random| {
        before_the_lines(random, b"id,cost,validity,hold\r\n")
    }),
    whole("a byte order mark", |random| before_the_lines(random, b"\xEF\xBB\xBF")),
    whole("something after the last line", after_the_lines),
    whole("a line by itself that is none", |random| {
        let bytes = random.pick(&[
            "\r", "\n", "\r\n", "\n\r", ",", ",,", ",,\r\n", "0", " ", "\0", "\u{1A}",
        ]);
        refused_sheet(text(bytes), refused_at(17, 0))
    }),
    whole("the last line cut", the_last_line_cut),
    whole("4,096 bytes, the last line cut", |random| {
        let mut bytes = lines_of(random, MOST_BYTES + 1);
        bytes.pop();
        let last = count_of_ends(&bytes);
        refused_sheet(bytes, refused_at(17, last))
    }),
    whole("a bad line after the 64th", |random| {
        let count = random.between(MOST_OBJECTS + 1, 120);
        let at = random.between(MOST_OBJECTS, count - 1);
        bad_line(random, count, at)
    }),
    whole("a bad line among too many", |random| {
        let count = random.between(MOST_OBJECTS + 1, 120);
        let at = random.below(MOST_OBJECTS);
        bad_line(random, count, at)
    }),
    // Whatever comes.
    whole("odd lines", odd_lines),
    whole("any bytes", |random| {
        let most = random.pick(&[10, 100, 4100]);
        let length = random.between(1, most);
        of_any_answer((0..length).map(|_| random.byte()).collect())
    }),
    whole("any of the bytes that a sheet has", |random| {
        let most = random.pick(&[8, 16, 100, 4100]);
        let length = random.between(1, most);
        of_any_answer((0..length).map(|_| random.pick(b"0123456789,,,,,,\r\n")).collect())
    }),
];

fn text(what: impl ToString) -> Vec<u8> {
    what.to_string().into_bytes()
}

fn of_any_answer(bytes: Vec<u8>) -> Sheet {
    Sheet { bytes, known: None }
}

fn refused_sheet(bytes: Vec<u8>, refusal: Refusal) -> Sheet {
    Sheet {
        bytes,
        known: Some(Err(refusal)),
    }
}

fn imported(rows: Vec<ObjectRow>) -> Sheet {
    Sheet {
        bytes: sheet(&rows).into_bytes(),
        known: Some(Ok(())),
    }
}

fn good_rows(random: &mut Random, count: usize) -> Vec<ObjectRow> {
    let times = random.pick(&[Times::Short, Times::Middle, Times::Long, Times::Tied, Times::Ends]);
    object_rows(random, count, times)
}

/// Rows of any count and with any numbers, for sheets that get 17, since that comes before 4, 7, 6, 8 and 9.
fn any_rows(random: &mut Random) -> Vec<ObjectRow> {
    let count = match random.below(10) {
        0 => random.between(MOST_OBJECTS, 120),
        _ => object_count(random),
    };
    any_rows_of(random, count)
}

fn any_rows_of(random: &mut Random, count: usize) -> Vec<ObjectRow> {
    let mut rows = good_rows(random, count);
    if random.one_in(3) {
        spoil_rows(random, &mut rows);
    }
    rows
}

/// The lines of a sheet, each with its CR LF.
fn lines(rows: &[ObjectRow]) -> Vec<Vec<u8>> {
    rows.iter().map(|row| sheet(&[*row]).into_bytes()).collect()
}

/// The line of a row without its CR LF.
fn without_end(row: &ObjectRow) -> String {
    sheet(&[*row]).trim_end().to_string()
}

/// The line of a row with another text for one of its fields.
fn with_field(random: &mut Random, row: &ObjectRow, which: usize, text: fn(&mut Random, &str) -> Vec<u8>) -> Vec<u8> {
    let line = without_end(row);
    let mut fields: Vec<Vec<u8>> = line.split(',').map(|field| field.as_bytes().to_vec()).collect();
    fields[which] = text(random, line.split(',').nth(which).expect("four fields"));
    let mut line = fields.join(&b',');
    line.extend(b"\r\n");
    line
}

/// A sheet with one line spoiled, and sometimes a later one too: the first is told.
fn spoiled_at_a_line(random: &mut Random, spoil: impl Fn(&mut Random, &ObjectRow) -> Vec<u8>) -> Sheet {
    let rows = any_rows(random);
    let at = place(random, rows.len());
    let mut lines = lines(&rows);
    lines[at] = spoil(random, &rows[at]);
    if at + 1 < lines.len() && random.one_in(3) {
        let later = random.between(at + 1, lines.len() - 1);
        lines[later] = another_bad_line(random);
    }
    refused_sheet(lines.concat(), refused_at(17, at))
}

/// A line that is not of the form, also where what is before it has no end.
fn another_bad_line(random: &mut Random) -> Vec<u8> {
    text(random.pick(&["x\r\n", "x,1,2,1\r\n", "\"1\",2,3,1\r\n", "-1,2\r\n"]))
}

/// So many lines, with a bad one at this place.
fn bad_line(random: &mut Random, count: usize, at: usize) -> Sheet {
    let mut lines = lines(&any_rows_of(random, count));
    lines[at] = another_bad_line(random);
    refused_sheet(lines.concat(), refused_at(17, at))
}

/// A sheet of good rows but one.
fn one_bad_row(random: &mut Random, number: u32, spoil: fn(&mut Random, &mut ObjectRow)) -> Sheet {
    let count = object_count(random);
    let mut rows = good_rows(random, count);
    let at = place(random, count);
    spoil(random, &mut rows[at]);
    refused_sheet(sheet(&rows).into_bytes(), refused_at(number, at))
}

fn equal_ids(random: &mut Random) -> Sheet {
    let count = object_count(random).max(2);
    let mut rows = good_rows(random, count);
    let later = 1 + place(random, count - 1);
    rows[later].id = rows[random.below(later)].id;
    refused_sheet(sheet(&rows).into_bytes(), refused_at(9, later))
}

/// More than 64 lines, of rows that may have faults, since 4 comes before 7, 6, 8 and 9.
fn too_many_lines(random: &mut Random, count: usize) -> Sheet {
    let rows = any_rows_of(random, count);
    refused_sheet(sheet(&rows).into_bytes(), refused(4))
}

/// Lines of the form, with just so many bytes together.
fn lines_of(random: &mut Random, length: usize) -> Vec<u8> {
    let mut bytes = Vec::new();
    while length - bytes.len() > 2 * LONGEST_LINE {
        let next = random.between(SHORTEST_LINE, LONGEST_LINE);
        bytes.extend(line_of(random, next));
    }
    // More than one line and at most two are left, so the half of it is a line.
    let half = (length - bytes.len()) / 2;
    bytes.extend(line_of(random, half));
    let rest = length - bytes.len();
    bytes.extend(line_of(random, rest));
    bytes
}

/// The bytes of "0,0,0,0" and of "10000,1000000000,1000000000,1000000000", with CR LF.
const SHORTEST_LINE: usize = 9;
const LONGEST_LINE: usize = 40;

/// A line of the form, with just so many bytes.
fn line_of(random: &mut Random, length: usize) -> Vec<u8> {
    // What is left for digits by three commas, CR and LF. Each field gets as many as leave enough, and not too many,
    // for those after it.
    let mut digits = length - 5;
    let mut fields = Vec::new();
    for (most, after) in [(5, 3), (10, 2), (10, 1), (10, 0)] {
        let of_field = random.between(1.max(digits.saturating_sub(10 * after)), most.min(digits - after));
        fields.push("1".repeat(of_field));
        digits -= of_field;
    }
    text(format!("{}\r\n", fields.join(",")))
}

/// So many digits, of which the first is not 0.
fn digits(random: &mut Random, length: usize) -> Vec<u8> {
    let mut digits: Vec<u8> = (0..length).map(|_| random.pick(b"0123456789")).collect();
    digits[0] = random.pick(b"123456789");
    digits
}

fn a_number_that_fills_the_file(random: &mut Random) -> Sheet {
    let (before, after) = random.pick(&[
        ("", ",1,2,1\r\n"),
        ("1,", ",2,1\r\n"),
        ("1,1,", ",1\r\n"),
        ("1,1,2,", "\r\n"),
        ("1,1,2,", ""),
    ]);
    let length = MOST_BYTES - before.len() - after.len();
    let bytes = [text(before), digits(random, length), text(after)].concat();
    refused_sheet(bytes, refused_at(17, 0))
}

/// A good number and so much more.
fn above(good: &str, more: u128) -> Vec<u8> {
    let good: u128 = good.parse().expect("a number");
    text(good + more)
}

/// A field with one more byte, anywhere in it.
fn with_byte(random: &mut Random, good: &str, byte: u8) -> Vec<u8> {
    let mut bytes = good.as_bytes().to_vec();
    bytes.insert(random.between(0, bytes.len()), byte);
    bytes
}

fn before_the_lines(random: &mut Random, what: &[u8]) -> Sheet {
    let rows = any_rows(random);
    let bytes = [what, sheet(&rows).as_bytes()].concat();
    refused_sheet(bytes, refused_at(17, 0))
}

fn after_the_lines(random: &mut Random) -> Sheet {
    let rows = any_rows(random);
    let what = random.pick(&["\r\n", "\r", "\n", "\n\r", " ", "\0", "\u{1A}", "0", ","]);
    let bytes = text(sheet(&rows) + what);
    refused_sheet(bytes, refused_at(17, rows.len()))
}

/// The last line without some of its last bytes, or all but one of them.
fn the_last_line_cut(random: &mut Random) -> Sheet {
    let rows = any_rows(random);
    let mut bytes = text(sheet(&rows));
    let last = rows.len() - 1;
    let most = without_end(&rows[last]).len() + 1;
    let less = random.pick(&[1, 2, 3, most]).min(most);
    bytes.truncate(bytes.len() - less);
    refused_sheet(bytes, refused_at(17, last))
}

fn count_of_ends(bytes: &[u8]) -> usize {
    bytes.iter().filter(|byte| **byte == b'\n').count()
}

/// A few lines, whose fields, marks and ends are mostly but not always as they should be.
fn odd_lines(random: &mut Random) -> Sheet {
    let mut bytes = Vec::new();
    for _ in 0..random.between(1, 5) {
        let fields = random.pick(&[4, 4, 4, 4, 4, 4, 4, 4, 4, 4, 4, 4, 3, 5]);
        for which in 0..fields {
            if which > 0 {
                bytes.push(b',');
            }
            bytes.extend(odd_field(random));
        }
        let ends = ["\r\n", "\r\n", "\r\n", "\r\n", "\r\n", "\r\n", "\r\n", "\n", "\r", ""];
        bytes.extend(text(random.pick(&ends)));
    }
    of_any_answer(bytes)
}

fn odd_field(random: &mut Random) -> Vec<u8> {
    let usual = [
        "0", "1", "1", "2", "3", "9", "10", "500", "65535", "65536", "65537", "999999", "1000000",
    ];
    let odd = [
        "00",
        "1000001",
        "4294967295",
        "4294967296",
        "18446744073709551617",
        "01",
        "+1",
        "-1",
        "",
        " 1",
    ];
    match random.one_in(20) {
        true => text(random.pick(&odd)),
        false => text(random.pick(&usual)),
    }
}

/// A sheet, mostly a short one, damaged by up to four changes of its bytes, or by none.
pub fn any_damage(random: &mut Random) -> Vec<u8> {
    let count = match random.one_in(3) {
        true => object_count(random),
        false => random.between(1, 4),
    };
    let mut bytes = text(sheet(&good_rows(random, count)));
    for _ in 0..random.between(0, 4) {
        damage(random, &mut bytes);
    }
    bytes
}

fn damage(random: &mut Random, bytes: &mut Vec<u8>) {
    let byte = random.pick(b"0123456789,\r\n+- \"");
    if bytes.is_empty() {
        return bytes.push(byte);
    }
    let at = match random.one_in(4) {
        true => place(random, bytes.len()),
        false => random.below(bytes.len()),
    };
    let other = random.below(bytes.len());
    match random.below(8) {
        0 | 1 => bytes[at] ^= 1 << random.below(8),
        2 => bytes[at] = byte,
        3 => bytes.insert(at, byte),
        4 => drop(bytes.remove(at)),
        5 => bytes.swap(at, other),
        6 => bytes.truncate(at),
        _ => {
            // A piece of it once more, which may be whole lines.
            let piece = bytes[at.min(other)..=at.max(other)].to_vec();
            bytes.extend(piece);
        }
    }
}
