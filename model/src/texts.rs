//! Random Intel HEX texts: right ones of many shapes, and spoiled ones. What a text comes to is not decided here.

use crate::hex::{self, DATA, END, HALF, UPPER, UPPER_BYTES};
use crate::rng::Rng;
use std::collections::BTreeSet;
use std::fmt;

/// A text, and what it was made to show: shapes, and the faults that it was given.
pub struct Text {
    pub bytes: Vec<u8>,
    pub shapes: BTreeSet<&'static str>,
    pub faults: Vec<Fault>,
}

/// What can be wrong with a text.
#[derive(Debug, Clone, Copy, PartialEq, Eq, PartialOrd, Ord)]
pub enum Fault {
    BadDigit,
    NoColon,
    TextBeforeColon,
    WrongCount,
    OddDigits,
    WrongSum,
    UnknownType,
    LengthOfEnd,
    LengthOfUpper,
    PastArray,
    TwoOnOneRecord,
    NoEnd,
    TextBehindEnd,
    NoLastLineEnd,
    BlankLine,
    CrAlone,
    TextBehindSum,
    LineEndLost,
    Empty,
    Truncated,
    AnyByte,
    Garbage,
}

/// All of them, and how often each comes among a hundred or so.
pub const FAULTS: [(usize, Fault); 22] = [
    (8, Fault::BadDigit),
    (4, Fault::NoColon),
    (5, Fault::TextBeforeColon),
    (6, Fault::WrongCount),
    (4, Fault::OddDigits),
    (14, Fault::WrongSum),
    (14, Fault::UnknownType),
    (5, Fault::LengthOfEnd),
    (5, Fault::LengthOfUpper),
    (18, Fault::PastArray),
    (12, Fault::TwoOnOneRecord),
    (4, Fault::NoEnd),
    (7, Fault::TextBehindEnd),
    (4, Fault::NoLastLineEnd),
    (4, Fault::BlankLine),
    (7, Fault::CrAlone),
    (5, Fault::TextBehindSum),
    (5, Fault::LineEndLost),
    (4, Fault::Empty),
    (5, Fault::Truncated),
    (5, Fault::AnyByte),
    (4, Fault::Garbage),
];

impl fmt::Display for Fault {
    fn fmt(&self, f: &mut fmt::Formatter) -> fmt::Result {
        f.write_str(match self {
            Fault::BadDigit => "bad digit",
            Fault::NoColon => "no colon",
            Fault::TextBeforeColon => "text before the colon",
            Fault::WrongCount => "wrong count",
            Fault::OddDigits => "a digit too few or too many",
            Fault::WrongSum => "wrong checksum",
            Fault::UnknownType => "unknown type",
            Fault::LengthOfEnd => "length of 01",
            Fault::LengthOfUpper => "length of 04",
            Fault::PastArray => "past the array",
            Fault::TwoOnOneRecord => "two on one record",
            Fault::NoEnd => "no end record",
            Fault::TextBehindEnd => "text behind the end record",
            Fault::NoLastLineEnd => "last line without LF",
            Fault::BlankLine => "blank line",
            Fault::CrAlone => "CR alone",
            Fault::TextBehindSum => "text behind the checksum",
            Fault::LineEndLost => "two records on a line",
            Fault::Empty => "empty text",
            Fault::Truncated => "cut off",
            Fault::AnyByte => "any byte changed",
            Fault::Garbage => "garbage",
        })
    }
}

/// In so many of a hundred spoiled texts there is a second fault.
const SECOND_FAULT_PERCENT: usize = 25;
/// What comes half of the time, and what comes now and then.
const HALF_PERCENT: usize = 50;
const RARE_PERCENT: usize = 10;
const FAR_PERCENT: usize = 35;

/// How a right text is laid out.
#[derive(Clone, Copy)]
enum Layout {
    /// The whole array in rows of one width.
    Rows,
    /// Records here and there, at times one over another.
    Scattered,
    /// Records at the edges of the array and of its halves.
    Edges,
    /// The end record alone, or beside others without data.
    Bare,
}

const LAYOUTS: [(usize, Layout); 4] =
    [(30, Layout::Rows), (40, Layout::Scattered), (27, Layout::Edges), (3, Layout::Bare)];
/// Widths of rows; a whole array has at most so many lines, but now and then.
const WIDTHS: [usize; 10] = [1, 3, 8, 16, 16, 16, 32, 64, 128, 255];
const MOST_ROWS: usize = 8_192;
const MORE_ROWS_PERCENT: usize = 2;
const MOST_RECORDS: usize = 24;
const MOST_ASIDES: usize = 3;
const MOST_DATA: usize = 255;
const PAGE: usize = 32;
/// In so many of a hundred records the upper address bits are said again, or something stands before it.
const AGAIN_PERCENT: usize = 6;
const ASIDE_PERCENT: usize = 8;
const OVER_PERCENT: usize = 35;
const EDGE_PERCENT: usize = 60;
const END_ADDRESS_PERCENT: usize = 20;
const UPPER_ADDRESS_PERCENT: usize = 15;

/// Which digits and which line ends a text has.
#[derive(Clone, Copy)]
enum Case {
    Upper,
    Lower,
    Mixed,
}

#[derive(Clone, Copy)]
enum Ends {
    Lf,
    CrLf,
    Mixed,
}

const CASES: [(usize, Case); 3] = [(5, Case::Upper), (3, Case::Lower), (4, Case::Mixed)];
const ENDS: [(usize, Ends); 3] = [(5, Ends::Lf), (3, Ends::CrLf), (4, Ends::Mixed)];
const LF: &[u8] = b"\n";
const CR_LF: &[u8] = b"\r\n";
/// Types that Intel has and the request has not.
const OTHER_TYPES: [u8; 3] = [2, 3, 5];
/// Bytes next to the digits, and others that a reader may take for something else.
const ALMOST_DIGITS: &[u8] = b"/:;@G`gOolxX .-\t\0\r\x1A\x7F\xFF";
const ALMOST_DIGIT_PERCENT: usize = 70;
const LONGEST_GARBAGE: usize = 60;
const CHECK_BYTES: usize = 1;
const HEAD_BYTES: usize = 4;
const KIND_AT: usize = 3;

/// A line: its record, as it was meant, and its text.
struct Line {
    record: Vec<u8>,
    text: Vec<u8>,
}

/// A text in the making, for an array of this size.
struct Draft<'a> {
    rng: &'a mut Rng,
    size: usize,
    case: Case,
    ends: Ends,
    upper: usize,
    lines: Vec<Line>,
    shapes: BTreeSet<&'static str>,
    named: Vec<bool>,
    /// The last data record ran past FFFFh, and no type 04 record came since.
    ran_past: bool,
}

/// A right text.
pub fn right(rng: &mut Rng, size: usize) -> Text {
    let mut draft = Draft::new(rng, size);
    draft.fill();
    draft.text(Vec::new())
}

/// A right text that names every byte of the array, in rows of 16.
pub fn whole(rng: &mut Rng, size: usize) -> Text {
    const USUAL_WIDTH: usize = 16;
    let mut draft = Draft::new(rng, size);
    draft.rows(USUAL_WIDTH);
    draft.end();
    draft.text(Vec::new())
}

/// A text with one fault or two.
pub fn spoiled(rng: &mut Rng, size: usize) -> Text {
    let first = rng.weighted(&FAULTS);
    let mut faults = vec![first];
    if rng.percent(SECOND_FAULT_PERCENT) {
        faults.push(rng.weighted(&FAULTS));
    }
    spoiled_by(rng, size, faults)
}

/// A text with these faults, one after the other.
pub fn spoiled_by(rng: &mut Rng, size: usize, faults: Vec<Fault>) -> Text {
    let mut draft = Draft::new(rng, size);
    draft.fill();
    for fault in &faults {
        draft.spoil(*fault);
    }
    draft.text(faults)
}

impl<'a> Draft<'a> {
    fn new(rng: &'a mut Rng, size: usize) -> Draft<'a> {
        let case = rng.weighted(&CASES);
        let ends = rng.weighted(&ENDS);
        let shapes = BTreeSet::new();
        Draft { rng, size, case, ends, upper: 0, lines: Vec::new(), shapes, named: vec![false; size], ran_past: false }
    }

    fn text(self, faults: Vec<Fault>) -> Text {
        let bytes: Vec<u8> = self.lines.into_iter().flat_map(|line| line.text).collect();
        Text { bytes, shapes: self.shapes, faults }
    }

    /// Lays out a whole right text.
    fn fill(&mut self) {
        if self.rng.percent(HALF_PERCENT) {
            self.say_upper(0); // as srec_cat and intelhex do
        }
        match self.rng.weighted(&LAYOUTS) {
            Layout::Rows => {
                let width = self.rng.pick(&WIDTHS);
                let many = self.size / width > MOST_ROWS;
                let width = if many && !self.rng.percent(MORE_ROWS_PERCENT) { MOST_DATA } else { width };
                self.rows(width);
            }
            Layout::Scattered => {
                for _ in 0..self.rng.between(1, MOST_RECORDS) {
                    self.scattered();
                }
            }
            Layout::Edges => {
                for _ in 0..self.rng.between(1, MOST_RECORDS) {
                    self.edge();
                }
            }
            Layout::Bare => {
                for _ in 0..self.rng.below(MOST_ASIDES) {
                    self.aside();
                }
            }
        }
        self.end();
    }

    /// Every byte of the array, from below, from above or in any order.
    fn rows(&mut self, width: usize) {
        let mut starts: Vec<usize> = (0..self.size).step_by(width).collect();
        match self.rng.below(4) {
            0 => starts.reverse(),
            1 => {
                for last in (1..starts.len()).rev() {
                    starts.swap(last, self.rng.between(0, last));
                }
            }
            _ => {}
        }
        for start in starts {
            let data = self.data(width.min(self.size - start));
            self.put(start, &data);
        }
    }

    /// A record anywhere: over an earlier one, near an edge, or where it happens to be.
    fn scattered(&mut self) {
        if self.rng.percent(ASIDE_PERCENT) {
            self.aside();
        }
        let any = self.rng.between(0, MOST_DATA);
        let count = self.rng.pick(&[0, 1, 2, 15, 16, 16, 17, 32, 254, 255, any, any]);
        let last = self.size - count;
        let taken = self.named.iter().position(|named| *named).unwrap_or(0);
        let address = if self.rng.percent(OVER_PERCENT) {
            taken + self.rng.below(PAGE)
        } else if self.rng.percent(EDGE_PERCENT) {
            let edge = self.rng.pick(&[0, HALF, HALF, self.size / 2, self.size, self.size]);
            (edge + self.rng.below(PAGE)).saturating_sub(self.rng.below(MOST_DATA))
        } else {
            self.rng.below(self.size)
        };
        let data = self.data(count);
        self.put(address.min(last), &data);
    }

    /// A record up to an edge or over one, and what comes after it.
    fn edge(&mut self) {
        let count = self.rng.pick(&[1, 2, 16, 254, 255]);
        let data = self.data(count);
        let before = self.rng.between(1, count);
        match self.rng.below(5) {
            0 => self.put(0, &data),
            1 => self.put(self.size - count, &data),
            2 if self.size > HALF => {
                // Past FFFFh, and the next record under the same upper bits.
                self.put(HALF - before, &data);
                let next = self.data(count);
                let address = self.rng.pick(&[0, 0, (count - before) as u16, 0x1234]);
                self.add(DATA, address, &next);
            }
            3 if self.size > HALF => self.put(HALF - before, &data),
            _ => self.scattered(),
        }
    }

    /// A record that names no byte: one without data, or upper bits that no byte follows.
    fn aside(&mut self) {
        if self.rng.percent(HALF_PERCENT) {
            let any = u16::from_be_bytes([self.rng.byte(), self.rng.byte()]);
            let address = self.rng.pick(&[0, any, u16::MAX]);
            self.add(DATA, address, &[]);
        } else {
            let any = usize::from(u16::from_be_bytes([self.rng.byte(), self.rng.byte()]));
            let upper = self.rng.pick(&[0, 1, 2, any, usize::from(u16::MAX)]);
            self.say_upper(upper);
            if self.rng.percent(HALF_PERCENT) {
                self.add(DATA, u16::MAX, &[]);
            }
        }
    }

    fn data(&mut self, count: usize) -> Vec<u8> {
        (0..count).map(|_| self.rng.byte()).collect()
    }

    /// Data at an array address, with the upper bits before it where they are other ones.
    fn put(&mut self, address: usize, data: &[u8]) {
        if address / HALF != self.upper || self.rng.percent(AGAIN_PERCENT) {
            self.say_upper(address / HALF);
        }
        self.add(DATA, (address % HALF) as u16, data);
    }

    fn say_upper(&mut self, upper: usize) {
        let any = u16::from_be_bytes([self.rng.byte(), self.rng.byte()]);
        let address = if self.rng.percent(UPPER_ADDRESS_PERCENT) { any } else { 0 };
        self.add(UPPER, address, &(upper as u16).to_be_bytes());
    }

    fn end(&mut self) {
        let any = u16::from_be_bytes([self.rng.byte(), self.rng.byte()]);
        let address = if self.rng.percent(END_ADDRESS_PERCENT) { any } else { 0 };
        self.add(END, address, &[]);
        let named = self.named.iter().filter(|named| **named).count();
        self.shapes.insert(match named {
            0 => "no byte named",
            all if all == self.size => "every byte named",
            _ => "gaps",
        });
    }

    /// Adds a right record.
    fn add(&mut self, kind: u8, address: u16, data: &[u8]) {
        self.note(kind, address, data);
        let line = self.line(hex::bytes(kind, address, data));
        self.lines.push(line);
        if kind == UPPER {
            self.upper = data.iter().fold(0, |bits, byte| bits * 0x100 + usize::from(*byte));
        }
    }

    /// A line of the text's style, in which the record need not be right.
    fn line(&mut self, record: Vec<u8>) -> Line {
        let text = self.written(&record);
        Line { record, text }
    }

    fn written(&mut self, record: &[u8]) -> Vec<u8> {
        let lower = match self.case {
            Case::Upper => false,
            Case::Lower => true,
            Case::Mixed => self.rng.percent(HALF_PERCENT),
        };
        let mut text = b":".to_vec();
        let turns = matches!(self.case, Case::Mixed) && self.rng.percent(HALF_PERCENT);
        for byte in record {
            let flips = turns && self.rng.percent(HALF_PERCENT);
            let digits = if lower != flips { format!("{byte:02x}") } else { format!("{byte:02X}") };
            text.extend(digits.bytes());
        }
        let end = self.line_end();
        text.extend(end);
        self.shapes.insert(match self.case {
            Case::Upper => "upper case",
            Case::Lower => "lower case",
            Case::Mixed => "both cases",
        });
        text
    }

    fn line_end(&mut self) -> &'static [u8] {
        self.shapes.insert(match self.ends {
            Ends::Lf => "LF",
            Ends::CrLf => "CR LF",
            Ends::Mixed => "LF and CR LF",
        });
        match self.ends {
            Ends::Lf => LF,
            Ends::CrLf => CR_LF,
            Ends::Mixed => self.rng.pick(&[LF, CR_LF]),
        }
    }

    /// Notes what a right record shows.
    fn note(&mut self, kind: u8, address: u16, data: &[u8]) {
        let mut shape = |what| self.shapes.insert(what);
        let first = self.upper * HALF + usize::from(address);
        match kind {
            UPPER => {
                let bits = u16::from_be_bytes([data[0], data[1]]);
                shape(if self.lines.is_empty() { "04 first" } else { "04 later" });
                if usize::from(bits) == self.upper {
                    shape("04 that changes nothing");
                }
                if usize::from(bits) * HALF >= self.size {
                    shape("04 past the array");
                }
                if address != 0 {
                    shape("04 with an address");
                }
                self.ran_past = false;
            }
            END if address != 0 => drop(shape("01 with an address")),
            END => {}
            _ => {
                match data.len() {
                    0 if first >= self.size => shape("0 bytes past the array"),
                    0 => shape("0 bytes"),
                    1 => shape("1 byte"),
                    MOST_DATA => shape("255 bytes"),
                    _ => true,
                };
                if data.is_empty() {
                    return;
                }
                if self.ran_past {
                    shape("the next one under the old upper bits");
                }
                if first + data.len() == self.size {
                    shape("up to the array's end");
                }
                let named = &mut self.named[first..first + data.len()];
                if named.iter().any(|named| *named) {
                    shape("over an earlier record");
                }
                named.fill(true);
                self.ran_past = first / HALF != (first + data.len() - 1) / HALF;
                if self.ran_past {
                    shape("past FFFFh");
                }
            }
        }
    }

    // ---- faults

    /// A line; the first and the last more often than others.
    fn any_line(&mut self) -> usize {
        let last = self.lines.len() - 1;
        let any = self.rng.between(0, last);
        self.rng.pick(&[0, last, any, any, any])
    }

    /// Puts in records that need not be right, before any line or behind all; the place of the last of them.
    fn insert(&mut self, records: Vec<Vec<u8>>) -> usize {
        let mut at = self.rng.between(0, self.lines.len());
        for record in records {
            let line = self.line(record);
            self.lines.insert(at, line);
            at += 1;
        }
        at - 1
    }

    /// Writes a line again after its record was changed.
    fn rewrite(&mut self, at: usize, record: Vec<u8>) {
        let text = self.written(&record);
        self.lines[at].record = record;
        self.lines[at].text = text;
    }

    /// Gives a text a fault. A second one may find no line left: then there is nothing to spoil.
    fn spoil(&mut self, fault: Fault) {
        if self.lines.is_empty() {
            return;
        }
        let at = self.any_line();
        let text = &self.lines[at].text;
        let length = text.len();
        let end = if text.ends_with(CR_LF) { length - CR_LF.len() } else { length - LF.len().min(length) };
        let place = self.rng.below(end.max(1));
        match fault {
            Fault::BadDigit => {
                let wrong = no_digit(self.rng);
                self.set(at, place.max(1), wrong);
            }
            Fault::NoColon => {
                let wrong = self.rng.pick(b";S0 .\0");
                if self.rng.percent(HALF_PERCENT) && length > 0 {
                    self.lines[at].text.remove(0);
                } else {
                    self.set(at, 0, wrong);
                }
            }
            Fault::TextBeforeColon => {
                let before = self.rng.pick(&[&b" "[..], b"\t", b"x", b"\xEF\xBB\xBF", b":", b"\0"]);
                self.lines[at].text.splice(0..0, before.iter().copied());
            }
            Fault::WrongCount => self.wrong_count(at),
            Fault::OddDigits => {
                let digit = self.rng.pick(b"0123456789ABCDEFabcdef");
                if self.rng.percent(HALF_PERCENT) && end > 1 {
                    self.lines[at].text.remove(place.max(1));
                } else {
                    self.lines[at].text.insert(place.max(1).min(length), digit);
                }
            }
            Fault::WrongSum => self.wrong_sum(at),
            Fault::UnknownType => self.unknown_type(at),
            Fault::LengthOfEnd => self.wrong_length(END, 0),
            Fault::LengthOfUpper => self.wrong_length(UPPER, UPPER_BYTES),
            Fault::PastArray => self.past_array(),
            Fault::TwoOnOneRecord => self.two_on_one(),
            Fault::NoEnd => drop(self.lines.pop()),
            Fault::TextBehindEnd => self.behind_end(),
            Fault::NoLastLineEnd => {
                let last = self.lines.len() - 1;
                let text = &mut self.lines[last].text;
                text.pop();
                if self.rng.percent(HALF_PERCENT) && text.ends_with(b"\r") {
                    text.pop();
                }
            }
            Fault::BlankLine => {
                let blank = self.rng.pick(&[LF, LF, CR_LF, CR_LF, b" \n"]);
                self.lines[at].text.splice(0..0, blank.iter().copied());
            }
            Fault::CrAlone => {
                let wrong = self.rng.pick(&[&b"\r"[..], b"\r\r\n", b"\r\r\n", b"\n\r"]);
                self.lines[at].text.splice(end.., wrong.iter().copied());
            }
            Fault::TextBehindSum => {
                let more = self.rng.pick(&[&b" "[..], b"\t", b"\0", b"00", b";", b" end"]);
                self.lines[at].text.splice(end..end, more.iter().copied());
            }
            Fault::LineEndLost => self.lines[at].text.truncate(end),
            Fault::Empty => self.lines.clear(),
            Fault::Truncated => {
                self.lines.truncate(at + 1);
                let cut = self.rng.below(length.max(1));
                self.lines[at].text.truncate(cut);
            }
            Fault::AnyByte => self.any_byte(at),
            Fault::Garbage => {
                let count = self.rng.between(1, LONGEST_GARBAGE);
                let hexadecimal = self.rng.percent(HALF_PERCENT);
                let any =
                    |rng: &mut Rng| if hexadecimal { rng.pick(b":0123456789abcdefABCDEF\n\r") } else { rng.byte() };
                let garbage = (0..count).map(|_| any(self.rng)).collect();
                self.lines[at].text = garbage;
            }
        }
    }

    /// Sets a byte of a line, where it has that byte.
    fn set(&mut self, line: usize, place: usize, byte: u8) {
        if let Some(old) = self.lines[line].text.get_mut(place) {
            *old = byte;
        }
    }

    /// A count that is not that of the data, the sum right or not; or a byte too few or too many.
    fn wrong_count(&mut self, at: usize) {
        let mut record = self.lines[at].record.clone();
        let data_end = record.len() - CHECK_BYTES;
        let any = self.rng.byte();
        match self.rng.below(4) {
            0 => record[0] = record[0].wrapping_add(self.rng.pick(&[1, 2, 0x80, 0xFF, 0xFE])),
            1 => record[0] = any,
            2 if data_end > HEAD_BYTES => drop(record.remove(data_end - 1)),
            _ => record.insert(data_end, any),
        }
        if self.rng.percent(HALF_PERCENT) {
            mend(&mut record);
        }
        self.rewrite(at, record);
    }

    /// A check byte that is not right, or right for something else: the data alone, the sum not turned round.
    fn wrong_sum(&mut self, at: usize) {
        let mut record = self.lines[at].record.clone();
        let check = record.len() - CHECK_BYTES;
        let minus = |bytes: &[u8]| bytes.iter().fold(0u8, |sum, byte| sum.wrapping_sub(*byte));
        let place = self.rng.between(1, check);
        let change = self.rng.pick(&[1, 0xFF, 0x10, 0x80]);
        match self.rng.below(6) {
            0 => record[check] = minus(&record[HEAD_BYTES..check]),
            1 => record[check] = record[check].wrapping_neg(),
            2 => record[check] = !record[check],
            3 => record[check] = minus(&record[1..check]),
            4 => record[check] = record[check].wrapping_add(change),
            _ => record[place] = record[place].wrapping_add(change),
        }
        self.rewrite(at, record);
    }

    /// Another type in a record that is there, or a record of such a type as Intel has it.
    fn unknown_type(&mut self, at: usize) {
        let other = self.rng.pick(&OTHER_TYPES);
        if self.rng.percent(HALF_PERCENT) {
            let any = self.rng.byte().max(OTHER_TYPES[2] + 1);
            let kind = self.rng.pick(&[other, any]);
            let mut record = self.lines[at].record.clone();
            if let Some(old) = record.get_mut(KIND_AT) {
                *old = kind;
            }
            mend(&mut record);
            self.rewrite(at, record);
        } else {
            let count = if other == 2 { 2 } else { 4 };
            let data = self.data(count);
            self.insert(vec![hex::bytes(other, 0, &data)]);
        }
    }

    /// A record of this type with another length than it may have; its sum is right or not (20 comes first).
    fn wrong_length(&mut self, kind: u8, right: usize) {
        let any = self.rng.between(0, MOST_DATA);
        let count = self.rng.pick(&[0, 1, 2, 3, 4, any]);
        let count = if count == right { right + 1 } else { count };
        let data = self.data(count);
        let mut record = hex::bytes(kind, 0, &data);
        if self.rng.percent(HALF_PERCENT) {
            let check = record.len() - CHECK_BYTES;
            record[check] = record[check].wrapping_add(1);
        }
        self.insert(vec![record]);
    }

    /// A record whose last byte, or all of it, lies past the array; upper bits before it where they are needed.
    fn past_array(&mut self) {
        let (mut records, past) = self.past_record();
        records.push(past);
        self.insert(records);
    }

    /// Such a record, and the one that has to stand before it for its upper bits, if any.
    fn past_record(&mut self) -> (Vec<Vec<u8>>, Vec<u8>) {
        let says = |upper: usize| vec![hex::bytes(UPPER, 0, &(upper as u16).to_be_bytes())];
        let count = self.rng.pick(&[1, 2, 16, 255]);
        let data = self.data(count);
        let over = self.rng.pick(&[1, 1, count]);
        let first = self.size + over - count; // `over` bytes of it are past
        let any = usize::from(u16::from_be_bytes([self.rng.byte(), self.rng.byte()]));
        if self.rng.percent(FAR_PERCENT) {
            // In a half that is not there; of its two bytes the first or the second says so.
            let upper = self.rng.pick(&[self.size.div_ceil(HALF), any.max(2), 0x0100, 0x0101, 0x8000, 0xFFFF]);
            return (says(upper), hex::bytes(DATA, (any % self.size.min(HALF)) as u16, &data));
        }
        let needed = first / HALF != 0 || self.rng.percent(RARE_PERCENT);
        let before = if needed { says(first / HALF) } else { Vec::new() };
        (before, hex::bytes(DATA, (first % HALF) as u16, &data))
    }

    /// One record with two faults, so that their order shows.
    fn two_on_one(&mut self) {
        let both = self.rng.pick(&[[20, 21], [20, 22], [20, 23], [21, 22], [21, 23], [22, 23]]);
        let (mut records, mut record) = self.past_record();
        if !both.contains(&23) {
            records.clear();
        }
        if both.contains(&22) {
            record[KIND_AT] = self.rng.pick(&OTHER_TYPES);
        }
        mend(&mut record);
        let check = record.len() - CHECK_BYTES;
        if both.contains(&21) {
            record[check] = record[check].wrapping_add(1);
        }
        records.push(record);
        let at = self.insert(records);
        if both.contains(&20) {
            let last = self.lines[at].text.len() - CR_LF.len() - 1;
            let place = self.rng.between(1, last);
            let wrong = no_digit(self.rng);
            self.set(at, place, wrong);
        }
    }

    /// Something behind the end record, or whatever the last line is by now.
    fn behind_end(&mut self) {
        let last = self.rng.between(0, MOST_DATA);
        let data = self.data(last);
        let good = self.line(hex::bytes(DATA, 0, &data)).text;
        let upper = self.line(hex::bytes(UPPER, 0, &[0, 0])).text;
        let again = self.line(hex::bytes(END, 0, &[])).text;
        let any = vec![self.rng.byte()];
        let behind =
            [good, upper, again.clone(), again, any, b"\n".into(), b"\r\n".into(), b"\x1A".into(), b"\0".into()];
        let text = behind[self.rng.below(behind.len())].clone();
        self.lines.push(Line { record: hex::bytes(END, 0, &[]), text });
    }

    /// A byte replaced, put in or taken out.
    fn any_byte(&mut self, at: usize) {
        let byte = self.rng.byte();
        let text = &mut self.lines[at].text;
        let place = self.rng.below(text.len().max(1));
        match self.rng.below(3) {
            0 if place < text.len() => text[place] = byte,
            1 if place < text.len() => drop(text.remove(place)),
            _ => text.insert(place.min(text.len()), byte),
        }
    }
}

/// Makes the last byte of a record right.
fn mend(record: &mut [u8]) {
    if let [bytes @ .., check] = record {
        *check = bytes.iter().fold(0, |sum, byte| sum.wrapping_sub(*byte));
    }
}

/// Any byte but a digit of either case and LF.
fn no_digit(rng: &mut Rng) -> u8 {
    if rng.percent(ALMOST_DIGIT_PERCENT) {
        return rng.pick(ALMOST_DIGITS);
    }
    loop {
        let byte = rng.byte();
        if !byte.is_ascii_hexdigit() && byte != b'\n' {
            return byte;
        }
    }
}

#[cfg(test)]
mod tests {
    use super::*;
    use crate::hex::Reason::{BadRecord, Checksum, NoEnd, PastArray, Type};
    use crate::part::{CS32, CSM01};

    const TEXTS: u64 = 60;

    /// The reasons for which texts with one fault may be refused, None where a text may have come out right.
    fn allowed(fault: Fault) -> &'static [Option<hex::Reason>] {
        match fault {
            Fault::BadDigit | Fault::NoColon | Fault::TextBeforeColon | Fault::OddDigits => &[Some(BadRecord)],
            Fault::NoLastLineEnd | Fault::BlankLine | Fault::TextBehindSum | Fault::LineEndLost => &[Some(BadRecord)],
            Fault::WrongCount => &[Some(BadRecord), None],
            Fault::WrongSum => &[Some(Checksum), Some(BadRecord), None],
            Fault::UnknownType => &[Some(Type), Some(NoEnd)],
            Fault::LengthOfEnd | Fault::LengthOfUpper | Fault::CrAlone => &[Some(BadRecord), Some(NoEnd)],
            Fault::PastArray => &[Some(PastArray), Some(NoEnd)],
            Fault::TwoOnOneRecord => &[Some(BadRecord), Some(Checksum), Some(Type), Some(NoEnd)],
            Fault::NoEnd | Fault::TextBehindEnd | Fault::Empty => &[Some(NoEnd)],
            Fault::Truncated => &[Some(BadRecord), Some(NoEnd)],
            Fault::AnyByte | Fault::Garbage => {
                &[Some(BadRecord), Some(Checksum), Some(Type), Some(PastArray), Some(NoEnd), None]
            }
        }
    }

    fn reason(text: &Text, size: usize) -> Option<hex::Reason> {
        hex::load(&text.bytes, &mut vec![0; size]).err().map(|fault| fault.reason)
    }

    #[test]
    fn right_texts_are_loaded() {
        for seed in 0..TEXTS {
            for size in [CS32.array, CSM01.array] {
                let text = right(&mut Rng::new(seed), size);
                assert_eq!(reason(&text, size), None, "{seed}");
                let text = whole(&mut Rng::new(seed), size);
                assert_eq!(reason(&text, size), None, "{seed}");
                assert!(text.shapes.contains("every byte named"));
            }
        }
    }

    #[test]
    fn each_fault_comes_to_its_numbers() {
        for (_, fault) in FAULTS {
            let mut first = 0;
            for seed in 0..TEXTS {
                let size = if seed % 2 == 0 { CS32.array } else { CSM01.array };
                let came = reason(&spoiled_by(&mut Rng::new(seed), size, vec![fault]), size);
                assert!(allowed(fault).contains(&came), "{fault}, seed {seed}: {came:?}");
                first += u64::from(came == allowed(fault)[0]);
            }
            assert!(first * 4 > TEXTS, "{fault}: {first}");
        }
    }
}
