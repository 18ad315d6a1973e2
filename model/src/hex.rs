//! Intel HEX (request E1): a text read into an array, and an array written as text.

/// Why a text is refused, with the request's number.
#[derive(Debug, Clone, Copy, PartialEq, Eq)]
#[repr(u8)]
pub enum Reason {
    BadRecord = 20,
    Checksum = 21,
    Type = 22,
    PastArray = 23,
    NoEnd = 24,
}

/// A refusal, with the line at fault, 1 for the first (D52).
#[derive(Debug, Clone, Copy, PartialEq, Eq)]
pub struct Fault {
    pub reason: Reason,
    pub line: usize,
}

/// The types of records that are read.
pub const DATA: u8 = 0;
pub const END: u8 = 1;
pub const UPPER: u8 = 4;
/// Data bytes of a type 04 record.
pub const UPPER_BYTES: usize = 2;
/// The bytes beside the data: count, address, type, check byte.
const BESIDE_DATA: usize = 5;
/// How many addresses one value of the upper 16 address bits has.
pub const HALF: usize = 0x1_0000;
/// Data bytes of a record that we write.
const ROW: usize = 16;
const HEXADECIMAL: u32 = 16;

/// A record that may be read, with what it says.
enum Record {
    Data { address: usize, bytes: Vec<u8> },
    End,
    Upper(usize),
}

/// Puts what a text says into an array. "A file is checked whole before any byte is stored."
pub fn load(text: &[u8], array: &mut [u8]) -> Result<(), Fault> {
    for (address, byte) in named(text, array.len())? {
        array[address] = byte;
    }
    Ok(())
}

/// The bytes that a text names, with their addresses, in its order; or the first record's fault, 24 last (D41).
fn named(text: &[u8], size: usize) -> Result<Vec<(usize, u8)>, Fault> {
    let mut named = Vec::new();
    let mut upper = 0;
    let mut read = 0;
    let mut lines = text.split_inclusive(|byte| *byte == b'\n');
    while let Some(line) = lines.next() {
        read += 1;
        match record(line, upper, size).map_err(|reason| Fault { reason, line: read })? {
            Record::Data { address, bytes } => named.extend((address..).zip(bytes)),
            Record::Upper(bits) => upper = bits,
            Record::End if lines.next().is_none() => return Ok(named),
            Record::End => break,
        }
    }
    Err(Fault { reason: Reason::NoEnd, line: read + 1 })
}

/// One line as a record, or the first of 20, 21, 22, 23 that it gives.
fn record(line: &[u8], upper: usize, size: usize) -> Result<Record, Reason> {
    let bytes = bytes_of(line).ok_or(Reason::BadRecord)?;
    let (&[count, high, low, kind], [data @ .., _]) = bytes.split_first_chunk().ok_or(Reason::BadRecord)? else {
        return Err(Reason::BadRecord);
    };
    // The length must be the record's own, and one that its type can have (D44).
    let fits = match kind {
        END => data.is_empty(),
        UPPER => data.len() == UPPER_BYTES,
        _ => true,
    };
    if data.len() != usize::from(count) || !fits {
        return Err(Reason::BadRecord);
    }
    if bytes.iter().fold(0u8, |sum, byte| sum.wrapping_add(*byte)) != 0 {
        return Err(Reason::Checksum);
    }
    match kind {
        DATA => {
            let address = upper * HALF + usize::from(u16::from_be_bytes([high, low]));
            // A record without data names no byte (D46).
            if !data.is_empty() && address + data.len() > size {
                return Err(Reason::PastArray);
            }
            Ok(Record::Data { address, bytes: data.to_vec() })
        }
        END => Ok(Record::End),
        UPPER => Ok(Record::Upper(data.iter().fold(0, |bits, byte| bits * 0x100 + usize::from(*byte)))),
        _ => Err(Reason::Type),
    }
}

/// The bytes whose digits stand between a colon and LF or CR LF.
fn bytes_of(line: &[u8]) -> Option<Vec<u8>> {
    let line = line.strip_suffix(b"\n")?;
    let digits = line.strip_suffix(b"\r").unwrap_or(line).strip_prefix(b":")?;
    let digit = |byte: u8| char::from(byte).to_digit(HEXADECIMAL);
    let byte = |pair: &[u8]| match *pair {
        [high, low] => u8::try_from(digit(high)? * HEXADECIMAL + digit(low)?).ok(),
        _ => None,
    };
    digits.chunks(2).map(byte).collect()
}

/// An array as text: 16 data bytes a record, and a type 04 record wherever the upper 16 address bits change, 0 at the
/// start.
pub fn save(array: &[u8]) -> Vec<u8> {
    let mut text = String::new();
    let mut upper = 0;
    for (address, row) in (0..).step_by(ROW).zip(array.chunks(ROW)) {
        if address / HALF != upper {
            upper = address / HALF;
            text += &line(UPPER, 0, &(upper as u16).to_be_bytes());
        }
        text += &line(DATA, (address % HALF) as u16, row);
    }
    text += &line(END, 0, &[]);
    text.into_bytes()
}

/// The bytes of a record, which has at most 255 data bytes: the last makes their sum 0.
pub fn bytes(kind: u8, address: u16, data: &[u8]) -> Vec<u8> {
    let [high, low] = address.to_be_bytes();
    let count = u8::try_from(data.len()).expect("a record's count is a byte");
    let mut bytes = [&[count, high, low, kind], data].concat();
    bytes.push(bytes.iter().fold(0, |check, byte| check.wrapping_sub(*byte)));
    debug_assert_eq!(bytes.len(), BESIDE_DATA + data.len());
    bytes
}

/// A record as we write it.
fn line(kind: u8, address: u16, data: &[u8]) -> String {
    let digits: String = bytes(kind, address, data).iter().map(|byte| format!("{byte:02X}")).collect();
    format!(":{digits}\n")
}

#[cfg(test)]
mod tests {
    use super::*;
    use crate::part::{CS32, CSM01};

    const LAST: &str = ":00000001FF\n";

    /// The number of a refusal and its line; (0, 0) where the text is loaded.
    fn verdict(text: &str, size: usize) -> (u8, usize) {
        named(text.as_bytes(), size).map_or_else(|fault| (fault.reason as u8, fault.line), |_| (0, 0))
    }

    /// A record with the data bytes 1, 2, 3 and so on.
    fn counting(kind: u8, address: u16, count: u8) -> String {
        line(kind, address, &Vec::from_iter(1..=count))
    }

    /// An erased array of this size with the text loaded.
    fn loaded(text: &str, size: usize) -> Vec<u8> {
        let mut array = vec![0xFF; size];
        load(text.as_bytes(), &mut array).expect("a text that may be loaded");
        array
    }

    #[test]
    fn each_refusal_alone() {
        for (text, expected) in [
            ("", (24, 1)),
            (LAST, (0, 0)),
            (":00000001ff\r\n", (0, 0)),
            (":0100000041BE\n:00000001FF\n", (0, 0)),
            (":0100000041BG\n:00000001FF\n", (20, 1)),
            (":0100000041B\n:00000001FF\n", (20, 1)),
            (":0200000041BE\n:00000001FF\n", (20, 1)),
            (":\n", (20, 1)),
            (":01000000\n", (20, 1)),
            ("0100000041BE\n", (20, 1)),
            (":0100000041BF\n", (21, 1)),
            (":020000021000EC\n", (22, 1)),
            (":0400000300001234B3\n", (22, 1)),
            (":0400000500001234B1\n", (22, 1)),
            (":010FFF0041B0\n:00000001FF\n", (0, 0)),
            (":020FFF0041426D\n:00000001FF\n", (23, 1)),
            (":0100000041BE\n", (24, 2)),
        ] {
            assert_eq!(verdict(text, CS32.array), expected, "{text:?}");
        }
    }

    #[test]
    fn the_first_record_that_fails_decides() {
        let size = CS32.array;
        assert_eq!(verdict(":020000021000EC\nx\n", size), (22, 1)); // D41
        assert_eq!(verdict(&format!("{}:01000000\n", counting(DATA, 0, 3)), size), (20, 2));
        // 20 before 21, 21 before 22, 22 before 23, on one record.
        assert_eq!(verdict(":0100000100FF\n", size), (20, 1));
        assert_eq!(verdict(":02FFFF020000FF\n", size), (21, 1));
        assert_eq!(verdict(&counting(2, 0xFFFF, 2), size), (22, 1));
    }

    #[test]
    fn line_ends() {
        let size = CS32.array;
        for text in [":00000001FF", ":00000001FF\r", ":00000001FF \n", " :00000001FF\n", "\n:00000001FF\n", "\x1A"] {
            assert_eq!(verdict(text, size), (20, 1), "{text:?}"); // D42, D43
        }
        assert_eq!(verdict(":00000001FF\r\r\n", size), (20, 1));
        for behind in ["\n", "\r\n", "x", ":", "\x1A", LAST, ":0100000041BE\n"] {
            assert_eq!(verdict(&format!("{LAST}{behind}"), size), (24, 2), "{behind:?}");
            // D43, D48
        }
        assert_eq!(verdict(":0100000041BE\r\n:0100010042BC\n:00000001FF\r\n", size), (0, 0));
    }

    #[test]
    fn lengths_and_addresses_of_01_and_04() {
        let size = CSM01.array;
        for (kind, right) in [(END, 0), (UPPER, 2)] {
            for count in [0, 1, 2, 3, 255] {
                let number = verdict(&counting(kind, 0, count), size).0;
                assert_eq!(number == 20, count != right, "{kind} {count}"); // D44
            }
        }
        assert_eq!(verdict(":00123401B9\n", size), (0, 0)); // D45
        assert_eq!(verdict(":021234040001B3\n:00000001FF\n", size), (0, 0));
    }

    #[test]
    fn only_bytes_that_are_named_count() {
        let far = format!("{}{}", line(UPPER, 0, &[0xFF, 0xFF]), line(DATA, 0xFFFF, &[]));
        assert_eq!(verdict(&format!("{far}{LAST}"), CS32.array), (0, 0)); // D46
        assert_eq!(verdict(&format!("{far}{}", counting(DATA, 0xFFFF, 255)), CSM01.array), (23, 3));
    }

    #[test]
    fn a_record_runs_on_and_the_upper_bits_stay() {
        let text = [counting(DATA, 0xFFF8, 16), line(DATA, 0, &[0xAA]), LAST.to_string()].concat();
        let array = loaded(&text, CSM01.array); // D47
        assert_eq!(array[0xFFF8..0x10008], Vec::from_iter(1..=16));
        assert_eq!((array[0], array[0x10008]), (0xAA, 0xFF));
        assert_eq!(verdict(&counting(DATA, 0xFFFF, 255), CSM01.array), (24, 2));
        let upper = line(UPPER, 0, &[0, 1]);
        assert_eq!(verdict(&format!("{upper}{}{LAST}", counting(DATA, 0xFFFF, 1)), CSM01.array), (0, 0));
        assert_eq!(verdict(&format!("{upper}{}{LAST}", counting(DATA, 0xFFFF, 2)), CSM01.array), (23, 2));
    }

    #[test]
    fn a_later_record_replaces_and_the_rest_stays() {
        let text = [line(DATA, 4, &[1, 2, 3]), line(DATA, 5, &[9]), LAST.to_string()].concat();
        let mut array = vec![0x55; CS32.array];
        load(text.as_bytes(), &mut array).expect("a text that may be loaded");
        assert_eq!(array[3..8], [0x55, 1, 9, 3, 0x55]);
        let refused = [line(DATA, 0, &[7]), ":00000001FE\n".to_string()].concat();
        assert_eq!(load(refused.as_bytes(), &mut array).map_err(|fault| fault.line), Err(2));
        assert_eq!(array[0], 0x55);
    }

    #[test]
    fn what_is_saved_loads_back() {
        for (part, bytes) in [(&CS32, 11_276), (&CSM01, 360_476)] {
            let array: Vec<u8> = (0..part.array).map(|place| (place * 31 + place / 256) as u8).collect();
            let text = String::from_utf8(save(&array)).expect("digits");
            assert_eq!(text.len(), bytes);
            assert_eq!(loaded(&text, part.array), array);
            assert!(!text.contains(":020000040000FA"), "no type 04 record at the start");
            // D51
        }
    }
}
