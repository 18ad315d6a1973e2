//! The transcript's two formats and the bench program (paper, "The transcript").

use crate::bus::{Answer, Bus, Event};
use std::fmt;
use std::io::{self, Read, Write};

/// Digits of an event, and the length of its line with the LF.
const EVENT_DIGITS: usize = 4;
const LINE_BYTES: usize = EVENT_DIGITS + 1;
/// Kind and value of the answer that ends a run, and the status of a malformed line (refusal 9).
const NO_EVENT: Event = Event { kind: 0xFF, value: 0xFF };
pub const MALFORMED: u8 = 9;
const DECIMAL: u8 = 10;
const HEXADECIMAL: u8 = 16;

/// The value of a digit 0-9 A-F.
pub fn digit(byte: u8) -> Option<u8> {
    match byte {
        b'0'..=b'9' => Some(byte - b'0'),
        b'A'..=b'F' => Some(byte - b'A' + DECIMAL),
        _ => None,
    }
}

/// The event on a line, which ends with LF.
fn parse(line: &[u8]) -> Option<Event> {
    let [a, b, c, d, b'\n'] = *line else { return None };
    let pair = |high, low| Some(digit(high)? * HEXADECIMAL + digit(low)?);
    Some(Event { kind: pair(a, b)?, value: pair(c, d)? })
}

/// The line of an event.
pub fn event_line(event: Event) -> String {
    format!("{:02X}{:02X}\n", event.kind, event.value)
}

/// The line of an answer.
fn answer_line(event: Event, answer: Answer) -> String {
    format!("{:02X}{:02X}{:02X}{:02X}\n", event.kind, event.value, answer.status, answer.reply)
}

/// What is wrong with a line (issue 23).
#[derive(Debug, Clone, Copy, PartialEq, Eq)]
pub enum Flaw {
    Empty,
    Short,
    LowerCase,
    CarriageReturn,
    Blank,
    NoDigit,
    Long,
    NoLineEnd,
}

impl fmt::Display for Flaw {
    fn fmt(&self, f: &mut fmt::Formatter) -> fmt::Result {
        f.write_str(match self {
            Flaw::Empty => "an empty line",
            Flaw::Short => "too short",
            Flaw::LowerCase => "a lower-case digit",
            Flaw::CarriageReturn => "a CR",
            Flaw::Blank => "a blank",
            Flaw::NoDigit => "no digit 0-9 A-F",
            Flaw::Long => "too long",
            Flaw::NoLineEnd => "no LF at the end",
        })
    }
}

/// A malformed line, 1 for the first, and what is wrong with it.
#[derive(Debug, Clone, Copy, PartialEq, Eq)]
pub struct Malformed {
    pub line: usize,
    pub flaw: Flaw,
}

/// What is wrong with the bytes of a line that has no event: the first wrong byte decides.
fn flaw(line: &[u8]) -> Flaw {
    let digits = line.iter().take(EVENT_DIGITS).take_while(|byte| digit(**byte).is_some()).count();
    match line.get(digits) {
        None => Flaw::NoLineEnd,
        Some(b'\r') => Flaw::CarriageReturn,
        Some(_) if digits == EVENT_DIGITS => Flaw::Long,
        Some(b'\n') if digits == 0 => Flaw::Empty,
        Some(b'\n') => Flaw::Short,
        Some(b'a'..=b'f') => Flaw::LowerCase,
        Some(b' ' | b'\t') => Flaw::Blank,
        Some(_) => Flaw::NoDigit,
    }
}

/// What is read next: an event, the end, or something malformed. A wrong byte shows in the five that a right
/// line has, since no right line is longer or shorter.
enum Next {
    Event(Event),
    Malformed(Flaw),
    End,
}

fn next(input: &mut impl Read) -> io::Result<Next> {
    let mut line = Vec::with_capacity(LINE_BYTES);
    input.take(LINE_BYTES as u64).read_to_end(&mut line)?;
    Ok(match parse(&line) {
        Some(event) => Next::Event(event),
        None if line.is_empty() => Next::End,
        None => Next::Malformed(flaw(&line)),
    })
}

/// The line that ends a run early, with the number of a refusal.
pub fn closing(status: u8) -> String {
    answer_line(NO_EVENT, Answer { status, reply: 0 })
}

/// Answers a transcript, until it ends or a line is malformed.
pub fn answer(bus: &mut Bus, mut input: impl Read, mut output: impl Write) -> io::Result<Option<Malformed>> {
    let mut line = 1;
    loop {
        match next(&mut input)? {
            Next::Event(event) => output.write_all(answer_line(event, bus.step(event)).as_bytes())?,
            Next::Malformed(flaw) => {
                output.write_all(closing(MALFORMED).as_bytes())?;
                return Ok(Some(Malformed { line, flaw }));
            }
            Next::End => return Ok(None),
        }
        line += 1;
    }
}

/// The events of a transcript up to its end or its first malformed line.
pub fn events(transcript: &[u8]) -> impl Iterator<Item = Event> + '_ {
    transcript.chunks(LINE_BYTES).map_while(parse)
}

#[cfg(test)]
mod tests {
    use super::{Flaw, Malformed, EVENT_DIGITS};
    use crate::program::{self, Folder, Told};
    use crate::words;

    /// Plays a transcript on the board with these words; the answers without their line ends.
    fn answers(words: &str, transcript: &str) -> Vec<String> {
        let words: Vec<String> = words.split_whitespace().map(String::from).collect();
        let mut output = Vec::new();
        let words = words::parse(&words).expect("words");
        program::play(&words, &mut Folder::new(), transcript.as_bytes(), &mut output).expect("no I/O here");
        String::from_utf8(output).expect("digits").lines().map(String::from).collect()
    }

    /// Events separated by spaces, one a line; `0300*3` repeats an event.
    fn lines(events: &str) -> String {
        let repeated = |word: &str| match word.split_once('*') {
            Some((event, count)) => format!("{event}\n").repeat(count.parse().expect("a count")),
            None => format!("{word}\n"),
        };
        events.split_whitespace().map(repeated).collect()
    }

    /// The bytes that the answers to the events 04 hold.
    fn bytes_read(words: &str, events: &str) -> Vec<String> {
        let all = answers(words, &lines(events));
        all.iter().filter(|answer| answer.starts_with("04")).map(|answer| answer[4..].to_string()).collect()
    }

    #[test]
    fn the_papers_example() {
        let input = "0100 03A2 0300 0300 03A5 0200 0701 0100 03A2 0300 0300 0100 03A3 0401 0200";
        let output = "01000000 03A20001 03000001 03000001 03A50001 02000000 07010000 01000000 03A20001 03000001 \
                      03000001 01000000 03A30001 040100A5 02000000";
        assert_eq!(answers("", &lines(input)), output.split_whitespace().collect::<Vec<_>>());
    }

    #[test]
    fn malformed_lines_end_the_run() {
        for bad in ["010", "0100", "0100\r\n", "\n", "010\n", "01000\n", "010g\n", "010a\n", " 0100\n", "010\u{e9}\n"] {
            let expected = ["01000000", "FFFF0900"];
            assert_eq!(answers("", &format!("0100\n{bad}0200\n")[..5 + bad.len()]), expected, "{bad:?}");
            if bad.ends_with('\n') {
                assert_eq!(answers("", &format!("0100\n{bad}0200\n")), expected, "{bad:?}");
            }
        }
        assert_eq!(answers("", ""), Vec::<String>::new());
        assert_eq!(answers("1:1 2:3", ""), ["FFFF0400"]);
    }

    #[test]
    fn the_first_wrong_byte_decides() {
        for (bad, flaw) in [
            ("\n", Flaw::Empty),
            ("010\n", Flaw::Short),
            ("01\r\n", Flaw::CarriageReturn),
            ("0100\r\n", Flaw::CarriageReturn),
            ("\r\n", Flaw::CarriageReturn),
            ("03a2\n", Flaw::LowerCase),
            ("03f \n", Flaw::LowerCase),
            ("03 f\n", Flaw::Blank),
            ("\t0100\n", Flaw::Blank),
            ("01 0\n", Flaw::Blank),
            ("03g2\n", Flaw::NoDigit),
            ("#\n", Flaw::NoDigit),
            ("03\0", Flaw::NoDigit),
            ("03A2a", Flaw::Long),
            ("03A2 \n", Flaw::Long),
            ("03A200\n", Flaw::Long),
            ("0", Flaw::NoLineEnd),
            ("03A2", Flaw::NoLineEnd),
        ] {
            let words = words::parse(&[]).expect("words");
            let transcript = format!("0100\n0200\n{bad}");
            let told = program::play(&words, &mut Folder::new(), transcript.as_bytes(), &mut Vec::new());
            let expected = Told::Malformed(Malformed { line: 3, flaw });
            assert_eq!(told.expect("no I/O here"), expected, "{bad:?}");
        }
    }

    #[test]
    fn a_write_wraps_within_its_page() {
        let read_both = "0700 0100 03A0 0300 031F 0100 03A1 0401 0200 0100 03A0 0300 0300 0100 03A1 0401 0200";
        let write = format!("0100 03A0 0300 031F 0311 0322 0200 {read_both}");
        assert_eq!(bytes_read("2:0", &write), ["0011", "0022"]);
    }

    #[test]
    fn the_33rd_byte_replaces_the_first() {
        let bytes: String = (0..=0x20).map(|byte| format!("03{byte:02X} ")).collect();
        let write = format!("0100 03A0 0300 0300 {bytes} 0200 0700 0100 03A0 0300 0300 0100 03A1 0400 0401 0200");
        assert_eq!(bytes_read("2:0", &write), ["0020", "0001"]);
    }

    #[test]
    fn a_read_goes_from_the_last_address_to_0_and_f000_is_000() {
        let write = "0100 03A0 03F0 0300 0377 0200 0700 0100 03A0 030F 03FF 0100 03A1 0400 0401 0200";
        assert_eq!(bytes_read("2:0", write), ["00FF", "0077"]);
    }

    #[test]
    fn strap_2_with_a16_is_aa() {
        let write = "0100 03AA 0300*2 0355 0200 0700";
        assert_eq!(answers("1:2", &lines(write))[1], "03AA0001");
        // A16 counts in a write's address byte (A8h, AAh) and not in a read's (A9h).
        for (byte, expected) in [("03AA", "0055"), ("03A8", "00FF")] {
            let read = format!("{write} 0100 {byte} 0300*2 0100 03A9 0401 0200");
            assert_eq!(bytes_read("1:2", &read), [expected]);
        }
    }

    #[test]
    fn configuration_writes_that_change_nothing() {
        for data in ["0303 0301 0366", "0303 0301", "0302 0301 0366 0366", "0302 0301 0399"] {
            let write = format!("0100 03B0 0388 0300 {data} 0200 0100 03B0 0388 0300 0100 03B1 0400*3 0401 0200");
            assert_eq!(bytes_read("2:0", &write), ["0000"; 4], "{data}");
        }
        let write = "0100 03B0 0388 0300 03FE 0301 0366 0200 0700 0100 03B1 0400*2 0401 0200";
        assert_eq!(bytes_read("2:0", write), ["0002", "0001", "0002"]);
    }

    #[test]
    fn a_protected_zone_stores_nothing_and_starts_no_cycle() {
        let protect = "0600 0100 03B0 0388 0300 0302 0301 0366 0200 0700";
        let answer = answers("2:0", &lines(&format!("{protect} 0100 03A0 0300 0300 0333 0200 0100 03A1 0401 0200")));
        assert_eq!(answer[17], "03A10001");
        let read = format!("{protect} 0100 03A0 0300 0300 0333 0200 0100 03A0 0300*2 0100 03A1 0401 0200");
        assert_eq!(bytes_read("2:0", &read), ["00FF"]);
    }

    #[test]
    fn cycle_over_at_a_chip_that_has_none_is_refused() {
        let write = "0100 03A0 0300*2 03A5 0200";
        for (before, why) in [
            ("", "fresh"),
            (&format!("{write} 0700"), "over already"),
            (&format!("{write} 0800"), "power up"),
            (&format!("0600 {write}"), "protected"),
            ("0100 03A0 0300*2 0200", "no data"),
            ("0100 03A0 0300*2 03A5 0100 03A0 0200", "broken off"),
            ("0100 03B0 0308 0300 03A5 0200", "read-only half"),
            ("0100 03B0 0388 0300 0302 0301 0399 0200", "not confirmed"),
        ] {
            let came = answers("2:0", &lines(&format!("{before} 0700 0100 03A0")));
            assert_eq!(came[came.len() - 3..], ["07000C00", "01000000", "03A00001"], "{why}");
        }
    }

    #[test]
    fn every_cycle_is_over_once() {
        for write in ["03A0 0300*2 03A5", "03B0 0308 0320 03A5", "03B0 0306 0300*2", "03B0 0388 0300 0302 0301 0366"] {
            let came = answers("2:0", &lines(&format!("0100 {write} 0200 0700*2")));
            assert_eq!(came[came.len() - 2..], ["07000000", "07000C00"], "{write}");
        }
    }

    #[test]
    fn cycle_over_at_the_wrong_chip_leaves_the_right_one_busy() {
        for (busy, wrong) in [(0, 1), (0, 2), (1, 0), (1, 2), (2, 0), (2, 1)] {
            let address = 0xA0 + 2 * busy;
            let write = format!("0100 03{address:02X} 0300*2 03A5 0200");
            let poll = format!("0100 03{address:02X} 0200");
            let came = answers("", &lines(&format!("{write} 070{wrong} {poll} 070{busy} {poll} 070{busy}")));
            let expected = format!(
                "070{wrong}0C00 01000000 03{address:02X}0002 02000000 \
                 070{busy}0000 01000000 03{address:02X}0001 02000000 070{busy}0C00"
            );
            assert_eq!(came[6..], expected.split_whitespace().collect::<Vec<_>>());
        }
    }

    #[test]
    fn cycle_over_with_a_value_that_names_no_chip_is_a_bad_value() {
        for (words, value) in [("2:0", "01"), ("", "03"), ("2:0 2:1 2:2 2:3", "04"), ("", "FF")] {
            for before in ["", "0100 03A0 0300*2 03A5 0200"] {
                let came = answers(words, &lines(&format!("{before} 07{value}")));
                assert_eq!(came.last(), Some(&format!("07{value}0700")), "{words}: {before}");
            }
        }
    }

    #[test]
    fn a_refused_cycle_over_amid_an_exchange_changes_nothing() {
        let identify = "0100 03F8 03A0 0100 03F9 0400*3 0401";
        let configuration = "0100 03B0 0388 0300 0302 0100 03B1 0400*2 0401";
        let write = "0100 03A0 0300 031D 0311 0322 0333 0200";
        let read_back = lines("0700 0100 03A0 0300 031D 0100 03A1 0400*2 0401 0200");
        let before = lines(&format!("{identify} {configuration} {write}"));
        let amid: String = before.lines().map(|line| format!("0700\n{line}\n")).collect();
        let came = answers("2:0", &(amid + &read_back));
        let (refused, rest): (Vec<_>, Vec<_>) = came.into_iter().partition(|answer| answer == "07000C00");
        assert_eq!(refused.len(), before.lines().count());
        assert_eq!(rest[rest.len() - 4..], ["04000011", "04000022", "04010033", "02000000"]);
        assert_eq!(rest, answers("2:0", &(before + &read_back)));
    }

    /// Status and reply of the last event.
    fn last_answer(words: &str, events: &str) -> String {
        answers(words, &lines(events)).pop().expect("an answer").split_off(EVENT_DIGITS)
    }

    /// Makes the chip at strap 0 busy.
    const WRITE: &str = "0100 03A0 0300*2 03A5 0200";
    /// Makes the 24CS32 at strap 1 busy.
    const WRITE_NEXT: &str = "0100 03A2 0300*2 03A5 0200";

    #[test]
    fn the_address_byte_of_a_busy_chip_says_so() {
        for (words, bytes, reply) in [
            ("2:0", "A0 A1 B0 B1", "0002"),
            ("2:0", "A2 B3 C0 90 08 0F F8 F9", "0000"),
            ("1:0", "A0 A1 A2 A3 B0 B1 B2 B3", "0002"),
            ("1:0", "A4 B5", "0000"),
            ("2:0 2:1", "A0 B1", "0002"),
            ("2:0 2:1", "A2 B3 F8", "0001"),
            ("2:0 2:1", "A4 F9", "0000"),
            ("3:0", "A0 A1 A2 A3", "0002"),
            ("3:0", "B0 B1 B2 B3 A4 F8 F9", "0000"), // no 1011 byte names it (request E7)
            ("3:0 2:4", "B0 B3 F9", "0000"),
        ] {
            for byte in bytes.split_whitespace() {
                assert_eq!(last_answer(words, &format!("{WRITE} 0100 03{byte}")), reply, "{words}: {byte}");
            }
        }
    }

    #[test]
    fn only_the_first_byte_after_a_start_says_busy() {
        for events in ["03A0", "0100 03A0*2", "0100 03A2 03A0", "0100 03F8 03A0", "0100 03F9 03A0", "0100 0308 03A0"] {
            assert_eq!(last_answer("2:0", &format!("{WRITE} {events}")), "0000", "{events}");
        }
        // Chip 1 hears the busy chip's byte: after F8h, and as a word-address byte.
        assert_eq!(last_answer("2:0 2:1", &format!("{WRITE} 0100 03F8 03A0")), "0000");
        assert_eq!(last_answer("2:0 2:1", &format!("{WRITE} 0100 03A2 03A0")), "0001");
    }

    #[test]
    fn what_is_done_forgets_the_start_and_what_is_refused_keeps_it() {
        for (between, reply) in [
            ("0400", "0000"),
            ("0401", "0000"),
            ("0200", "0000"),
            ("0701 0400", "0000"),
            ("0100", "0002"),
            ("0500 0600 0501 0601", "0002"),
            ("0701", "0002"),
            ("0701 0701", "0002"),
            ("0402 0502 0702 0101 0201 0801 0000 0900", "0002"),
        ] {
            let events = format!("{WRITE} {WRITE_NEXT} 0100 {between} 03A1");
            assert_eq!(last_answer("2:0 2:1", &events), reply, "{between}");
        }
        // Chip 1 awaits an address byte, so that a read is refused.
        assert_eq!(last_answer("2:0 2:1", &format!("{WRITE} 0100 0400")), "0800");
        assert_eq!(last_answer("2:0 2:1", &format!("{WRITE} 0100 0400 03B0")), "0002");
    }

    #[test]
    fn a_chip_is_busy_at_the_byte_or_not_at_all() {
        for (events, reply) in [
            ("0100 0700 03A0", "0000"),
            ("0100 0700 0401", "00FF"),
            ("0100 0700 03A2", "0002"),
            ("0100 0700 0100 03A0", "0001"),
            ("0100 0800 03A0", "0000"),
        ] {
            let events = format!("{WRITE} {WRITE_NEXT} {events}");
            assert_eq!(last_answer("2:0 2:1", &events), reply, "{events}");
        }
    }

    #[test]
    fn the_id_of_the_chosen_chip() {
        let choose = "0100 03F8 03A9 0100 03F9 0400*4 0401*2 0100 03F9 0401 0200 0100 03F9 0401";
        assert_eq!(bytes_read("2:0 1:2", choose), ["0000", "00D0", "00D0", "0000", "00D0", "00FF", "0000", "00FF"]);
        assert_eq!(bytes_read("2:4 1:0", choose), ["0000", "00D0", "00A8", "0000", "00D0", "00FF", "0000", "00FF"]);
    }

    /// Request E7; source document 002, 6.1, 7.2 and 8.1.
    #[test]
    fn an_at24cm01_has_the_array_of_a_24csm01() {
        let write = "0100 03A6 03FF 03FE 0311 0322 0333 0200 0702";
        let read = "0100 03A6 03FF 03FE 0100 03A5 0400*2 0401 0100 03A6 03FF 0300 0100 03A7 0401 0200";
        for words in ["2:0 2:4 3:1", "2:0 2:4 1:1"] {
            assert_eq!(bytes_read(words, &format!("{write} {read}")), ["0011", "0022", "00FF", "0033"], "{words}");
        }
    }

    /// Source document 002, 7.5: sampled at the Stop, all acknowledged, no cycle, ready at once.
    #[test]
    fn wp_protects_the_whole_at24cm01() {
        for (first, last, stored) in [("0600", "", "00FF"), ("0500", "0600", "00FF"), ("0600", "0500", "0044")] {
            for (address, word) in [("03A0", "0300*2"), ("03A2", "03FF*2")] {
                let write = format!("{first} 0100 {address} {word} 0344 {last} 0200");
                let came = answers("3:0", &lines(&write));
                assert!(came.iter().filter(|answer| answer.starts_with("03")).all(|answer| answer.ends_with("0001")));
                let busy = if stored == "0044" { "0000" } else { "0C00" };
                assert_eq!(last_answer("3:0", &format!("{write} 0700")), busy);
                let read = format!("{write} 0700 0100 {address} {word} 0100 03A1 0401 0200");
                assert_eq!(bytes_read("3:0", &read), [stored], "{first} {last} {address}");
            }
        }
    }

    #[test]
    fn an_at24cm01_answers_neither_1011_nor_f8_nor_f9() {
        for events in ["03B0", "03B1", "03B2", "03B3", "03B0 0308", "03F8", "03F8 03A0", "03F9"] {
            assert_eq!(last_answer("3:0", &format!("0100 {events}")), "0000", "{events}");
        }
        for events in ["0100 03B1", "0100 03F8 03A0 0100 03F9"] {
            assert_eq!(bytes_read("3:0", &format!("{events} 0400*2 0401 0200")), ["00FF"; 3], "{events}");
        }
        // No command to registers that are not there changes how the array is protected, nor starts a cycle.
        let configure = "0100 03B0 0388 0300 0302 0301 0366 0200";
        assert_eq!(last_answer("3:0", &format!("{configure} 0700")), "0C00");
        assert_eq!(last_answer("3:0", &format!("{configure} {WRITE} 0700")), "0000");
    }

    /// Request E7: F8h is acknowledged where some chip of part 1 or 2 is not busy.
    #[test]
    fn f8_beside_an_at24cm01() {
        for (words, events, reply) in [
            ("2:0 3:1", "0100 03F8", "0001"),
            ("2:0 3:1", "0100 03F8 03A4", "0000"),
            ("2:0 3:1", "0100 03F8 03A0", "0001"),
            ("2:0 3:1", "0100 03F8 03A0 0100 03F9", "0001"),
            ("2:0 3:1", "0100 03F8 03A4 0100 03F9", "0000"),
            ("2:0 3:1", &format!("{WRITE} 0100 03F8"), "0000"),
            ("2:0 3:1", &format!("{WRITE} 0100 03A4"), "0001"),
            ("3:0 1:1", &format!("{WRITE} 0100 03F8 03A4"), "0001"),
        ] {
            assert_eq!(last_answer(words, events), reply, "{words}: {events}");
        }
    }

    /// It has no serial number, and those of the others are where they were.
    #[test]
    fn an_at24cm01_between_two_others() {
        let read = |address: u8| format!("0100 03{address:02X} 0308 0300 0100 03{:02X} 0401 0200", address + 1);
        let events = format!("{} {} {}", read(0xB0), read(0xB4), read(0xB8));
        assert_eq!(bytes_read("2:0 3:1 1:2", &events), ["0010", "00FF", "0012"]);
        assert_eq!(bytes_read("3:0 3:1 1:2", &events), ["00FF", "00FF", "0012"]);
    }

    #[test]
    fn a_locked_id_page_does_not_acknowledge_the_lock_command() {
        let lock = "0100 03B0 0306 0300 0300 0200 0700";
        let again = answers("2:0", &lines(&format!("{lock} 0100 03B0 0376 0300 0200")));
        assert_eq!(again[8..10], ["03B00001", "03760000"]);
        let write =
            format!("{lock} 0100 03B0 0308 033F 0344 0200 0100 03B1 0400 0401 0100 03B0 0308 033F 0100 03B1 0401");
        assert_eq!(bytes_read("2:0", &write), ["00FF", "00FF", "00FF"]);
    }
}
