//! Pages of the memories as text (issue 23): what a word `page:K:STORE:N` shows when the run is over.

use crate::bus::Bus;
use crate::transcript::digit;
use std::fmt::Write;

/// The stores that a word can name, and what they are called.
pub const STORES: [&str; 2] = ["array", "security register"];
/// Bytes of a line.
const ROW: usize = 16;
/// A page's number has at most so many digits.
pub const MOST_DIGITS: usize = 4;
const HEXADECIMAL: usize = 16;
/// Stands for a byte that is no printable character.
const UNPRINTABLE: char = '.';

/// A page that is asked for, and the word that asks. None of what it names need be there.
#[derive(Debug, Clone, PartialEq, Eq)]
pub struct Page {
    pub word: String,
    pub chip: usize,
    pub store: usize,
    pub number: usize,
}

pub const PAGE: &str = "page:";

impl Page {
    /// Reads what comes behind `page:`: two digits and one to four, with colons between.
    pub fn parse(word: &str, rest: &str) -> Option<Page> {
        let number = |text: &str, most: usize| {
            let next = |number: usize, byte: u8| Some(number * HEXADECIMAL + usize::from(digit(byte)?));
            (1..=most).contains(&text.len()).then(|| text.bytes().try_fold(0, next))?
        };
        let (chip, rest) = rest.split_once(':')?;
        let (store, page) = rest.split_once(':')?;
        let (chip, store, number) = (number(chip, 1)?, number(store, 1)?, number(page, MOST_DIGITS)?);
        Some(Page { word: word.to_string(), chip, store, number })
    }

    /// The first address of the page and its bytes; None where it is not there.
    pub fn bytes<'a>(&self, bus: &'a Bus) -> Option<(usize, &'a [u8])> {
        let chip = bus.chips().get(self.chip)?;
        let store = [chip.array(), chip.security()].into_iter().nth(self.store)?;
        let size = chip.part().page;
        Some((self.number * size, store.chunks(size).nth(self.number)?))
    }

    /// The page as text; nothing where it is not there.
    pub fn text(&self, bus: &Bus) -> String {
        let Some((first, bytes)) = self.bytes(bus) else { return String::new() };
        let (chip, store) = (&bus.chips()[self.chip], STORES[self.store]);
        let mut text =
            format!("{}  chip {} ({} at strap {}), {store}\n", self.word, self.chip, chip.part().name, chip.strap());
        for (address, row) in (first..).step_by(ROW).zip(bytes.chunks(ROW)) {
            let digits: Vec<String> = row.iter().map(|byte| format!("{byte:02X}")).collect();
            let shown: String = row.iter().map(|byte| character(*byte)).collect();
            writeln!(text, "{address:05X}: {}  |{shown}|", digits.join(" ")).expect("memory takes all");
        }
        text
    }
}

/// A byte in the ASCII column.
fn character(byte: u8) -> char {
    match byte {
        b' '..=b'~' => char::from(byte),
        _ => UNPRINTABLE,
    }
}

#[cfg(test)]
mod tests {
    use super::*;
    use crate::words;

    fn page(word: &str) -> Option<Page> {
        words::parse(&[word.to_string()])?.pages.pop()
    }

    fn bus(words: &str) -> Bus {
        let words: Vec<String> = words.split_whitespace().map(String::from).collect();
        Bus::set_up(&words::parse(&words).expect("words").board).expect("a board")
    }

    #[test]
    fn words() {
        let named = |chip, store, number, word: &str| Some(Page { word: word.to_string(), chip, store, number });
        assert_eq!(page("page:1:0:2"), named(1, 0, 2, "page:1:0:2"));
        assert_eq!(page("page:F:E:00FF"), named(15, 14, 255, "page:F:E:00FF"));
        for word in ["page:", "page:0", "page:0:0", "page:0:0:", "page:0:0:00000", "page:0:0:1:", "page::0:0"] {
            assert_eq!(page(word), None, "{word}");
        }
        for word in ["page:00:0:0", "page:0:00:0", "page:a:0:0", "page:0:0:1f", "page:0:0:-1", "page:0:0: 1"] {
            assert_eq!(page(word), None, "{word}");
        }
    }

    #[test]
    fn what_is_there() {
        let bus = bus("2:0 1:1 3:3");
        for (word, first) in [
            ("page:0:0:7F", Some(0xFE0)),
            ("page:0:0:80", None),
            ("page:0:1:1", Some(0x20)),
            ("page:0:1:2", None),
            ("page:1:0:1FF", Some(0x1FF00)),
            ("page:1:0:200", None),
            ("page:1:1:0001", Some(0x100)),
            ("page:2:0:1FF", Some(0x1FF00)),
            ("page:2:1:0", None),
            ("page:0:2:0", None),
            ("page:3:0:0", None),
        ] {
            let page = page(word).expect("a word");
            assert_eq!(page.bytes(&bus).map(|(first, _)| first), first, "{word}");
        }
    }

    #[test]
    fn text() {
        let mut bus = bus("2:1");
        let record = ":0600400041207E7F1F00"; // A, blank, tilde, DEL, 1Fh, 0
        let sum = (0x06 + 0x40 + 0x41 + 0x20 + 0x7E + 0x7F + 0x1F) as u8;
        bus.load(0, format!("{record}{:02X}\n:00000001FF\n", sum.wrapping_neg()).as_bytes()).expect("an image");
        let shown = page("page:0:0:002").expect("a word").text(&bus);
        let ten = " FF".repeat(10);
        let sixteen = "FF ".repeat(16);
        let expected = format!(
            "page:0:0:002  chip 0 (24CS32 at strap 1), array\n\
             00040: 41 20 7E 7F 1F 00{ten}  |A ~.............|\n\
             00050: {sixteen} |................|\n"
        );
        assert_eq!(shown, expected);
        let serial = page("page:0:1:0").expect("a word").text(&bus);
        let lines: Vec<&str> = serial.lines().collect();
        assert_eq!(lines[0], "page:0:1:0  chip 0 (24CS32 at strap 1), security register");
        assert!(lines[1].starts_with("00000: 10 10") && lines[2].starts_with("00010: FF FF"), "{serial}");
    }
}
