//! Which chips stand on the line, as the words `PART:STRAP` say it, and what set-up refuses.

use crate::part::{Part, CS32_NUMBER, LINE_ADDRESSES};
use std::fmt;

/// The most chips that a line takes (paper, "What the bench plays").
pub const MOST_CHIPS: usize = 4;

/// The straps of the paper's board, all 24CS32 (paper, The transcript).
const PAPERS_STRAPS: [u8; 3] = [0, 1, 2];

/// Why set-up refuses a board, with the paper's number. 5 cannot occur: this model sizes its own stores.
#[derive(Debug, Clone, Copy, PartialEq, Eq)]
#[repr(u8)]
pub enum Refusal {
    Count = 1,
    Part = 2,
    Strap = 3,
    Clash = 4,
}

/// A part number and a strap, as written: neither need exist.
#[derive(Debug, Clone, Copy, PartialEq, Eq)]
pub struct Place {
    pub part: u8,
    pub strap: u8,
}

impl fmt::Display for Place {
    fn fmt(&self, f: &mut fmt::Formatter) -> fmt::Result {
        write!(f, "{:X}:{:X}", self.part, self.strap)
    }
}

impl Place {
    /// Reads one word: two hexadecimal digits 0-9 A-F with a colon between.
    fn parse(word: &str) -> Option<Place> {
        let digit = |text: &str| match text.as_bytes() {
            [byte] => crate::transcript::digit(*byte),
            _ => None,
        };
        let (part, strap) = word.split_once(':')?;
        Some(Place { part: digit(part)?, strap: digit(strap)? })
    }

    /// The part, when it and the strap exist.
    fn part_with_strap(&self) -> Result<&'static Part, Refusal> {
        let part = Part::numbered(self.part).ok_or(Refusal::Part)?;
        if self.strap < part.straps {
            Ok(part)
        } else {
            Err(Refusal::Strap)
        }
    }
}

/// Reads the words of a command line; no words are the paper's board, three 24CS32 at straps 0, 1, 2.
pub fn parse(words: &[String]) -> Option<Vec<Place>> {
    if words.is_empty() {
        return Some(PAPERS_STRAPS.map(|strap| Place { part: CS32_NUMBER, strap }).to_vec());
    }
    words.iter().map(|word| Place::parse(word)).collect()
}

/// The parts on a board, or why set-up refuses it: 1, 2, 3, 4 in this order over all chips (D10).
pub fn check(board: &[Place]) -> Result<Vec<&'static Part>, Refusal> {
    if board.is_empty() || board.len() > MOST_CHIPS {
        return Err(Refusal::Count);
    }
    let found: Vec<_> = board.iter().map(Place::part_with_strap).collect();
    for refusal in [Refusal::Part, Refusal::Strap] {
        if found.contains(&Err(refusal)) {
            return Err(refusal);
        }
    }
    let parts: Vec<&Part> = found.into_iter().flatten().collect();
    let answering = |bits| parts.iter().zip(board).filter(|(part, at)| part.answers(at.strap, bits)).count();
    if (0..LINE_ADDRESSES).any(|bits| answering(bits) > 1) {
        return Err(Refusal::Clash);
    }
    Ok(parts)
}

#[cfg(test)]
mod tests {
    use super::*;

    fn refusal(words: &str) -> Option<Refusal> {
        let words: Vec<String> = words.split_whitespace().map(String::from).collect();
        check(&parse(&words).expect("words of a board")).err()
    }

    #[test]
    fn strap_1_of_a_24csm01_covers_straps_2_and_3_of_a_24cs32() {
        assert_eq!(refusal("1:1 2:3"), Some(Refusal::Clash));
        assert_eq!(refusal("2:2 1:1"), Some(Refusal::Clash));
        assert_eq!(refusal("1:1 2:4"), None);
    }

    #[test]
    fn the_lowest_refusal_counts_over_all_chips() {
        assert_eq!(refusal("2:8 2:0 2:0 4:0"), Some(Refusal::Part));
        assert_eq!(refusal("2:0 2:0 1:4"), Some(Refusal::Strap));
        assert_eq!(refusal("1:0 1:1 1:2 1:3"), None);
        assert_eq!(refusal("0:0 2:1 2:2 2:3 2:4"), Some(Refusal::Count));
        assert_eq!(check(&[]), Err(Refusal::Count));
    }

    /// Request E7: part 3 has the straps and the codes of a 24CSM01.
    #[test]
    fn an_at24cm01_stands_where_a_24csm01_could() {
        for (words, expected) in [
            ("3:0 3:1 3:2 3:3", None),
            ("3:0 1:1 2:4 2:7", None),
            ("3:0 1:0", Some(Refusal::Clash)),
            ("2:3 3:1", Some(Refusal::Clash)),
            ("3:3 3:3", Some(Refusal::Clash)),
            ("3:0 3:4", Some(Refusal::Strap)),
            ("3:0 4:1", Some(Refusal::Part)),
        ] {
            assert_eq!(refusal(words), expected, "{words}");
        }
    }

    #[test]
    fn words() {
        for word in ["", "1", "1:", ":0", "01:0", "1:0 ", "a:0", "1:G", "1:0:0"] {
            assert_eq!(parse(&[word.to_string()]), None, "{word}");
        }
        assert_eq!(parse(&["F:A".to_string()]), Some(vec![Place { part: 15, strap: 10 }]));
        assert_eq!(parse(&[]).map(|board| board.len()), Some(3));
    }
}
