//! The words of the command line: PART:STRAP for a chip, load:K:FILE and save:K:FILE for a chip's image,
//! page:K:STORE:N for a page of a chip's memory, trace for answers with words behind them.

use crate::board::{self, Place};
use crate::pages::{Page, PAGE};

/// What the words ask for.
pub struct Words {
    pub board: Vec<Place>,
    pub loads: Vec<Image>,
    pub saves: Vec<Image>,
    pub pages: Vec<Page>,
    /// What the words behind the answers are is left open; the model writes none.
    pub trace: bool,
}

/// A chip, which need not be there, and a file.
pub struct Image {
    pub chip: usize,
    pub file: String,
}

const LOAD: &str = "load:";
const SAVE: &str = "save:";
pub const TRACE: &str = "trace";

/// The words of an image.
pub fn load_word(chip: usize, file: &str) -> String {
    format!("{LOAD}{chip:X}:{file}")
}

pub fn save_word(chip: usize, file: &str) -> String {
    format!("{SAVE}{chip:X}:{file}")
}

/// What comes behind `load:` or `save:`: a digit, a colon, a file.
fn image(rest: &str) -> Option<Image> {
    let (chip, file) = rest.split_once(':')?;
    let [digit] = *chip.as_bytes() else { return None };
    let chip = usize::from(crate::transcript::digit(digit)?);
    (!file.is_empty()).then(|| Image { chip, file: file.to_string() })
}

/// Reads the words; None where one is wrong.
pub fn parse(words: &[String]) -> Option<Words> {
    let mut places = Vec::new();
    let mut loads = Vec::new();
    let mut saves = Vec::new();
    let mut pages = Vec::new();
    let mut trace = false;
    for word in words {
        if let Some(rest) = word.strip_prefix(LOAD) {
            loads.push(image(rest)?);
        } else if let Some(rest) = word.strip_prefix(SAVE) {
            saves.push(image(rest)?);
        } else if let Some(rest) = word.strip_prefix(PAGE) {
            pages.push(Page::parse(word, rest)?);
        } else if word == TRACE {
            trace = true;
        } else {
            places.push(word.clone());
        }
    }
    Some(Words { board: board::parse(&places)?, loads, saves, pages, trace })
}

#[cfg(test)]
mod tests {
    use super::*;

    #[test]
    fn images() {
        let words = ["1:0", "load:0:a:b c", "save:F:x"].map(String::from);
        let Words { board, loads, saves, .. } = parse(&words).expect("words");
        assert_eq!((board.len(), loads.len(), saves.len()), (1, 1, 1));
        assert_eq!((loads[0].chip, loads[0].file.as_str()), (0, "a:b c"));
        assert_eq!((saves[0].chip, saves[0].file.as_str()), (15, "x"));
        for word in ["load:", "load:0", "load:0:", "load::a", "load:00:a", "load:g:a", "save:0:", "loud:0:a"] {
            assert!(parse(&[word.to_string()]).is_none(), "{word}");
        }
        assert_eq!(parse(&[load_word(0, "a"), save_word(0, "b")]).map(|words| words.board.len()), Some(3));
    }
}
