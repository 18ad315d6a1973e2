//! The bench program: a board is set up, images are loaded, a transcript is answered, pages are shown, images are
//! saved.

use crate::board::Refusal;
use crate::bus::{Bus, BAD_VALUE};
use crate::hex::{Fault, Reason};
use crate::transcript::{self, Malformed, MALFORMED};
use crate::words::Words;
use std::collections::BTreeMap;
use std::fmt;
use std::io::{self, Read, Write};

/// Where images are kept.
pub trait Files {
    fn read(&self, name: &str) -> io::Result<Vec<u8>>;
    fn write(&mut self, name: &str, text: &[u8]) -> io::Result<()>;
}

/// The files of the machine.
pub struct Disk;

impl Files for Disk {
    fn read(&self, name: &str) -> io::Result<Vec<u8>> {
        std::fs::read(name)
    }

    fn write(&mut self, name: &str, text: &[u8]) -> io::Result<()> {
        std::fs::write(name, text)
    }
}

/// A folder that is only thought of: names and what the files hold.
pub type Folder = BTreeMap<String, Vec<u8>>;

impl Files for Folder {
    fn read(&self, name: &str) -> io::Result<Vec<u8>> {
        self.get(name).cloned().ok_or_else(|| io::ErrorKind::NotFound.into())
    }

    fn write(&mut self, name: &str, text: &[u8]) -> io::Result<()> {
        self.insert(name.to_string(), text.to_vec());
        Ok(())
    }
}

/// A file that is longer is told, and nothing is played.
const LONGEST_FILE: usize = 2_097_152;

/// The statuses that a run ends with (issue 23). Where words are none (2), nothing is played.
const ALL_ANSWERED: u8 = 0;
const REFUSED: u8 = 1;
const FILE_FAILED: u8 = 3;

/// What is told on standard error.
#[derive(Debug, Clone, PartialEq, Eq)]
pub enum Told {
    Nothing,
    /// A board that cannot be.
    Board(Refusal),
    /// A chip or a page that is not there: the file, or the word that asks for the page.
    NotThere {
        asked: String,
    },
    /// A file to be loaded that is too long.
    TooLong {
        file: String,
    },
    /// A load that is refused: the file, its place among the loads, and the fault.
    Refused {
        file: String,
        place: usize,
        fault: Fault,
    },
    Malformed(Malformed),
}

impl Told {
    /// The number in the answer that ends the run early, where there is one.
    pub fn number(&self) -> Option<u8> {
        match self {
            Told::Nothing | Told::TooLong { .. } => None,
            Told::Board(refusal) => Some(*refusal as u8),
            Told::NotThere { .. } => Some(BAD_VALUE),
            Told::Refused { fault, .. } => Some(fault.reason as u8),
            Told::Malformed(_) => Some(MALFORMED),
        }
    }

    /// Whether nothing is played.
    pub fn is_before_play(&self) -> bool {
        !matches!(self, Told::Nothing | Told::Malformed(_))
    }

    /// The status that the run ends with.
    pub fn status(&self) -> u8 {
        match self {
            Told::Nothing => ALL_ANSWERED,
            Told::TooLong { .. } => FILE_FAILED,
            Told::Board(_) | Told::NotThere { .. } | Told::Refused { .. } | Told::Malformed(_) => REFUSED,
        }
    }
}

impl fmt::Display for Told {
    fn fmt(&self, f: &mut fmt::Formatter) -> fmt::Result {
        match self {
            Told::Nothing => Ok(()),
            Told::Board(refusal) => {
                let why = match refusal {
                    Refusal::Count => "not one to four chips",
                    Refusal::Part => "a part other than 1, 2, 3",
                    Refusal::Strap => "a strap outside its part's range",
                    Refusal::Clash => "two chips that match one address byte",
                };
                write!(f, "bench: board: {why} ({})", *refusal as u8)
            }
            Told::NotThere { asked } => write!(f, "bench: {asked}: not there ({BAD_VALUE})"),
            Told::TooLong { file } => write!(f, "bench: {file}: too long (more than {LONGEST_FILE} bytes)"),
            Told::Refused { file, fault: Fault { reason, line }, .. } => {
                let why = match reason {
                    Reason::BadRecord => "bad digit or length",
                    Reason::Checksum => "checksum",
                    Reason::Type => "type",
                    Reason::PastArray => "address past the array",
                    Reason::NoEnd => "no end record or text after it",
                };
                write!(f, "bench: {file}: line {line}: {why} ({})", *reason as u8)
            }
            Told::Malformed(Malformed { line, flaw }) => {
                write!(f, "bench: standard input: line {line}: {flaw} ({MALFORMED})")
            }
        }
    }
}

/// Sets up the board and loads its images, or what is told where something is refused. What is not there is seen before
/// anything is loaded.
pub fn ready(words: &Words, files: &impl Files) -> io::Result<Result<Bus, Told>> {
    let mut bus = match Bus::set_up(&words.board) {
        Ok(bus) => bus,
        Err(refusal) => return Ok(Err(Told::Board(refusal))),
    };
    let mut images = words.loads.iter().chain(&words.saves);
    if let Some(image) = images.find(|image| image.chip >= bus.chips().len()) {
        return Ok(Err(Told::NotThere { asked: image.file.clone() }));
    }
    if let Some(page) = words.pages.iter().find(|page| page.bytes(&bus).is_none()) {
        return Ok(Err(Told::NotThere { asked: page.word.clone() }));
    }
    for (place, image) in words.loads.iter().enumerate() {
        let text = files.read(&image.file)?;
        if text.len() > LONGEST_FILE {
            return Ok(Err(Told::TooLong { file: image.file.clone() }));
        }
        if let Err(fault) = bus.load(image.chip, &text) {
            return Ok(Err(Told::Refused { file: image.file.clone(), place, fault }));
        }
    }
    Ok(Ok(bus))
}

/// Does what the words ask for. Loads come in their order, and all are over before any input is read; nothing is shown
/// or saved where one was refused.
pub fn play(words: &Words, files: &mut impl Files, input: impl Read, mut output: impl Write) -> io::Result<Told> {
    let mut bus = match ready(words, files)? {
        Ok(bus) => bus,
        Err(told) => {
            if let Some(number) = told.number() {
                output.write_all(transcript::closing(number).as_bytes())?;
            }
            return Ok(told);
        }
    };
    let malformed = transcript::answer(&mut bus, input, &mut output)?;
    for page in &words.pages {
        output.write_all(page.text(&bus).as_bytes())?;
    }
    for image in &words.saves {
        files.write(&image.file, &bus.saved(image.chip))?;
    }
    Ok(malformed.map_or(Told::Nothing, Told::Malformed))
}
