//! Random boards and transcripts, biased to what matters. A run is its seed: the same seed, the same run.

use crate::board::{self, Place, Refusal, MOST_CHIPS};
use crate::bus::Event;
use crate::looks;
use crate::part::{Part, AT24CM01_NUMBER, CS32_NUMBER, CSM01_NUMBER, LINE_ADDRESSES};
use crate::program::Folder;
use crate::rng::Rng;
use crate::script;
use crate::transcript::{digit, event_line};
use crate::words::{self, Words};

/// Events in a transcript.
pub const EVENTS: usize = 5_000;
/// In so many of a hundred runs the board is refused, is the paper's own, or the transcript has a malformed line.
const REFUSED_PERCENT: usize = 6;
const PAPERS_BOARD_PERCENT: usize = 5;
const MALFORMED_PERCENT: usize = 40;
const EMPTY_PERCENT: usize = 1;
/// A malformed line comes in the second half.
const EARLIEST_PART: usize = 2;
/// The parts that a board draws from: all, or only the AT24CM01, so that nobody answers F8h (request E7).
const MIXES: [(usize, &[u8]); 2] = [(85, &[CSM01_NUMBER, CS32_NUMBER, AT24CM01_NUMBER]), (15, &[AT24CM01_NUMBER])];
/// The numbers next to those of the parts, which stand for none.
const NO_PARTS: [u8; 2] = [CSM01_NUMBER - 1, AT24CM01_NUMBER + 1];
/// In so many of a hundred places on a refused board a digit is one next to the right ones, or any digit.
const WILD_PERCENT: usize = 25;
const FEWEST_TO_CLASH: usize = 2;
const HEXADECIMAL: usize = 16;
const DIGITS: &[u8] = b"0123456789ABCDEF";
const LOWER_CASE: &[u8] = b"abcdef";
const BLANKS: &[u8] = b" \t";
/// Bytes next to the digits, and others that a reader may take for something else.
const ALMOST_DIGITS: &[u8] = b"/:@G`afg Xx\t\0\r\xFF";
const ALMOST_DIGIT_PERCENT: usize = 70;

/// What one comparison plays.
pub struct Run {
    /// The words of the command line; none for the paper's board.
    pub words: Vec<String>,
    /// The files that are there before.
    pub files: Folder,
    /// The transcript, which may end in the middle of a line.
    pub transcript: Vec<u8>,
}

impl Run {
    /// What the words ask for.
    pub fn asked(&self) -> Words {
        words::parse(&self.words).expect("words of a run")
    }
}

/// The run with this seed: a transcript, and no files.
pub fn run(seed: u64) -> Run {
    let mut rng = Rng::new(seed);
    let words = board_words(&mut rng);
    let board = board::parse(&words).expect("words of a board");
    let mut lines = event_lines(script::events(&mut rng, &board, EVENTS));
    if rng.percent(EMPTY_PERCENT) {
        lines.clear();
    } else if rng.percent(MALFORMED_PERCENT) {
        spoil(&mut rng, &mut lines);
    }
    let mut run = Run { words, files: Folder::new(), transcript: lines.concat() };
    looks::add(&mut run, seed);
    run
}

/// The lines of events.
pub fn event_lines(events: Vec<Event>) -> Vec<Vec<u8>> {
    events.into_iter().map(|event| event_line(event).into_bytes()).collect()
}

/// The words of a board: mostly one that set-up takes.
pub fn board_words(rng: &mut Rng) -> Vec<String> {
    if rng.percent(PAPERS_BOARD_PERCENT) {
        return Vec::new();
    }
    let refused = rng.percent(REFUSED_PERCENT);
    let wanted = refused.then(|| rng.pick(&[Refusal::Part, Refusal::Strap, Refusal::Clash]));
    let fewest = if wanted == Some(Refusal::Clash) { FEWEST_TO_CLASH } else { 1 };
    let count = rng.between(fewest, MOST_CHIPS);
    let parts = rng.weighted(&MIXES);
    loop {
        let board: Vec<Place> = (0..count).map(|_| place(rng, parts, refused)).collect();
        if board::check(&board).err() == wanted {
            return board.iter().map(Place::to_string).collect();
        }
    }
}

/// One of these parts and a strap; `wild`: now and then one that does not exist, mostly next to one that does.
fn place(rng: &mut Rng, parts: &[u8], wild: bool) -> Place {
    let mut digit = |right: &[u8], [below, above]: [u8; 2]| {
        if wild && rng.percent(WILD_PERCENT) {
            let any = rng.below(HEXADECIMAL) as u8;
            rng.pick(&[below, above, any])
        } else {
            rng.pick(right)
        }
    };
    let part = digit(parts, NO_PARTS);
    let straps = Part::numbered(part).map_or(LINE_ADDRESSES, |part| part.straps);
    Place { part, strap: digit(&Vec::from_iter(0..straps), [straps; 2]) }
}

/// What can be wrong with a line.
#[derive(Clone, Copy)]
enum Fault {
    WrongByte,
    LowerCase,
    Blank,
    Short,
    Long,
    CarriageReturn,
    Empty,
    ExtraByte,
    NoLineEnd,
}

const FAULTS: [(usize, Fault); 9] = [
    (8, Fault::WrongByte),
    (2, Fault::LowerCase),
    (2, Fault::Blank),
    (2, Fault::Short),
    (2, Fault::Long),
    (2, Fault::CarriageReturn),
    (2, Fault::Empty),
    (3, Fault::ExtraByte),
    (4, Fault::NoLineEnd),
];

/// Makes one late line malformed. Lines after it stay, but after the missing line end there are none.
pub fn spoil(rng: &mut Rng, lines: &mut Vec<Vec<u8>>) {
    let at = rng.between(lines.len() / EARLIEST_PART, lines.len() - 1);
    let fault = rng.weighted(&FAULTS);
    if matches!(fault, Fault::NoLineEnd) {
        lines.truncate(at + 1);
    }
    let line = &mut lines[at];
    let line_end = line.len() - 1;
    let place = rng.below(line_end);
    match fault {
        Fault::WrongByte => line[rng.below(line_end + 1)] = no_digit(rng),
        Fault::LowerCase => line[place] = rng.pick(LOWER_CASE),
        Fault::Blank => line[place] = rng.pick(BLANKS),
        Fault::Short => drop(line.drain(place..line_end)),
        Fault::Long => line.insert(place, rng.pick(DIGITS)),
        Fault::CarriageReturn => line.insert(line_end, b'\r'),
        Fault::Empty => line.insert(0, b'\n'),
        Fault::ExtraByte => line.insert(rng.below(line_end + 1), no_digit(rng)),
        Fault::NoLineEnd => line.truncate(place + 1),
    }
}

/// Any byte but a digit and LF.
fn no_digit(rng: &mut Rng) -> u8 {
    if rng.percent(ALMOST_DIGIT_PERCENT) {
        return rng.pick(ALMOST_DIGITS);
    }
    loop {
        let byte = rng.byte();
        if digit(byte).is_none() && byte != b'\n' {
            return byte;
        }
    }
}

#[cfg(test)]
mod tests {
    use super::*;
    use crate::bus::{Bus, CYCLE_OVER, DONE, NOT_BUSY};
    use crate::chip::Chip;
    use crate::part::PARTS;
    use crate::transcript::events;

    const SEEDS: u64 = 300;
    /// So many of them are played.
    const PLAYED: u64 = 30;
    /// So many boards are drawn without a transcript.
    const BOARDS: u64 = 2_000;
    /// Of the events 07 at least one in so many is done, and one refused; and one in so many goes to the wrong chip.
    const COMMON: usize = 8;
    const AT_TIMES: usize = 20;

    #[test]
    fn runs_repeat_and_have_their_length() {
        let mut whole = 0;
        for seed in 0..SEEDS {
            let run = run(seed);
            assert_eq!(run.transcript, super::run(seed).transcript);
            whole += u64::from(events(&run.transcript).count() == EVENTS);
        }
        assert!(whole * 2 > SEEDS, "{whole}");
    }

    #[test]
    fn boards_of_every_size_and_every_refusal_come() {
        let boards: Vec<_> = (0..SEEDS).map(|seed| run(seed).asked().board).collect();
        for count in 1..=MOST_CHIPS {
            assert!(boards.iter().any(|board| board.len() == count));
        }
        for refusal in [Refusal::Part, Refusal::Strap, Refusal::Clash] {
            assert!(boards.iter().any(|board| board::check(board).err() == Some(refusal)));
        }
    }

    #[test]
    fn what_set_up_just_refuses_comes() {
        let board = |seed| board::parse(&board_words(&mut Rng::new(seed))).expect("words of a board");
        let places: Vec<Place> = (0..BOARDS).flat_map(board).collect();
        let comes = |part, strap| places.contains(&Place { part, strap });
        for number in NO_PARTS {
            assert!((0..LINE_ADDRESSES).any(|strap| comes(number, strap)), "part {number}");
        }
        for (number, part) in PARTS {
            assert!(comes(number, part.straps), "strap {} of part {number}", part.straps);
        }
    }

    #[test]
    fn cycle_over_is_done_often_and_refused_often() {
        let (mut done, mut refused, mut wrong) = (0, 0, 0);
        for run in (0..PLAYED).map(run) {
            let Ok(mut bus) = Bus::set_up(&run.asked().board) else { continue };
            for event in events(&run.transcript) {
                let busy = bus.chips().iter().any(Chip::is_busy);
                let status = bus.step(event).status;
                done += usize::from(event.kind == CYCLE_OVER && status == DONE);
                refused += usize::from(status == NOT_BUSY);
                wrong += usize::from(status == NOT_BUSY && busy);
            }
        }
        let all = done + refused;
        assert!(done * COMMON >= all && refused * COMMON >= all && wrong * AT_TIMES >= all, "{done} {refused} {wrong}");
    }
}
