//! Random runs with images: files loaded into the chips of a board, some of them spoiled, a short transcript, and files
//! saved. A run is its seed.

use crate::board::{self, Place};
use crate::bus::{Event, ACK, NACK, READ, STOP};
use crate::chip::ARRAY_TYPE;
use crate::generate::{board_words, event_lines, spoil, Run};
use crate::looks;
use crate::part::{Part, CS32, LINE_ADDRESSES};
use crate::program::{self, Folder, Told};
use crate::rng::Rng;
use crate::said::{self, Fact};
use crate::script;
use crate::texts::{self, Text};
use crate::transcript;
use crate::turns::{address, event, send, start};
use crate::words::{load_word, save_word};

/// Keeps these runs apart from those of transcripts.
const IMAGE_SEED: u64 = 0x494D_4147_0000_0000;

/// Shares of a hundred: of the chips, which were loaded before; of the texts that matter, which are spoiled; of the
/// runs, which load once more behind that text, or name a chip that is not there.
const BEFORE_PERCENT: usize = 45;
const WHOLE_PERCENT: usize = 70;
const SPOILED_PERCENT: usize = 60;
const AFTER_PERCENT: usize = 15;
const SAME_FILE_PERCENT: usize = 6;
const NO_CHIP_PERCENT: usize = 2;
const HALF_PERCENT: usize = 50;
/// Of the files that are saved to: which are there already, and which are one that was loaded.
const THERE_PERCENT: usize = 25;
const LOADED_PERCENT: usize = 10;
const NOT_SAVED_PERCENT: usize = 5;
const SAVED_TWICE_PERCENT: usize = 5;
/// A file that is there already is shorter than an image, or longer.
const LENGTHS_THERE: [usize; 4] = [0, 100, 12_000, 361_000];
/// Of the transcripts: which are empty, and which have a malformed line; how many events they have.
const EMPTY_PERCENT: usize = 25;
const MALFORMED_PERCENT: usize = 20;
const MOST_EVENTS: usize = 300;
const MOST_READS: usize = 3;
const MOST_READ_BYTES: usize = 20;
/// A chip number that no board has is one digit 0-9.
const HIGHEST_CHIP: usize = 9;
/// Names of files, each made one of its own by a number behind it.
const NAMES: [&str; 8] = ["a", "image.hex", "IMAGE.HEX", "two words.hex", "colon:", "load:0:", "-x", "Grüße.hex"];

/// A run with the texts of its loads, in their order.
pub struct ImageRun {
    pub run: Run,
    pub texts: Vec<Text>,
}

/// What comes of a run.
pub struct Outcome {
    pub output: Vec<u8>,
    pub told: Told,
    pub files: Folder,
    /// What the words behind each answer must say, where the run is traced.
    pub facts: Vec<Vec<Fact>>,
}

/// Plays a run to the model.
pub fn outcome(run: &Run) -> Outcome {
    let mut output = Vec::new();
    let mut files = run.files.clone();
    let told = program::play(&run.asked(), &mut files, &run.transcript[..], &mut output);
    let told = told.expect("files that are there, and memory that takes every answer");
    Outcome { output, told, files, facts: facts(run) }
}

/// What the words behind each answer must say; none where the run is not traced, or nothing is played.
fn facts(run: &Run) -> Vec<Vec<Fact>> {
    let asked = run.asked();
    match program::ready(&asked, &run.files) {
        Ok(Ok(mut bus)) if asked.trace => {
            transcript::events(&run.transcript).map(|event| said::step(&mut bus, event)).collect()
        }
        _ => Vec::new(),
    }
}

/// A run in the making.
struct Maker {
    rng: Rng,
    parts: Vec<&'static Part>,
    files: Folder,
    loads: Vec<(usize, String)>,
    texts: Vec<Text>,
}

/// The run with this seed.
pub fn run(seed: u64) -> ImageRun {
    let mut rng = Rng::new(seed ^ IMAGE_SEED);
    let mut words = board_words(&mut rng);
    let board = board::parse(&words).expect("words of a board");
    let parts = board.iter().map(|at| Part::numbered(at.part).unwrap_or(&CS32)).collect();
    let mut maker = Maker { rng, parts, files: Folder::new(), loads: Vec::new(), texts: Vec::new() };
    let no_chip = maker.rng.percent(NO_CHIP_PERCENT);
    maker.add_loads(no_chip);
    let mut saves = maker.saves();
    if no_chip {
        let chip = maker.rng.between(maker.parts.len(), HIGHEST_CHIP);
        if maker.rng.percent(HALF_PERCENT) {
            saves.push((chip, "none".to_string()));
        } else {
            let file = maker.loads[0].1.clone();
            maker.loads.push((chip, file));
            maker.texts.push(texts::right(&mut maker.rng, CS32.array));
        }
    }
    words.extend(maker.loads.iter().map(|(chip, file)| load_word(*chip, file)));
    words.extend(saves.iter().map(|(chip, file)| save_word(*chip, file)));
    let transcript = maker.transcript(&board);
    let mut run = Run { words, files: maker.files, transcript };
    looks::add(&mut run, seed ^ IMAGE_SEED);
    ImageRun { run, texts: maker.texts }
}

impl Maker {
    /// Loads that give the chips a content, the text that matters, and at times one more.
    fn add_loads(&mut self, right: bool) {
        for chip in 0..self.parts.len() {
            if self.rng.percent(BEFORE_PERCENT) {
                let size = self.parts[chip].array;
                let whole = self.rng.percent(WHOLE_PERCENT);
                let text = if whole { texts::whole(&mut self.rng, size) } else { texts::right(&mut self.rng, size) };
                self.add(chip, text);
            }
        }
        let again = 1 + usize::from(self.rng.percent(AFTER_PERCENT));
        for _ in 0..again {
            let chip = self.rng.below(self.parts.len());
            let size = self.parts[chip].array;
            let spoiled = !right && self.rng.percent(SPOILED_PERCENT);
            let text = if spoiled { texts::spoiled(&mut self.rng, size) } else { texts::right(&mut self.rng, size) };
            self.add(chip, text);
        }
        if !right && self.rng.percent(SAME_FILE_PERCENT) {
            // One file for two chips, perhaps of two parts.
            let from = self.rng.below(self.loads.len());
            let chip = self.rng.below(self.parts.len());
            let Text { bytes, shapes, faults } = &self.texts[from];
            let text = Text { bytes: bytes.clone(), shapes: shapes.clone(), faults: faults.clone() };
            self.loads.push((chip, self.loads[from].1.clone()));
            self.texts.push(text);
        }
    }

    fn add(&mut self, chip: usize, text: Text) {
        let file = self.name();
        self.files.insert(file.clone(), text.bytes.clone());
        self.loads.push((chip, file));
        self.texts.push(text);
    }

    /// A name that no file has yet.
    fn name(&mut self) -> String {
        format!("{}{}", self.rng.pick(&NAMES), self.files.len())
    }

    /// Where the chips are saved, mostly each of them once.
    fn saves(&mut self) -> Vec<(usize, String)> {
        let mut saves = Vec::new();
        for chip in 0..self.parts.len() {
            let times =
                usize::from(!self.rng.percent(NOT_SAVED_PERCENT)) + usize::from(self.rng.percent(SAVED_TWICE_PERCENT));
            for _ in 0..times {
                let file = self.saved_name(saves.len());
                saves.push((chip, file));
            }
        }
        saves
    }

    /// A new file, one that is there and is none of ours, or one that was loaded.
    fn saved_name(&mut self, number: usize) -> String {
        let new = format!("{}s{number}", self.rng.pick(&NAMES));
        if self.rng.percent(THERE_PERCENT) {
            let length = self.rng.pick(&LENGTHS_THERE);
            self.files.insert(new.clone(), vec![b':'; length]);
        } else if self.rng.percent(LOADED_PERCENT) {
            return self.loads[self.rng.below(self.loads.len())].1.clone();
        }
        new
    }

    /// Reads of the arrays, then any events; at times nothing, at times a malformed line.
    fn transcript(&mut self, board: &[Place]) -> Vec<u8> {
        if self.rng.percent(EMPTY_PERCENT) {
            return Vec::new();
        }
        let mut events = Vec::new();
        for _ in 0..self.rng.between(0, MOST_READS) {
            events.append(&mut self.reads(board));
        }
        let count = self.rng.between(1, MOST_EVENTS);
        events.append(&mut script::events(&mut self.rng, board, count));
        let mut lines = event_lines(events);
        if self.rng.percent(MALFORMED_PERCENT) {
            spoil(&mut self.rng, &mut lines);
        }
        lines.concat()
    }

    /// A read of some bytes of an array, near an edge mostly.
    fn reads(&mut self, board: &[Place]) -> Vec<Event> {
        let chip = self.rng.below(board.len());
        let part = self.parts[chip];
        let any = self.rng.below(part.array);
        let edge = self.rng.pick(&[0, part.array / 2, part.array, any]);
        let count = self.rng.between(1, MOST_READ_BYTES);
        let place = (edge + part.array - self.rng.between(0, count)) % part.array;
        let [low, high, top, ..] = place.to_le_bytes();
        let bits = (board[chip].strap << part.word_bits) % LINE_ADDRESSES;
        let mut turn = vec![start(), send(address(ARRAY_TYPE, bits + top, false)), send(high), send(low)];
        turn.extend([start(), send(address(ARRAY_TYPE, bits, true))]);
        turn.extend(vec![event(READ, ACK); count]);
        turn.extend([event(READ, NACK), event(STOP, 0)]);
        turn
    }
}

#[cfg(test)]
mod tests {
    use super::*;
    use crate::texts::FAULTS;
    use std::collections::BTreeMap;

    const SEEDS: u64 = 600;
    /// Each fault, shape and number comes at least so often in these runs.
    const LEAST: usize = 5;

    #[test]
    fn runs_repeat_and_what_matters_comes() {
        let mut came = BTreeMap::new();
        for seed in 0..SEEDS {
            let ImageRun { run, texts } = run(seed);
            if seed % 10 == 0 {
                let again = super::run(seed).run;
                assert!((&run.words, &run.files, &run.transcript) == (&again.words, &again.files, &again.transcript));
            }
            let told = outcome(&run).told;
            let number = if let Told::Refused { fault, .. } = told { fault.reason as u8 } else { 0 };
            *came.entry(format!("number {number}")).or_insert(0) += 1;
            for text in texts {
                text.faults.iter().for_each(|fault| *came.entry(fault.to_string()).or_insert(0) += 1);
                text.shapes.iter().for_each(|shape| *came.entry(shape.to_string()).or_insert(0) += 1);
            }
        }
        for (_, fault) in FAULTS {
            assert!(came.contains_key(&fault.to_string()), "{fault}");
        }
        for number in 20..=24 {
            assert!(came.contains_key(&format!("number {number}")), "{number}");
        }
        for (what, count) in came {
            assert!(count >= LEAST, "{what}: {count}");
        }
    }
}
