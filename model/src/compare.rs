//! Plays runs to another bench, and compares its answers, what it tells and the files it leaves with the model's.

use crate::census::{Tally, STARTS};
use crate::generate::{self, Run};
use crate::images::{self, Outcome};
use crate::looks::{LOOKS, MALFORMED};
use crate::part::PARTS;
use crate::program::{Folder, Told};
use crate::rng::Rng;
use crate::said::Fact;
use std::fs;
use std::io::{self, IsTerminal, Read, Write};
use std::path::{Path, PathBuf};
use std::process::{Child, ChildStdin, Command, ExitStatus, Stdio};
use std::sync::mpsc;
use std::thread;
use std::time::{Duration, Instant};

/// So many runs with images for each transcript.
pub const IMAGE_RUNS: u64 = 4;
/// A bench that takes longer is killed.
const LONGEST: Duration = Duration::from_secs(60);
/// After so many runs that hung or did not start, the others are not played.
const MOST_STUCK: usize = 3;
/// How often the end of a bench is looked for once its output has ended.
const GLANCE: Duration = Duration::from_millis(1);
/// So much output beyond what is expected is read before the bench is cut off.
const EXTRA_OUTPUT: u64 = 4_096;
/// Digits of an answer, and what stands between it and its words in a trace.
const ANSWER_DIGITS: usize = 8;
const BEFORE_WORDS: &str = "  ";
/// With its words an answer is at most so many times as long.
const LONGER_IN_WORDS: u64 = 40;
/// How often progress is told where standard error is no terminal.
const TIMES_TOLD: u64 = 10;
/// So wide is the line of progress.
const WIDTH: usize = 40;

/// How a transcript is written to the bench: shares of a hundred, sizes, and the waits that let the bench read.
const CRUMBS_PERCENT: usize = 20;
const SHIFTED_PERCENT: usize = 20;
const LARGEST_CRUMB: usize = 399;
const LARGEST_SHIFT: usize = 9;
const START_WAIT: Duration = Duration::from_millis(5);
const CRUMB_WAIT: Duration = Duration::from_micros(300);
/// Keeps the way of writing apart from the run's own random numbers.
const PACE_SEED: u64 = 0x5041_4345_0000_0000;

/// Why a run failed.
enum Failure {
    NotStarted(io::Error),
    Hung,
    Status { expected: u8, came: ExitStatus },
    Differs(Difference, ExitStatus),
    Words { line: usize, fact: Fact, came: String },
    Told { expected: String, came: String },
    File(String, FileFault),
}

/// What is wrong with a file.
enum FileFault {
    Missing,
    NotExpected,
    Differs(Difference),
}

/// The first line at which two texts differ, counted from 1.
struct Difference {
    line: usize,
    expected: String,
    came: String,
}

/// What one run plays: a transcript, or images, and the seed of it.
#[derive(Clone, Copy)]
enum Sort {
    Transcript(u64),
    Images(u64),
}

/// Plays `runs` transcripts, and some images with each, and reports on them; how many passed and failed.
pub fn compare(bench: &str, runs: u64, first_seed: u64) -> (u64, u64) {
    let player = match Player::new(bench) {
        Ok(player) => player,
        Err(error) => {
            println!("no folder for images: {error}");
            return (0, runs * (1 + IMAGE_RUNS));
        }
    };
    let mut tally = Tally::default();
    let mut passed = 0;
    let mut stuck = 0;
    let seeds = (0..runs).map(|number| first_seed.wrapping_add(number));
    let images = |seed: u64| (0..IMAGE_RUNS).map(move |place| seed.wrapping_mul(IMAGE_RUNS).wrapping_add(place));
    let sorts = |seed| std::iter::once(Sort::Transcript(seed)).chain(images(seed).map(Sort::Images));
    for (number, sort) in (1..).zip(seeds.flat_map(sorts)) {
        tell_progress(number, runs * (1 + IMAGE_RUNS));
        let (run, expected) = made(sort, &mut tally);
        let Err(failure) = player.play(sort, &run, &expected) else {
            passed += 1;
            continue;
        };
        report(&player, sort, &run, &failure);
        stuck += usize::from(matches!(failure, Failure::Hung | Failure::NotStarted(_)));
        let unplayed = runs * (1 + IMAGE_RUNS) - number;
        if stuck == MOST_STUCK && unplayed > 0 {
            println!("{MOST_STUCK} runs hung or did not start: {unplayed} more are not played and count as failed");
            break;
        }
    }
    clear_progress();
    println!("{runs} transcripts, and {} runs with images", runs * IMAGE_RUNS);
    let parts = PARTS.iter().map(|(_, part)| part.name);
    let groups = parts.chain([STARTS, MALFORMED, LOOKS, "boards", "texts", "shapes", "faults"]);
    groups.for_each(|group| tally.print(group));
    (passed, runs * (1 + IMAGE_RUNS) - passed)
}

/// Tells how far it is: in place on a terminal, else now and then.
fn tell_progress(number: u64, all: u64) {
    let text = format!("compare: run {number} of {all}");
    if io::stderr().is_terminal() {
        eprint!("{text:WIDTH$}\r");
    } else if number.is_multiple_of(all.div_ceil(TIMES_TOLD)) {
        eprintln!("{text}");
    }
}

/// Makes room for other lines.
fn clear_progress() {
    if io::stderr().is_terminal() {
        eprint!("{:WIDTH$}\r", "");
    }
}

/// A run, and what the model makes of it.
fn made(sort: Sort, tally: &mut Tally) -> (Run, Outcome) {
    match sort {
        Sort::Transcript(seed) => {
            let run = generate::run(seed);
            let expected = images::outcome(&run);
            tally.watch(&run, &expected);
            (run, expected)
        }
        Sort::Images(seed) => {
            let images = images::run(seed);
            let expected = images::outcome(&images.run);
            tally.add(&images, &expected);
            (images.run, expected)
        }
    }
}

/// Says what failed, and how to play it again.
fn report(player: &Player, sort: Sort, run: &Run, failure: &Failure) {
    clear_progress();
    let bench = player.bench.display();
    let words = run.words.join(" ");
    let shown = if words.is_empty() { "none" } else { &words };
    match sort {
        Sort::Transcript(seed) => println!("seed {seed}, words: {shown}"),
        Sort::Images(seed) => println!("images of seed {seed}, words: {shown}"),
    }
    let differs = |what: &str, Difference { line, expected, came }: &Difference| {
        println!("  line {line} of {what} differs: expected {expected}, came {came}");
    };
    match failure {
        Failure::NotStarted(error) => println!("  {bench} cannot be started: {error}"),
        Failure::Hung => println!("  {bench} took longer than {} s and was killed", LONGEST.as_secs()),
        Failure::Status { expected, came } => println!("  {bench} ended with {came}, and not with {expected}"),
        Failure::Differs(difference, status) => differs(&format!("the answers ({status})"), difference),
        Failure::Words { line, fact: Fact { text, is_said }, came } => {
            let must = if *is_said { "must" } else { "must not" };
            println!("  the words of line {line} {must} say {text:?}, came {came:?}");
        }
        Failure::Told { expected, came } => {
            println!("  standard error differs: expected {expected:?} (the reason's words are free), came {came:?}");
        }
        Failure::File(name, FileFault::Missing) => println!("  the file {name} is not there"),
        Failure::File(name, FileFault::NotExpected) => println!("  the file {name} is there and should not be"),
        Failure::File(name, FileFault::Differs(difference)) => differs(&format!("the file {name}"), difference),
    }
    let program = std::env::current_exe().unwrap_or_default();
    let program = program.display();
    match sort {
        Sort::Transcript(seed) => {
            println!("  again: {program} generate {seed} | {bench} {words}");
            println!("  model: {program} generate {seed} | {program} play {words}");
        }
        Sort::Images(seed) => {
            println!("  again: {program} images {seed} FOLDER, and in FOLDER: sh run {bench}");
            println!("  model: the same with: sh run {program} play");
        }
    }
}

/// A bench, and a folder to play in.
struct Player {
    bench: PathBuf,
    room: PathBuf,
}

impl Drop for Player {
    fn drop(&mut self) {
        let _ = fs::remove_dir_all(&self.room);
    }
}

impl Player {
    fn new(bench: &str) -> io::Result<Player> {
        // It is run in another folder; a name without a slash is looked for on the PATH.
        let bench = if bench.contains('/') { std::path::absolute(bench)? } else { bench.into() };
        let room = std::env::temp_dir().join(format!("compare.{}", std::process::id()));
        fs::create_dir(&room)?;
        Ok(Player { bench, room })
    }

    /// Plays one run to the bench, in a folder with its files.
    fn play(&self, sort: Sort, run: &Run, expected: &Outcome) -> Result<(), Failure> {
        let (Sort::Transcript(seed) | Sort::Images(seed)) = sort;
        let folder = self.room.join("run");
        fill(&folder, &run.files).map_err(Failure::NotStarted)?;
        let mut command = Command::new(&self.bench);
        command.args(&run.words).current_dir(&folder);
        command.stdin(Stdio::piped()).stdout(Stdio::piped()).stderr(Stdio::piped());
        let mut child = command.spawn().map_err(Failure::NotStarted)?;
        let deadline = Instant::now() + LONGEST;
        let input = child.stdin.take().expect("a pipe was asked for");
        let output = child.stdout.take().expect("a pipe was asked for");
        let told = child.stderr.take().expect("a pipe was asked for");
        let transcript = run.transcript.clone();
        thread::spawn(move || feed(seed, input, &transcript));
        let told = collect(told, EXTRA_OUTPUT);
        let trace = run.asked().trace;
        let longest = expected.output.len() as u64 * if trace { LONGER_IN_WORDS } else { 1 };
        let output = collect(output, longest + EXTRA_OUTPUT);
        let (came, told) = (by(deadline, &output), by(deadline, &told));
        let status = came.is_some().then(|| wait(&mut child, deadline)).flatten();
        let (Some(came), Some(told), Some(status)) = (came, told, status) else {
            // It may have ended by itself just now; either way it is gone afterwards.
            let _ = child.kill();
            let _ = child.wait();
            return Err(Failure::Hung);
        };
        judge(expected, &came, trace, status)?;
        judge_words(&expected.facts, &String::from_utf8_lossy(&came))?;
        let differs = Failure::Status { expected: expected.told.status(), came: status };
        (status.code() == Some(expected.told.status().into())).then_some(()).ok_or(differs)?;
        judge_told(&expected.told, &String::from_utf8_lossy(&told))?;
        judge_files(&expected.files, &files_in(&folder).map_err(Failure::NotStarted)?)
    }
}

/// Makes a folder with these files and no others.
fn fill(folder: &Path, files: &Folder) -> io::Result<()> {
    if folder.exists() {
        fs::remove_dir_all(folder)?;
    }
    fs::create_dir(folder)?;
    files.iter().try_for_each(|(name, text)| fs::write(folder.join(name), text))
}

/// The files that are in a folder.
fn files_in(folder: &Path) -> io::Result<Folder> {
    let mut files = Folder::new();
    for entry in fs::read_dir(folder)? {
        let entry = entry?;
        files.insert(entry.file_name().to_string_lossy().into_owned(), fs::read(entry.path())?);
    }
    Ok(files)
}

/// Writes the transcript: at once, after a few bytes of it, or in crumbs, so that blocks end anywhere in a line.
/// A bench may end before it has read all (a malformed line), so that a broken pipe is no failure.
fn feed(seed: u64, mut input: ChildStdin, transcript: &[u8]) {
    let mut rng = Rng::new(seed ^ PACE_SEED);
    let mut rest = transcript;
    let mut give = |rest: &mut &[u8], size: usize, wait: Duration| {
        let (block, after) = rest.split_at(size.min(rest.len()));
        *rest = after;
        let given = input.write_all(block).and_then(|()| input.flush()).is_ok();
        thread::sleep(wait);
        given && !rest.is_empty()
    };
    let crumbs = rng.percent(CRUMBS_PERCENT);
    if crumbs || rng.percent(SHIFTED_PERCENT) {
        let mut goes_on = give(&mut rest, rng.between(1, LARGEST_SHIFT), START_WAIT);
        while crumbs && goes_on {
            goes_on = give(&mut rest, rng.between(1, LARGEST_CRUMB), CRUMB_WAIT);
        }
    }
    give(&mut rest, transcript.len(), Duration::ZERO);
}

/// Reads a pipe to its end, or up to a limit, while others are read.
fn collect(pipe: impl Read + Send + 'static, limit: u64) -> mpsc::Receiver<Vec<u8>> {
    let (sender, receiver) = mpsc::channel();
    thread::spawn(move || {
        let mut came = Vec::new();
        let _ = pipe.take(limit).read_to_end(&mut came);
        let _ = sender.send(came);
    });
    receiver
}

/// What was read from a pipe; None when it has not ended in time.
fn by(deadline: Instant, pipe: &mpsc::Receiver<Vec<u8>>) -> Option<Vec<u8>> {
    pipe.recv_timeout(deadline.saturating_duration_since(Instant::now())).ok()
}

/// Waits for the end of the bench; None when it has not ended in time.
fn wait(child: &mut Child, deadline: Instant) -> Option<ExitStatus> {
    loop {
        if let Ok(Some(status)) = child.try_wait() {
            return Some(status);
        }
        if Instant::now() >= deadline {
            return None;
        }
        thread::sleep(GLANCE);
    }
}

/// Compares the answers and the pages. Of a trace the first digits of each answer count. Where nothing is played, the
/// one answer may stand without words: standard error has them.
fn judge(Outcome { output, told, .. }: &Outcome, came: &[u8], trace: bool, status: ExitStatus) -> Result<(), Failure> {
    let expected = String::from_utf8_lossy(output);
    let came = String::from_utf8_lossy(came);
    let stands_alone = expected == came && told.is_before_play();
    let came = if trace && !stands_alone { came.split_inclusive('\n').map(without_words).collect() } else { came };
    if expected != came {
        return Err(Failure::Differs(difference(&expected, &came), status));
    }
    Ok(())
}

/// Looks for what the model knows in the words of a trace.
fn judge_words(facts: &[Vec<Fact>], came: &str) -> Result<(), Failure> {
    for (number, (facts, line)) in facts.iter().zip(came.lines()).enumerate() {
        if let Some(fact) = facts.iter().find(|fact| line.contains(&fact.text) != fact.is_said) {
            return Err(Failure::Words { line: number + 1, fact: fact.clone(), came: line.to_string() });
        }
    }
    Ok(())
}

/// A line of a trace without its words, which an answer must have; another line as it is.
fn without_words(line: &str) -> String {
    let is_digit = |byte| crate::transcript::digit(byte).is_some();
    let digits = line.bytes().take_while(|byte| is_digit(*byte)).count();
    if digits != ANSWER_DIGITS {
        return line.to_string();
    }
    let (answer, rest) = line.split_at(ANSWER_DIGITS);
    let words = rest.strip_prefix(BEFORE_WORDS).and_then(|words| words.strip_suffix('\n')).unwrap_or_default();
    if words.is_empty() || words.trim() != words {
        return format!("{answer} without words: {rest:?}\n");
    }
    format!("{answer}\n")
}

/// Compares standard error: nothing, or one line with what is at fault, the line of it, and the number. What is wrong
/// with a line of the transcript is told in the words that were agreed (issue 23); else the reason's words are free.
fn judge_told(expected: &Told, came: &str) -> Result<(), Failure> {
    let reason = |begins: &str| {
        let ends = expected.number().map(|number| format!(" ({number})\n"))?;
        came.strip_prefix(begins)?.strip_suffix(&ends).filter(|reason| !reason.is_empty() && !reason.contains('\n'))
    };
    let same = match expected {
        Told::Nothing => came.is_empty(),
        Told::TooLong { .. } | Told::Malformed(_) => came == format!("{expected}\n"),
        Told::Board(_) => reason("bench: board: ").is_some(),
        Told::NotThere { .. } => reason("bench: ").is_some(),
        Told::Refused { file, fault, .. } => reason(&format!("bench: {file}: line {}: ", fault.line)).is_some(),
    };
    let differs = || Failure::Told { expected: expected.to_string(), came: came.to_string() };
    same.then_some(()).ok_or_else(differs)
}

/// Compares the files that should be there afterwards with those that are.
fn judge_files(expected: &Folder, came: &Folder) -> Result<(), Failure> {
    let wrong = |name: &String, fault| Err(Failure::File(name.clone(), fault));
    for (name, text) in expected {
        match came.get(name) {
            None => return wrong(name, FileFault::Missing),
            Some(other) if other != text => {
                let differs = difference(&String::from_utf8_lossy(text), &String::from_utf8_lossy(other));
                return wrong(name, FileFault::Differs(differs));
            }
            Some(_) => {}
        }
    }
    match came.keys().find(|name| !expected.contains_key(*name)) {
        Some(name) => wrong(name, FileFault::NotExpected),
        None => Ok(()),
    }
}

/// Finds the difference of two texts that differ. Lines keep their ends, so that a missing LF shows.
fn difference(expected: &str, came: &str) -> Difference {
    let shown = |line: Option<&str>| line.map_or("nothing".to_string(), |line| format!("{line:?}"));
    let mut expected = expected.split_inclusive('\n');
    let mut came = came.split_inclusive('\n');
    let mut line = 1;
    loop {
        match (expected.next(), came.next()) {
            (Some(left), Some(right)) if left == right => line += 1,
            (left, right) => return Difference { line, expected: shown(left), came: shown(right) },
        }
    }
}

#[cfg(test)]
mod tests {
    use super::*;

    #[test]
    fn the_first_difference_is_found() {
        let at = |expected, came| {
            let found = difference(expected, came);
            (found.line, found.expected, found.came)
        };
        let shown = |line: usize, expected: &str, came: &str| (line, expected.to_string(), came.to_string());
        assert_eq!(at("01\n02\n", "01\n03\n"), shown(2, "\"02\\n\"", "\"03\\n\""));
        assert_eq!(at("01\n02\n", "01\n02"), shown(2, "\"02\\n\"", "\"02\""));
        assert_eq!(at("01\n", ""), shown(1, "\"01\\n\"", "nothing"));
        assert_eq!(at("01\n", "01\n02\n"), shown(2, "nothing", "\"02\\n\""));
    }
}
