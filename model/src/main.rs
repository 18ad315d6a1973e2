//! A model of the bench, written from the paper, the requests and the sheets alone, to compare the bench with.

mod board;
mod bus;
mod calls;
mod census;
mod chip;
mod compare;
mod generate;
mod hex;
mod images;
mod looks;
mod pages;
mod part;
mod program;
mod rng;
mod said;
mod script;
mod starts;
mod texts;
mod transcript;
mod turns;
mod words;

use std::io::{self, BufReader, BufWriter, Write};
use std::path::Path;
use std::process::ExitCode;

const USAGE: &str = "usage: model play [PART:STRAP ..] [load:K:FILE ..] [save:K:FILE ..] [page:K:STORE:N ..]
     | generate SEED | images SEED FOLDER | compare BENCH RUNS [FIRST_SEED] | census RUNS";
const BAD_ARGUMENTS: u8 = 2;

/// What the command line asks for.
enum Task {
    Play(words::Words),
    Generate(u64),
    Images { seed: u64, folder: String },
    Compare { bench: String, runs: u64, first_seed: u64 },
    Census(u64),
}

/// Reads the command line; None where it is wrong.
fn task(words: &[String]) -> Option<Task> {
    let (command, rest) = words.split_first()?;
    let number = |word: &String| word.bytes().all(|byte| byte.is_ascii_digit()).then(|| word.parse().ok())?;
    let runs = |word: &String| number(word).filter(|runs| *runs > 0);
    Some(match (command.as_str(), rest) {
        ("play", words) => Task::Play(words::parse(words)?),
        ("generate", [seed]) => Task::Generate(number(seed)?),
        ("images", [seed, folder]) => Task::Images { seed: number(seed)?, folder: folder.clone() },
        ("compare", [bench, count]) => Task::Compare { bench: bench.clone(), runs: runs(count)?, first_seed: 0 },
        ("compare", [bench, count, seed]) => {
            Task::Compare { bench: bench.clone(), runs: runs(count)?, first_seed: number(seed)? }
        }
        ("census", [count]) => Task::Census(runs(count)?),
        _ => return None,
    })
}

/// Prints a run: the words on standard error, the transcript on standard output.
fn generate(seed: u64) -> io::Result<()> {
    let run = generate::run(seed);
    eprintln!("# words: {}", if run.words.is_empty() { "none".to_string() } else { run.words.join(" ") });
    io::stdout().write_all(&run.transcript)
}

/// Puts the files of a run with images into a folder, with its transcript and a script that plays it to a bench.
fn put_images(seed: u64, folder: &str) -> io::Result<()> {
    let run = images::run(seed).run;
    let folder = Path::new(folder);
    std::fs::create_dir_all(folder)?;
    for (name, text) in &run.files {
        std::fs::write(folder.join(name), text)?;
    }
    std::fs::write(folder.join("transcript"), &run.transcript)?;
    let words: Vec<String> = run.words.iter().map(|word| format!("'{word}'")).collect();
    std::fs::write(folder.join("run"), format!("exec \"$@\" {} <transcript\n", words.join(" ")))
}

/// Answers standard input on standard output, with the images and pages that the words ask for; the status to end with.
fn play(words: &words::Words) -> io::Result<u8> {
    let mut output = BufWriter::new(io::stdout().lock());
    let told = program::play(words, &mut program::Disk, BufReader::new(io::stdin().lock()), &mut output)?;
    output.flush()?;
    if told != program::Told::Nothing {
        eprintln!("{told}");
    }
    Ok(told.status())
}

fn main() -> ExitCode {
    let words: Vec<String> = std::env::args().skip(1).collect();
    let done = match task(&words) {
        None => {
            eprintln!("{USAGE}");
            return ExitCode::from(BAD_ARGUMENTS);
        }
        Some(Task::Play(words)) => play(&words).map(ExitCode::from),
        Some(Task::Generate(seed)) => generate(seed).map(|()| ExitCode::SUCCESS),
        Some(Task::Images { seed, folder }) => put_images(seed, &folder).map(|()| ExitCode::SUCCESS),
        Some(Task::Compare { bench, runs, first_seed }) => {
            let (passed, failed) = compare::compare(&bench, runs, first_seed);
            println!("{passed} passed, {failed} failed");
            return if failed == 0 { ExitCode::SUCCESS } else { ExitCode::FAILURE };
        }
        Some(Task::Census(runs)) => {
            census::census(runs);
            Ok(ExitCode::SUCCESS)
        }
    };
    match done {
        Ok(status) => status,
        Err(error) => {
            eprintln!("model: {error}");
            ExitCode::FAILURE
        }
    }
}
