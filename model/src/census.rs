//! Counts what happens in runs, to see that what matters happens often.

use crate::bus::{Bus, ACKNOWLEDGED, DONE, NOT_BUSY, OCCUPIED, READ, SEND, STOP};
use crate::chip::{Phase, Sends, Takes, Target, NOTHING};
use crate::generate::{self, Run};
use crate::images::{self, ImageRun, Outcome};
use crate::looks;
use crate::part::Part;
use crate::program::Told;
use crate::starts;
use crate::transcript;
use crate::words::Words;
use std::collections::BTreeMap;

/// No line of a tally is longer.
const WIDTH: usize = 120;

/// Plays so many runs of each sort and prints how often each thing came.
pub fn census(runs: u64) {
    let mut counts = BTreeMap::new();
    (0..runs).for_each(|seed| count_run(seed, &mut counts));
    for (what, count) in counts {
        println!("{count:9} {what}");
    }
    let mut tally = Tally::default();
    for seed in 0..runs {
        let run = generate::run(seed);
        tally.watch(&run, &images::outcome(&run));
        let run = images::run(seed);
        tally.add(&run, &images::outcome(&run.run));
    }
    for (group, counts) in tally.0 {
        for (what, count) in counts {
            println!("{count:9} {group}: {what}");
        }
    }
}

/// The group of what comes after a Start.
pub const STARTS: &str = "starts";

/// How often each thing came, by groups: one of transcripts, one of each part, the others of runs with images.
#[derive(Default)]
pub struct Tally(BTreeMap<&'static str, BTreeMap<String, u64>>);

impl Tally {
    fn count(&mut self, group: &'static str, what: impl ToString) {
        *self.0.entry(group).or_default().entry(what.to_string()).or_default() += 1;
    }

    /// Counts what a transcript shows of requests E7 and E8; what never comes has its 0. Then how it is looked at.
    pub fn watch(&mut self, run: &Run, outcome: &Outcome) {
        looks::watch(run, outcome, |group, what| self.count(group, what));
        starts::watch(run, |group, what, is_seen| {
            *self.0.entry(group).or_default().entry(what.to_string()).or_default() += u64::from(is_seen);
        });
    }

    /// Counts the texts of a run up to the one that is refused; those behind it are never read.
    pub fn add(&mut self, ImageRun { run, texts }: &ImageRun, outcome: &Outcome) {
        looks::watch(run, outcome, |group, what| self.count(group, what));
        let (read, number) = match &outcome.told {
            Told::Refused { place, fault, .. } => (place + 1, Some(fault.reason as u8)),
            Told::NotThere { .. } => return self.count("boards", "without the chip or page"),
            Told::TooLong { .. } => return self.count("texts", "too long"),
            Told::Board(_) => return self.count("boards", "refused"),
            Told::Nothing | Told::Malformed(_) => (texts.len(), None),
        };
        let Words { board, loads, .. } = run.asked();
        self.count("boards", format!("of {} chips", board.len()));
        for (place, text) in texts[..read].iter().enumerate() {
            let part = Part::numbered(board[loads[place].chip].part).expect("a board that is not refused");
            self.count(part.name, "texts");
            let came = match number.filter(|_| place + 1 == read) {
                Some(number) => format!("refused with {number}"),
                None => "loaded".to_string(),
            };
            self.count("texts", &came);
            text.shapes.iter().for_each(|shape| self.count("shapes", shape));
            match text.faults[..] {
                [] => {}
                [fault] => self.count("one fault", format!("{fault}, {came}")),
                [first, second, ..] => {
                    self.count("two faults", &came);
                    self.count("faults", first);
                    self.count("faults", second);
                    continue;
                }
            }
            text.faults.iter().for_each(|fault| self.count("faults", fault));
        }
    }

    /// Prints a group in a few lines.
    pub fn print(&self, group: &str) {
        let mut line = format!("{group}:");
        let counts = self.0.get(group).into_iter().flatten();
        for (place, (what, count)) in counts.enumerate() {
            let next = format!("{}{what} {count}", if place == 0 { " " } else { ", " });
            if line.chars().count() + next.chars().count() > WIDTH {
                println!("{line},");
                line = format!("  {what} {count}");
            } else {
                line += &next;
            }
        }
        println!("{line}");
    }
}

fn count_run(seed: u64, counts: &mut BTreeMap<String, u64>) {
    let mut count = |what: String| *counts.entry(what).or_default() += 1;
    let run = generate::run(seed);
    let board = run.asked().board;
    let mut bus = match Bus::set_up(&board) {
        Ok(bus) => bus,
        Err(refusal) => return count(format!("board: refused with {}", refusal as u8)),
    };
    count(format!("board: {} chips", board.len()));
    let mut events = 0;
    for event in transcript::events(&run.transcript) {
        let before: Vec<Phase> = bus.chips().iter().map(|chip| chip.phase()).collect();
        let answer = bus.step(event);
        events += 1;
        count(format!("status {}", answer.status));
        if answer.status == NOT_BUSY {
            // The lines below are of every chip on the line; here the chip that is named matters.
            count(format!("event {:02X} refused: its chip {}", event.kind, doing(before[usize::from(event.value)])));
            if before.contains(&Phase::Busy) {
                count(format!("event {:02X} refused: another chip is busy", event.kind));
            }
        }
        if answer.status != DONE {
            continue;
        }
        let came = match event.kind {
            SEND if answer.reply == ACKNOWLEDGED => " (acknowledge)",
            SEND if answer.reply == OCCUPIED => " (busy)",
            SEND => " (no acknowledge)",
            READ if answer.reply == NOTHING => " (FF)",
            READ => " (not FF)",
            _ => "",
        };
        count(format!("event {:02X}{came}", event.kind));
        for (chip, before) in bus.chips().iter().zip(before) {
            let starts = event.kind == STOP && before != Phase::Busy && chip.phase() == Phase::Busy;
            let cycle = if starts { " and starts a cycle" } else { "" };
            count(format!("event {:02X}{came} at a chip that {}{cycle}", event.kind, doing(before)));
        }
    }
    if events < generate::EVENTS {
        count("transcript: malformed or empty".to_string());
    }
}

/// A chip's phase in words.
fn doing(phase: Phase) -> &'static str {
    match phase {
        Phase::Standby => "is on standby",
        Phase::Busy => "is busy",
        Phase::Takes(Takes::Address) => "takes an address byte",
        Phase::Takes(Takes::Selection) => "takes the byte after F8",
        Phase::Takes(Takes::ArrayHigh { .. }) => "takes array word byte 1",
        Phase::Takes(Takes::ArrayLow { .. }) => "takes array word byte 2",
        Phase::Takes(Takes::RegisterHigh) => "takes register word byte 1",
        Phase::Takes(Takes::RegisterLow { .. }) => "takes register word byte 2",
        Phase::Takes(Takes::Data(Target::Array { .. })) => "takes array data",
        Phase::Takes(Takes::Data(Target::Security { .. })) => "takes security data",
        Phase::Takes(Takes::Data(Target::Configuration)) => "takes configuration data",
        Phase::Takes(Takes::Data(Target::Lock)) => "takes lock data",
        Phase::Takes(Takes::Data(Target::Nowhere)) => "takes data for nowhere",
        Phase::Sends(Sends::Array) => "sends the array",
        Phase::Sends(Sends::Security) => "sends the security register",
        Phase::Sends(Sends::Configuration { .. }) => "sends the configuration",
        Phase::Sends(Sends::Id { .. }) => "sends the ID",
        Phase::Sends(Sends::Nothing) => "sends nothing",
    }
}

#[cfg(test)]
mod tests {
    use super::*;
    use crate::part::AT24CM01;

    const SEEDS: u64 = 60;
    /// Each of these things comes at least so often in these runs.
    const LEAST: u64 = 5;

    #[test]
    fn what_requests_e7_and_e8_tell_apart_comes_often() {
        let mut tally = Tally::default();
        for run in (0..SEEDS).map(generate::run) {
            tally.watch(&run, &images::outcome(&run));
        }
        for group in [STARTS, AT24CM01.name] {
            for (what, count) in &tally.0[group] {
                assert!(*count >= LEAST, "{group}: {what}: {count}");
            }
        }
    }
}
