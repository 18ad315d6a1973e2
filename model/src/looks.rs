//! Words that let a run be looked at (issue 23): `trace`, and pages of the memories, mostly such as were written.

use crate::bus::Bus;
use crate::generate::Run;
use crate::images::Outcome;
use crate::pages::{Page, MOST_DIGITS, PAGE, STORES};
use crate::part::{Part, CS32};
use crate::program;
use crate::rng::Rng;
use crate::transcript;
use crate::words::TRACE;

/// Keeps these words apart from the run's own random numbers, so that they change nothing else of it.
const LOOK_SEED: u64 = 0x4C4F_4F4B_0000_0000;

/// Shares of a hundred: of the runs, which are traced, and which show pages; of the pages, which are such as were
/// written, and which stand at an edge; of the runs with pages, which ask for one that is not there.
const TRACE_PERCENT: usize = 25;
const PAGES_PERCENT: usize = 35;
const WRITTEN_PERCENT: usize = 60;
const EDGE_PERCENT: usize = 60;
const NOT_THERE_PERCENT: usize = 6;
const MOST_PAGES: usize = 3;
/// The highest chip, store and page that a word can name.
const HIGHEST_DIGIT: usize = 0xF;
const HIGHEST_PAGE: usize = 0xFFFF;
const ERASED: u8 = 0xFF;

/// The groups of what is counted.
pub const LOOKS: &str = "looks";
pub const MALFORMED: &str = "malformed";

/// Adds such words to a run, anywhere among its words.
pub fn add(run: &mut Run, seed: u64) {
    let mut rng = Rng::new(seed ^ LOOK_SEED);
    let mut words = Vec::new();
    if rng.percent(TRACE_PERCENT) {
        words.push(TRACE.to_string());
    }
    if rng.percent(PAGES_PERCENT) {
        let written = written(run);
        let parts: Vec<&Part> = run.asked().board.iter().map(|at| Part::numbered(at.part).unwrap_or(&CS32)).collect();
        words.extend((0..rng.between(1, MOST_PAGES)).map(|_| there(&mut rng, &parts, &written)));
        if rng.percent(NOT_THERE_PERCENT) {
            words.push(not_there(&mut rng, &parts));
        }
    }
    for word in words {
        let at = rng.between(0, run.words.len());
        run.words.insert(at, word);
    }
}

/// How many pages a store has.
fn pages_of(part: &Part, store: usize) -> usize {
    [part.array, part.security][store] / part.page
}

/// The pages that are not erased when the run is over, but for those with serial numbers; none where it is refused.
fn written(run: &Run) -> Vec<[usize; 3]> {
    let Ok(Ok(mut bus)) = program::ready(&run.asked(), &run.files) else { return Vec::new() };
    for event in transcript::events(&run.transcript) {
        bus.step(event);
    }
    let chips = 0..bus.chips().len();
    let all = chips.flat_map(|chip| {
        let part = bus.chips()[chip].part();
        let stores = 0..STORES.len();
        stores.flat_map(move |store| (0..pages_of(part, store)).map(move |number| [chip, store, number]))
    });
    all.filter(|[chip, store, number]| [*store, *number] != [1, 0] && !is_erased(&bus, *chip, *store, *number))
        .collect()
}

fn is_erased(bus: &Bus, chip: usize, store: usize, number: usize) -> bool {
    let page = Page { word: String::new(), chip, store, number };
    page.bytes(bus).is_some_and(|(_, bytes)| bytes.iter().all(|byte| *byte == ERASED))
}

/// The word of a page, its number with any count of leading zeros.
fn word(rng: &mut Rng, [chip, store, number]: [usize; 3]) -> String {
    let width = rng.between(1, MOST_DIGITS);
    format!("{PAGE}{chip:X}:{store:X}:{number:0width$X}")
}

/// The word of a page that is there.
fn there(rng: &mut Rng, parts: &[&Part], written: &[[usize; 3]]) -> String {
    if !written.is_empty() && rng.percent(WRITTEN_PERCENT) {
        let page = rng.pick(written);
        return word(rng, page);
    }
    let chip = rng.below(parts.len());
    let store = rng.below(if parts[chip].registers { STORES.len() } else { 1 });
    let last = pages_of(parts[chip], store) - 1;
    let number = if rng.percent(EDGE_PERCENT) { rng.pick(&[0, last]) } else { rng.between(0, last) };
    word(rng, [chip, store, number])
}

/// The word of a page that is not there: chip, store or number is none, mostly just not.
fn not_there(rng: &mut Rng, parts: &[&Part]) -> String {
    let chip = rng.below(parts.len());
    let store = rng.below(STORES.len());
    let (no_chip, no_store) = (rng.between(parts.len(), HIGHEST_DIGIT), rng.between(STORES.len(), HIGHEST_DIGIT));
    let past = pages_of(parts[chip], store);
    let number = rng.between(past, HIGHEST_PAGE);
    let page = rng.pick(&[
        [parts.len(), store, 0],
        [no_chip, store, 0],
        [chip, STORES.len(), 0],
        [chip, no_store, 0],
        [chip, store, past],
        [chip, store, number],
    ]);
    word(rng, page)
}

/// What a run may be an example of, by groups.
pub fn watch(run: &Run, outcome: &Outcome, mut see: impl FnMut(&'static str, String)) {
    let asked = run.asked();
    if asked.trace {
        see(LOOKS, "traced".to_string());
    }
    match &outcome.told {
        program::Told::NotThere { asked } if asked.starts_with(PAGE) => see(LOOKS, "no such page".to_string()),
        program::Told::Malformed(malformed) => see(MALFORMED, malformed.flaw.to_string()),
        _ => {}
    }
    let output = String::from_utf8_lossy(&outcome.output);
    for page in output.split(PAGE).skip(1) {
        let (heading, rows) = page.split_once('\n').expect("rows below a heading");
        let bytes = rows.lines().map(|row| row.split('|').next().unwrap_or(row));
        let erased = bytes.flat_map(|row| row.split(' ').skip(1)).all(|byte| byte.is_empty() || byte == "FF");
        let (_, store) = heading.rsplit_once(", ").expect("a store in a heading");
        see(LOOKS, format!("{store} page{}", if erased { ", erased" } else { "" }));
    }
}

#[cfg(test)]
mod tests {
    use super::*;
    use crate::generate;
    use crate::images;
    use std::collections::BTreeMap;

    const SEEDS: u64 = 300;
    /// Each of these things comes at least so often in these runs.
    const LEAST: usize = 4;

    #[test]
    fn every_flaw_and_every_look_comes() {
        let mut came = BTreeMap::new();
        let with_images = (0..SEEDS).map(|seed| images::run(seed).run);
        for run in (0..SEEDS).map(generate::run).chain(with_images) {
            let outcome = images::outcome(&run);
            watch(&run, &outcome, |group, what| *came.entry((group, what)).or_insert(0) += 1);
        }
        let count = |of: &str| came.keys().filter(|(group, _)| *group == of).count();
        assert_eq!((count(MALFORMED), count(LOOKS)), (8, 6), "{came:?}");
        assert!(came.values().all(|count| *count >= LEAST), "{came:?}");
    }
}
