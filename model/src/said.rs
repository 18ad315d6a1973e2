//! What the words of a trace must say (issue 23). Most of them are free, but what the model knows of the bus is not.

use crate::bus::{
    Answer, Bus, Event, ACKNOWLEDGED, CYCLE_OVER, DONE, OCCUPIED, POWER_UP, READ, SEND, START, STOP, WP_HIGH, WP_LOW,
};
use crate::chip::{Chip, Phase, Sends, Takes, Target};
use crate::pages::STORES;

/// A part of the words, and whether it must be there or must not.
#[derive(Debug, Clone, PartialEq, Eq)]
pub struct Fact {
    pub text: String,
    pub is_said: bool,
}

fn said(text: impl Into<String>) -> Fact {
    Fact { text: text.into(), is_said: true }
}

fn not_said(text: impl Into<String>) -> Fact {
    Fact { text: text.into(), is_said: false }
}

/// A place in the array or in the security register.
fn in_array(address: usize) -> String {
    format!("{address:05X} of its {}", STORES[0])
}

fn in_security(address: usize) -> String {
    format!("{address:05X} of its {}", STORES[1])
}

/// Chips by their numbers, and what they are; None for none of them.
fn listed(chips: &[usize], what: &str) -> Option<String> {
    let numbers: Vec<String> = chips.iter().map(usize::to_string).collect();
    match chips {
        [] => None,
        [_] => Some(format!("chip {} {what}", numbers[0])),
        _ => Some(format!("chips {} {what}", numbers.join(" "))),
    }
}

fn numbers(bus: &Bus, choose: impl Fn(&Chip) -> bool) -> Vec<usize> {
    (0..bus.chips().len()).filter(|number| choose(&bus.chips()[*number])).collect()
}

/// Plays an event; what its answer's words must say and must not.
pub fn step(bus: &mut Bus, event: Event) -> Vec<Fact> {
    let before: Vec<Phase> = bus.chips().iter().map(Chip::phase).collect();
    let counters: Vec<(usize, usize)> = bus.chips().iter().map(Chip::counters).collect();
    let answer = bus.step(event);
    if answer.status != DONE {
        return vec![said(format!("refused ({:02X})", answer.status))];
    }
    let mut facts = match event.kind {
        START => of_start(bus),
        STOP => of_stop(bus, &before),
        SEND => of_byte(bus, &before, &counters, answer),
        READ => of_read(&before, &counters, answer),
        WP_LOW => vec![said(format!("WP of chip {} low", event.value))],
        WP_HIGH => vec![said(format!("WP of chip {} high", event.value))],
        CYCLE_OVER => vec![said(format!("write cycle of chip {} over", event.value))],
        POWER_UP => vec![said("power up")],
        _ => Vec::new(),
    };
    facts.push(not_said("refused"));
    facts
}

/// Who awaits an address byte, and who is busy.
fn of_start(bus: &Bus) -> Vec<Fact> {
    let awaits = listed(&numbers(bus, |chip| !chip.is_busy()), "awaiting an address byte");
    let busy = listed(&numbers(bus, Chip::is_busy), "busy");
    vec![said(awaits.unwrap_or("no chip awaiting an address byte".to_string())), busy.map_or(not_said("busy"), said)]
}

/// Who stores, and where; a chip that does is busy now.
fn of_stop(bus: &Bus, before: &[Phase]) -> Vec<Fact> {
    let begun = numbers(bus, Chip::is_busy).into_iter().find(|chip| before[*chip] != Phase::Busy);
    let Some(chip) = begun else { return vec![not_said(", busy"), not_said(" bytes at "), not_said(" byte at ")] };
    let mut facts = vec![said(format!("chip {chip} ")), said(", busy"), not_said("stores nothing")];
    match before[chip] {
        Phase::Takes(Takes::Data(Target::Array { first })) => facts.push(said(format!(" at {}", in_array(first)))),
        Phase::Takes(Takes::Data(Target::Security { first })) => {
            facts.push(said(format!(" at {}", in_security(first))));
        }
        Phase::Takes(Takes::Data(Target::Configuration)) => facts.push(said("stores its configuration")),
        _ => facts.push(said("locks its ID page")),
    }
    facts
}

/// Whether the byte was acknowledged, and what it was for the chip that took it.
fn of_byte(bus: &Bus, before: &[Phase], counters: &[(usize, usize)], answer: Answer) -> Vec<Fact> {
    match answer.reply {
        ACKNOWLEDGED => {}
        OCCUPIED => return vec![said(": busy"), not_said("acknowledged")],
        _ => return vec![said("not acknowledged")],
    }
    let mut facts = vec![said(": acknowledged"), not_said("not acknowledged"), not_said("busy")];
    for (number, chip) in bus.chips().iter().enumerate() {
        let (array, security) = counters[number];
        match (before[number], chip.phase()) {
            (Phase::Takes(Takes::Address), Phase::Takes(Takes::Selection)) => facts.push(said("F8")),
            (Phase::Takes(Takes::Address), Phase::Sends(Sends::Id { .. })) => facts.push(said("F9")),
            (Phase::Takes(Takes::Address), Phase::Takes(_) | Phase::Sends(_)) => {
                facts.push(said(format!("chip {number} ({} at strap {})", chip.part().name, chip.strap())));
            }
            (Phase::Takes(Takes::ArrayLow { .. }), Phase::Takes(Takes::Data(Target::Array { first }))) => {
                facts.push(said(format!("counter at {}", in_array(first))));
            }
            (Phase::Takes(Takes::RegisterLow { .. }), Phase::Takes(Takes::Data(Target::Security { first }))) => {
                facts.push(said(format!("counter at {}", in_security(first))));
            }
            (Phase::Takes(Takes::Data(Target::Array { .. })), _) => {
                facts.push(said(format!("data for chip {number}, {}", in_array(array))));
            }
            (Phase::Takes(Takes::Data(Target::Security { .. })), _) => {
                facts.push(said(format!("data for chip {number}, {}", in_security(security))));
            }
            _ => {}
        }
    }
    facts
}

/// Who sends what, and from where.
fn of_read(before: &[Phase], counters: &[(usize, usize)], answer: Answer) -> Vec<Fact> {
    let sends = |phase: &Phase| matches!(phase, Phase::Sends(_));
    let Some(chip) = before.iter().position(sends) else { return vec![said("nobody sends")] };
    let mut facts = vec![said(format!("chip {chip} sends {:02X}", answer.reply))];
    match before[chip] {
        Phase::Sends(Sends::Array) => facts.push(said(format!(" from {}", in_array(counters[chip].0)))),
        Phase::Sends(Sends::Security) => facts.push(said(format!(" from {}", in_security(counters[chip].1)))),
        Phase::Sends(Sends::Configuration { place }) => facts.push(said(format!("configuration byte {place}"))),
        Phase::Sends(Sends::Id { place }) => facts.push(said(format!("ID byte {place}"))),
        _ => {}
    }
    facts
}

#[cfg(test)]
mod tests {
    use super::*;
    use crate::transcript;
    use crate::words;

    /// README.md, its first screen.
    const TRACE: [&str; 15] = [
        "Start: chips 0 1 2 awaiting an address byte",
        "address chip 1 (24CS32 at strap 1), write: acknowledged",
        "first address byte for chip 1: acknowledged",
        "second address byte for chip 1: acknowledged, counter at 00000 of its array",
        "data for chip 1, 00000 of its array: acknowledged, 1 byte loaded",
        "Stop: chip 1 stores 1 byte at 00000 of its array, busy",
        "write cycle of chip 1 over",
        "Start: chips 0 1 2 awaiting an address byte",
        "address chip 1 (24CS32 at strap 1), write: acknowledged",
        "first address byte for chip 1: acknowledged",
        "second address byte for chip 1: acknowledged, counter at 00000 of its array",
        "Start: chips 0 1 2 awaiting an address byte",
        "address chip 1 (24CS32 at strap 1), read: acknowledged, sends from 00000 of its array",
        "read, not acknowledged by the host: chip 1 sends A5 from 00000 of its array",
        "Stop",
    ];
    const EVENTS: &[u8] = b"0100\n03A2\n0300\n0300\n03A5\n0200\n0701\n0100\n03A2\n0300\n0300\n0100\n03A3\n0401\n0200\n";

    #[test]
    fn the_papers_example_says_what_it_must() {
        let mut bus = Bus::set_up(&words::parse(&[]).expect("words").board).expect("a board");
        for (line, event) in transcript::events(EVENTS).enumerate() {
            let facts = step(&mut bus, event);
            let agrees = |words: &str| facts.iter().all(|fact| words.contains(&fact.text) == fact.is_said);
            assert!(agrees(TRACE[line]), "{} {facts:?}", TRACE[line]);
            assert!(!agrees("nonsense: refused (08), busy"), "{facts:?}");
        }
    }

    #[test]
    fn chips_are_listed() {
        let list = |chips: &[usize]| listed(chips, "busy");
        assert_eq!(list(&[]), None);
        assert_eq!(list(&[2]).as_deref(), Some("chip 2 busy"));
        assert_eq!(list(&[0, 3]).as_deref(), Some("chips 0 3 busy"));
    }
}
