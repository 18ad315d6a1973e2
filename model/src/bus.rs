//! The line: events in, answers out (paper, "Events and replies").

use crate::board::{self, Place, Refusal};
use crate::chip::{Chip, Phase, NOTHING};
use crate::hex::{self, Fault};

/// Event kinds.
pub const START: u8 = 0x01;
pub const STOP: u8 = 0x02;
pub const SEND: u8 = 0x03;
pub const READ: u8 = 0x04;
pub const WP_LOW: u8 = 0x05;
pub const WP_HIGH: u8 = 0x06;
pub const CYCLE_OVER: u8 = 0x07;
pub const POWER_UP: u8 = 0x08;

/// Values of event 04.
pub const ACK: u8 = 0x00;
pub const NACK: u8 = 0x01;

/// Statuses: done, and the refusals that an event can meet.
pub const DONE: u8 = 0;
pub const UNKNOWN_KIND: u8 = 6;
pub const BAD_VALUE: u8 = 7;
pub const WRONG_DIRECTION: u8 = 8;
pub const NOT_BUSY: u8 = 12;

/// Replies to a byte sent; 02 is request E8's.
pub const UNANSWERED: u8 = 0;
pub const ACKNOWLEDGED: u8 = 1;
pub const OCCUPIED: u8 = 2;

/// An event as the transcript writes it.
#[derive(Debug, Clone, Copy, PartialEq, Eq)]
pub struct Event {
    pub kind: u8,
    pub value: u8,
}

/// What an event is answered with.
#[derive(Debug, Clone, Copy, PartialEq, Eq)]
pub struct Answer {
    pub status: u8,
    pub reply: u8,
}

/// The chips on one line.
#[derive(Debug)]
pub struct Bus {
    chips: Vec<Chip>,
    /// A Start is remembered, even when every chip is busy: a byte sent now is an address byte (request E8).
    started: bool,
}

impl Bus {
    /// Sets up a line of fresh chips, or refuses the board.
    pub fn set_up(board: &[Place]) -> Result<Bus, Refusal> {
        let parts = board::check(board)?;
        let numbered = (0..).zip(parts.into_iter().zip(board));
        let chips = numbered.map(|(number, (part, at))| Chip::fresh(part, at.strap, number)).collect();
        Ok(Bus { chips, started: false })
    }

    /// The chips, in order.
    pub fn chips(&self) -> &[Chip] {
        &self.chips
    }

    /// Loads a text into the array of a chip that is there. "Loading is no bus event", and "protection does not apply".
    pub fn load(&mut self, chip: usize, text: &[u8]) -> Result<(), Fault> {
        hex::load(text, self.chips[chip].array_mut())
    }

    /// The array of a chip that is there, as text.
    pub fn saved(&self, chip: usize) -> Vec<u8> {
        hex::save(self.chips[chip].array())
    }

    /// Plays one event. Only one that is done touches the Start that is remembered (request E8).
    pub fn step(&mut self, event: Event) -> Answer {
        let status = self.refusal(event);
        if status != DONE {
            return Answer { status, reply: 0 };
        }
        let reply = self.play(event);
        self.started = match event.kind {
            START => true,
            WP_LOW | WP_HIGH | CYCLE_OVER => self.started,
            _ => false,
        };
        Answer { status, reply }
    }

    /// The number with which the event is refused: 6, 7, 12, 8 in this order, or DONE.
    fn refusal(&self, Event { kind, value }: Event) -> u8 {
        let named = usize::from(value);
        let allowed = match kind {
            START | STOP | POWER_UP => value == 0,
            SEND => true,
            READ => value == ACK || value == NACK,
            WP_LOW | WP_HIGH | CYCLE_OVER => named < self.chips.len(),
            _ => return UNKNOWN_KIND,
        };
        if !allowed {
            return BAD_VALUE;
        }
        if kind == CYCLE_OVER && !self.chips[named].is_busy() {
            return NOT_BUSY; // request E2: the chip named decides, whatever the others do
        }
        let against = match kind {
            SEND => self.chips.iter().any(|chip| matches!(chip.phase(), Phase::Sends(_))),
            READ => self.chips.iter().any(|chip| matches!(chip.phase(), Phase::Takes(_))),
            _ => false,
        };
        if against {
            WRONG_DIRECTION
        } else {
            DONE
        }
    }

    /// Plays an event that is not refused; the reply.
    fn play(&mut self, Event { kind, value }: Event) -> u8 {
        match kind {
            START => self.chips.iter_mut().for_each(Chip::start),
            STOP => self.chips.iter_mut().for_each(Chip::stop),
            SEND => return self.send(value),
            READ => {
                let mut sent = self.chips.iter_mut().filter_map(|chip| chip.send(value == NACK));
                return sent.next().unwrap_or(NOTHING);
            }
            WP_LOW | WP_HIGH => self.chips[usize::from(value)].set_wp(kind == WP_HIGH),
            CYCLE_OVER => self.chips[usize::from(value)].cycle_over(),
            _ => self.chips.iter_mut().for_each(Chip::power_up),
        }
        0
    }

    /// The reply to a byte sent. An address byte that names a busy chip gets 02 (request E8). An acknowledge would be
    /// heard over it, but no two chips match one address byte.
    fn send(&mut self, byte: u8) -> u8 {
        let occupied = self.started && self.chips.iter().any(|chip| chip.is_busy() && chip.is_named(byte));
        // Every chip hears the byte, whoever acknowledges.
        let acknowledged = self.chips.iter_mut().fold(false, |heard, chip| heard | chip.take(byte));
        match (acknowledged, occupied) {
            (true, _) => ACKNOWLEDGED,
            (false, true) => OCCUPIED,
            (false, false) => UNANSWERED,
        }
    }
}
