//! The events of a random transcript: turns of the chips on a board, whole and broken.

use crate::board::Place;
use crate::bus::{Event, ACK, CYCLE_OVER, NACK, POWER_UP, READ, START, STOP, WP_HIGH, WP_LOW};
use crate::part::{Part, CS32, CSM01, LINE_ADDRESSES};
use crate::rng::Rng;
use crate::turns::{event, start};

/// The kinds of turns, and how often each comes among a hundred or so.
#[derive(Clone, Copy)]
enum Kind {
    ArrayWrite,
    RandomRead,
    CurrentRead,
    Poll,
    SecurityWrite,
    SecurityRead,
    ConfigurationWrite,
    ConfigurationRead,
    Lock,
    Nameless,
    DeviceId,
    BusyLine,
    Stranger,
    WriteProtect,
    CycleOver,
    PowerUp,
    Noise,
}

const KINDS: [(usize, Kind); 17] = [
    (22, Kind::ArrayWrite),
    (14, Kind::RandomRead),
    (6, Kind::CurrentRead),
    (5, Kind::Poll),
    (9, Kind::SecurityWrite),
    (8, Kind::SecurityRead),
    (7, Kind::ConfigurationWrite),
    (4, Kind::ConfigurationRead),
    (4, Kind::Lock),
    (3, Kind::Nameless),
    (7, Kind::DeviceId),
    (3, Kind::BusyLine),
    (2, Kind::Stranger),
    (8, Kind::WriteProtect),
    (4, Kind::CycleOver),
    (1, Kind::PowerUp),
    (3, Kind::Noise),
];

impl Kind {
    /// Whether it is aimed at a register.
    fn needs_registers(self) -> bool {
        use Kind::*;
        matches!(self, SecurityWrite | SecurityRead | ConfigurationWrite | ConfigurationRead | Lock | Nameless)
    }
}

/// Of the turns to registers that a chip does not have so many in a hundred stay, and go unanswered (request E7).
const UNANSWERED_PERCENT: usize = 40;
/// The others become these.
const TO_THE_ARRAY: [Kind; 2] = [Kind::ArrayWrite, Kind::RandomRead];

/// How a turn can be broken.
#[derive(Clone, Copy)]
enum Break {
    /// It stays whole.
    None,
    /// It ends anywhere, and the next turn's Start falls into it.
    Cut,
    /// It ends anywhere with a Stop.
    Stop,
    /// Other events fall into it.
    Insert,
}

const BREAKS: [(usize, Break); 4] = [(64, Break::None), (12, Break::Cut), (6, Break::Stop), (18, Break::Insert)];
const MOST_INSERTED: usize = 3;

/// The events that fall into a turn, or make up a noise.
#[derive(Clone, Copy)]
enum Stray {
    Start,
    Stop,
    Send,
    Read,
    WriteProtect,
    CycleOver,
    PowerUp,
    UnknownKind,
    BadValue,
}

const STRAYS: [(usize, Stray); 9] = [
    (8, Stray::Start),
    (8, Stray::Stop),
    (20, Stray::Send),
    (20, Stray::Read),
    (12, Stray::WriteProtect),
    (16, Stray::CycleOver),
    (3, Stray::PowerUp),
    (10, Stray::UnknownKind),
    (10, Stray::BadValue),
];
const LONGEST_NOISE: usize = 8;

/// When the cycle that a turn may have started is over: in so many of a hundred turns.
const OVER_AT_ONCE_PERCENT: usize = 60;
const OVER_AFTER_POLLING_PERCENT: usize = 40;
/// In so many of a hundred turns that may have started a cycle, that of any chip is said to be over first (request E2).
const OVER_ASTRAY_PERCENT: usize = 10;
/// In so many of a hundred turns the chip's cycle is ended before the turn. Mostly there is none, and it is refused.
const OVER_BEFORE_PERCENT: usize = 10;

/// In so many of a hundred transcripts locks come from the start, and not only late.
const EARLY_LOCKS_PERCENT: usize = 15;
/// So many places of earlier writes are kept for a chip.
pub const RECENT: usize = 4;

/// A chip as far as its turns need it.
pub struct Seat {
    pub part: &'static Part,
    /// The part whose registers its turns are aimed at: where it has none, the 24CSM01, and nobody answers (request
    /// E7).
    pub registers: &'static Part,
    /// The lowest of the three address bits that it answers to.
    pub bits: u8,
    /// Where some of the last writes to its array were aimed.
    pub recent: [usize; RECENT],
}

/// A transcript in the making.
pub struct Script<'a> {
    pub rng: &'a mut Rng,
    pub seats: Vec<Seat>,
    pub events: Vec<Event>,
    pub length: usize,
    pub early_locks: bool,
}

/// So many events for a board. Parts that do not exist get the turns of a 24CS32: set-up refuses the board anyway.
pub fn events(rng: &mut Rng, board: &[Place], length: usize) -> Vec<Event> {
    let seat = |at: &Place| {
        let part = Part::numbered(at.part).unwrap_or(&CS32);
        let registers = if part.registers { part } else { &CSM01 };
        Seat { part, registers, bits: (at.strap << part.word_bits) % LINE_ADDRESSES, recent: [0; RECENT] }
    };
    let early_locks = rng.percent(EARLY_LOCKS_PERCENT);
    let mut script = Script { rng, seats: board.iter().map(seat).collect(), events: Vec::new(), length, early_locks };
    while script.events.len() < length {
        script.add_turn();
    }
    script.events.truncate(length);
    script.events
}

impl Script<'_> {
    /// Adds a turn of some chip, mostly whole, and mostly what ends the cycle that it starts.
    fn add_turn(&mut self) {
        let chip = self.rng.below(self.seats.len());
        let kind = self.kind(chip);
        if self.rng.percent(OVER_BEFORE_PERCENT) {
            self.events.push(event(CYCLE_OVER, chip as u8));
        }
        let mut turn = self.turn(kind, chip);
        self.break_up(&mut turn);
        self.events.append(&mut turn);
        match kind {
            Kind::ArrayWrite | Kind::SecurityWrite | Kind::ConfigurationWrite | Kind::Lock => self.end_cycle(chip),
            Kind::BusyLine => (0..self.seats.len()).for_each(|chip| self.end_cycle(chip)),
            _ => {}
        }
    }

    /// A kind of turn, mostly one that the chip answers.
    fn kind(&mut self, chip: usize) -> Kind {
        let kind = self.rng.weighted(&KINDS);
        let answered = self.seats[chip].part.registers || !kind.needs_registers();
        if answered || self.rng.percent(UNANSWERED_PERCENT) {
            kind
        } else {
            self.rng.pick(&TO_THE_ARRAY)
        }
    }

    /// The events of a whole turn.
    fn turn(&mut self, kind: Kind, chip: usize) -> Vec<Event> {
        match kind {
            Kind::ArrayWrite => self.array_write(chip),
            Kind::RandomRead => self.random_read(chip),
            Kind::CurrentRead => self.current_read(chip),
            Kind::Poll => self.poll(chip),
            Kind::SecurityWrite => self.security_write(chip),
            Kind::SecurityRead => self.security_read(chip),
            Kind::ConfigurationWrite => self.configuration_write(chip),
            Kind::ConfigurationRead => self.configuration_read(chip),
            Kind::Lock => self.lock(chip),
            Kind::Nameless => self.nameless(chip),
            Kind::DeviceId => self.device_id(chip),
            Kind::BusyLine => self.busy_line(),
            Kind::Stranger => self.stranger(),
            Kind::WriteProtect => vec![self.write_protect(chip)],
            Kind::CycleOver => vec![event(CYCLE_OVER, chip as u8)],
            Kind::PowerUp => vec![event(POWER_UP, 0)],
            Kind::Noise => {
                let length = self.rng.between(1, LONGEST_NOISE);
                (0..length).map(|_| self.stray()).collect()
            }
        }
    }

    /// WP low or high; low more often, so that writes go on.
    fn write_protect(&mut self, chip: usize) -> Event {
        event(self.rng.pick(&[WP_LOW, WP_LOW, WP_HIGH]), chip as u8)
    }

    /// Breaks a turn in one of the ways, or not.
    fn break_up(&mut self, turn: &mut Vec<Event>) {
        match self.rng.weighted(&BREAKS) {
            Break::None => {}
            Break::Cut => turn.truncate(self.rng.between(1, turn.len())),
            Break::Stop => {
                turn.truncate(self.rng.between(1, turn.len()));
                turn.push(event(STOP, 0));
            }
            Break::Insert => {
                for _ in 0..self.rng.between(1, MOST_INSERTED) {
                    let stray = self.stray();
                    turn.insert(self.rng.between(0, turn.len()), stray);
                }
            }
        }
    }

    /// One event that belongs to no turn.
    pub fn stray(&mut self) -> Event {
        let chip = self.rng.below(self.seats.len());
        match self.rng.weighted(&STRAYS) {
            Stray::Start => start(),
            Stray::Stop => event(STOP, 0),
            Stray::Send => self.any_address(chip),
            Stray::Read => event(READ, self.rng.pick(&[ACK, NACK])),
            Stray::WriteProtect => self.write_protect(chip),
            Stray::CycleOver => event(CYCLE_OVER, chip as u8),
            Stray::PowerUp => event(POWER_UP, 0),
            Stray::UnknownKind => self.unknown_kind(),
            Stray::BadValue => self.bad_value(),
        }
    }

    /// An event with a kind that is none.
    fn unknown_kind(&mut self) -> Event {
        let any = self.rng.byte();
        let any = if (START..=POWER_UP).contains(&any) { 0 } else { any };
        event(self.rng.pick(&[START - 1, POWER_UP + 1, any, any]), self.rng.byte())
    }

    /// A kind with a value that it mostly does not allow.
    fn bad_value(&mut self) -> Event {
        let kind = self.rng.pick(&[START, STOP, READ, WP_LOW, WP_HIGH, CYCLE_OVER, POWER_UP]);
        let first_bad = match kind {
            READ => NACK + 1,
            WP_LOW | WP_HIGH | CYCLE_OVER => self.seats.len() as u8,
            _ => 1,
        };
        let any = self.rng.byte();
        event(kind, self.rng.pick(&[first_bad, u8::MAX, any]))
    }

    /// Ends the cycle that a turn may have started: at once, after polling, later or never; at times any chip's first.
    fn end_cycle(&mut self, chip: usize) {
        if self.rng.percent(OVER_ASTRAY_PERCENT) {
            let any = self.rng.below(self.seats.len());
            self.events.push(event(CYCLE_OVER, any as u8));
        }
        let over = event(CYCLE_OVER, chip as u8);
        if self.rng.percent(OVER_AT_ONCE_PERCENT) {
            self.events.push(over);
        } else if self.rng.percent(OVER_AFTER_POLLING_PERCENT) {
            let mut polling = self.poll(chip);
            polling.insert(self.rng.between(0, polling.len()), over);
            self.events.append(&mut polling);
        }
    }
}
