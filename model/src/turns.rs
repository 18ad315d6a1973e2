//! The turns of one chip: writes, reads and commands as a host sends them, with addresses near the edges. And calls
//! on a line of busy chips.

use crate::bus::{Event, ACK, CYCLE_OVER, NACK, POWER_UP, READ, SEND, START, STOP, WP_LOW};
use crate::chip::{
    ARRAY_TYPE, BITS_SHIFT, CONFIGURATION_BYTES, CONFIGURATION_ROW, CONFIRM_LOCKED, CONFIRM_UNLOCKED, EWPM_BIT,
    ID_READ, ID_SELECT, LOCK_BIT, LOCK_ROW, LOCK_ROW_MASK, READ_BIT, REGISTER_ROW_MASK, REGISTER_TYPE, SECURITY_ROW,
    TYPE_SHIFT,
};
use crate::part::{Part, LINE_ADDRESSES};
use crate::script::{Script, Seat, RECENT};

/// What follows the choice of a chip in a Device ID turn.
#[derive(Clone, Copy)]
enum IdStep {
    Select,
    Read,
    Other,
    Stop,
    PowerUp,
}

const ID_STEPS: [(usize, IdStep); 5] =
    [(20, IdStep::Select), (55, IdStep::Read), (15, IdStep::Other), (7, IdStep::Stop), (3, IdStep::PowerUp)];

/// What comes between a Start and the byte after it on a line of busy chips (request E8).
#[derive(Clone, Copy)]
enum Between {
    Nothing,
    Read,
    /// Of the chip that the byte names.
    CycleOver,
    Select,
    Strays,
}

const BETWEEN: [(usize, Between); 5] = [
    (25, Between::Nothing),
    (30, Between::Read),
    (10, Between::CycleOver),
    (10, Between::Select),
    (25, Between::Strays),
];
const MOST_STRAYS: usize = 2;
/// A line of busy chips: how many Starts it sees, how often one of the chips is ready again before, and how often an
/// address byte is followed by another.
const MOST_CALLS: usize = 16;
const ONE_READY_PERCENT: usize = 40;
const SECOND_BYTE_PERCENT: usize = 30;

/// Lengths: data bytes of a write, mostly and at times, and bytes of a read.
const USUAL_DATA: usize = 6;
const MORE_DATA: usize = 40;
const MORE_DATA_PERCENT: usize = 15;
const LEAST_MUCH_DATA: usize = 250;
const MUCH_DATA: usize = 300;
const MUCH_DATA_PERCENT: usize = 2;
const USUAL_READ: usize = 5;
const MORE_READ: usize = 40;
const MORE_READ_PERCENT: usize = 8;
/// Of the three ID bytes at one F9h: twice round, and on.
const ID_READ_MOST: usize = 8;
const NACK_PERCENT: usize = 85;
const STOP_PERCENT: usize = 90;

/// Addresses: how far from an edge, and how often near one or where a write was.
const NEAR: usize = 4;
const RECENT_PERCENT: usize = 65;
const EDGE_PERCENT: usize = 80;
const ZONES: usize = 8;

/// Locks come in the last part of a transcript, so that not everything locks early.
const LATE_NUMERATOR: usize = 3;
const LATE_DENOMINATOR: usize = 4;
/// Data bytes of a lock command: any but none locks (D4).
const MOST_LOCK_DATA: usize = 2;
const LOCK_BIT_PERCENT: usize = 25;
const WRONG_CONFIRMATION_PERCENT: usize = 20;
/// Configuration writes: how often there are fewer or more bytes than in a right one.
const OTHER_COUNT_PERCENT: usize = 25;
const ROUND_COUNT_PERCENT: usize = 1;
const BYTE_VALUES: usize = 256;
/// What comes half of the time, and what comes now and then.
const HALF_PERCENT: usize = 50;
const RARE_PERCENT: usize = 10;

/// Low four bits of a first register word byte that no row of Table 3-3 has.
const NAMELESS: [u8; 11] = [0x0, 0x1, 0x2, 0x3, 0x4, 0x5, 0x7, 0xC, 0xD, 0xE, 0xF];
/// High-speed host codes 08h to 0Fh.
const HIGH_SPEED: u8 = 0x08;

/// An event.
pub fn event(kind: u8, value: u8) -> Event {
    Event { kind, value }
}

/// A Start.
pub fn start() -> Event {
    event(START, 0)
}

/// A byte that the host sends.
pub fn send(byte: u8) -> Event {
    event(SEND, byte)
}

/// An address byte.
pub fn address(device_type: u8, bits: u8, read: bool) -> u8 {
    device_type << TYPE_SHIFT | bits << BITS_SHIFT | if read { READ_BIT } else { 0 }
}

impl Script<'_> {
    /// The address byte of a chip; the bit below the strap, where there is one, is any.
    fn address_byte(&mut self, chip: usize, device_type: u8, read: bool) -> Event {
        let seat = &self.seats[chip];
        let below = self.rng.byte() % (1 << seat.part.word_bits);
        send(address(device_type, seat.bits + below, read))
    }

    /// An array address: where a write was, near the edge of a page, a zone or the array, or anywhere.
    fn array_place(&mut self, chip: usize) -> usize {
        let Seat { part, recent, .. } = self.seats[chip];
        let edge = if self.rng.percent(RECENT_PERCENT) {
            self.rng.pick(&recent)
        } else if self.rng.percent(EDGE_PERCENT) {
            let zone_edge = self.rng.below(ZONES) * part.zone;
            self.rng.pick(&[0, part.page, zone_edge])
        } else {
            self.rng.below(part.array)
        };
        self.near(edge, part.array)
    }

    /// An address near another, round the end of the region.
    fn near(&mut self, address: usize, size: usize) -> usize {
        (address + size + self.rng.below(NEAR) - self.rng.below(NEAR)) % size
    }

    /// Start, address byte and word address for the array; bits that the part does not use are any.
    fn array_word(&mut self, chip: usize, place: usize) -> Vec<Event> {
        let Seat { part, bits, .. } = self.seats[chip];
        let [low, high, top, ..] = place.to_le_bytes();
        let [_, used, ..] = (part.array - 1).to_le_bytes();
        let unused = self.rng.byte() & !used;
        vec![start(), send(address(ARRAY_TYPE, bits + top, false)), send(high | unused), send(low)]
    }

    /// Start, address byte and word address for a register row; bits that are not fixed are any.
    fn register_word(&mut self, chip: usize, mask: u8, row: u8) -> Vec<Event> {
        let first = self.rng.byte() & !mask | row;
        let address_byte = self.address_byte(chip, REGISTER_TYPE, false);
        let second = self.rng.byte();
        vec![start(), address_byte, send(first), send(second)]
    }

    /// The same for a place in the security register, mostly near the edge of a half.
    fn security_word(&mut self, chip: usize) -> Vec<Event> {
        let part = self.seats[chip].registers;
        let anywhere = self.rng.below(part.security);
        let edge = self.rng.pick(&[0, part.read_only, part.read_only, part.security, anywhere]);
        let place = self.near(edge, part.security);
        self.security_word_at(chip, place)
    }

    /// Start, address byte and word address for a place in the security register.
    fn security_word_at(&mut self, chip: usize, place: usize) -> Vec<Event> {
        let part = self.seats[chip].registers;
        let [low, high, ..] = place.to_le_bytes();
        let [low_used, high_used, ..] = (part.security - 1).to_le_bytes();
        let first = SECURITY_ROW | high | self.rng.byte() & !(REGISTER_ROW_MASK | high_used);
        let second = low | self.rng.byte() & !low_used;
        vec![start(), self.address_byte(chip, REGISTER_TYPE, false), send(first), send(second)]
    }

    /// Data bytes: a few, more than a small page, or more than a large one.
    fn data(&mut self) -> Vec<Event> {
        let (least, most) = if self.rng.percent(MUCH_DATA_PERCENT) {
            (LEAST_MUCH_DATA, MUCH_DATA)
        } else if self.rng.percent(MORE_DATA_PERCENT) {
            (0, MORE_DATA)
        } else {
            (0, USUAL_DATA)
        };
        let count = self.rng.between(least, most);
        (0..count).map(|_| send(self.rng.byte())).collect()
    }

    /// Reads, the last with a NACK mostly, and mostly a Stop.
    fn reads(&mut self) -> Vec<Event> {
        let most = if self.rng.percent(MORE_READ_PERCENT) { MORE_READ } else { USUAL_READ };
        let count = self.rng.below(most);
        let mut turn = vec![event(READ, ACK); count];
        turn.push(event(READ, if self.rng.percent(NACK_PERCENT) { NACK } else { ACK }));
        self.stop(&mut turn);
        turn
    }

    /// Mostly a Stop; where none comes, the next turn's Start ends this one.
    fn stop(&mut self, turn: &mut Vec<Event>) {
        if self.rng.percent(STOP_PERCENT) {
            turn.push(event(STOP, 0));
        }
    }

    /// A write to the array, whose place is kept for later reads.
    pub fn array_write(&mut self, chip: usize) -> Vec<Event> {
        let place = self.array_place(chip);
        self.seats[chip].recent[self.rng.below(RECENT)] = place;
        let word = self.array_word(chip, place);
        self.with_data(word)
    }

    /// A word address and data bytes.
    fn with_data(&mut self, mut turn: Vec<Event>) -> Vec<Event> {
        turn.append(&mut self.data());
        self.stop(&mut turn);
        turn
    }

    /// A word address, a Start and a read of the region with this device type.
    fn with_read(&mut self, chip: usize, device_type: u8, mut turn: Vec<Event>) -> Vec<Event> {
        if self.rng.percent(RARE_PERCENT) {
            turn.push(event(STOP, 0));
        }
        turn.push(start());
        turn.push(self.address_byte(chip, device_type, true));
        turn.append(&mut self.reads());
        turn
    }

    /// A read of the array at a word address.
    pub fn random_read(&mut self, chip: usize) -> Vec<Event> {
        let place = self.array_place(chip);
        let word = self.array_word(chip, place);
        self.with_read(chip, ARRAY_TYPE, word)
    }

    /// A read without a word address, of the array or of what a 1011 read shows.
    pub fn current_read(&mut self, chip: usize) -> Vec<Event> {
        let device_type = self.rng.pick(&[ARRAY_TYPE, REGISTER_TYPE]);
        let mut turn = vec![start(), self.address_byte(chip, device_type, true)];
        turn.append(&mut self.reads());
        turn
    }

    /// Address bytes one after another, as a host polls a busy chip.
    pub fn poll(&mut self, chip: usize) -> Vec<Event> {
        let mut turn = Vec::new();
        for _ in 0..self.rng.between(1, NEAR) {
            let device_type = self.rng.pick(&[ARRAY_TYPE, ARRAY_TYPE, REGISTER_TYPE]);
            let read = self.rng.percent(RARE_PERCENT);
            turn.extend([start(), self.address_byte(chip, device_type, read)]);
            self.stop(&mut turn);
        }
        turn
    }

    /// A write to the security register, in either half.
    pub fn security_write(&mut self, chip: usize) -> Vec<Event> {
        let word = self.security_word(chip);
        self.with_data(word)
    }

    /// A read of the security register at a word address.
    pub fn security_read(&mut self, chip: usize) -> Vec<Event> {
        let word = self.security_word(chip);
        self.with_read(chip, REGISTER_TYPE, word)
    }

    /// A read of the configuration register.
    pub fn configuration_read(&mut self, chip: usize) -> Vec<Event> {
        let word = self.register_word(chip, REGISTER_ROW_MASK, CONFIGURATION_ROW);
        self.with_read(chip, REGISTER_TYPE, word)
    }

    /// Whether a lock that lasts may come here.
    fn may_lock(&self) -> bool {
        self.early_locks || self.events.len() > self.length * LATE_NUMERATOR / LATE_DENOMINATOR
    }

    /// Configuration byte 0, byte 1 and a confirmation, which is right mostly.
    fn configuration_bytes(&mut self) -> [u8; CONFIGURATION_BYTES + 1] {
        let locks = self.may_lock() && self.rng.percent(LOCK_BIT_PERCENT);
        let unused = self.rng.byte() & !(LOCK_BIT | EWPM_BIT);
        let byte_0 = unused | self.rng.pick(&[0, EWPM_BIT]) | if locks { LOCK_BIT } else { 0 };
        let zone = 1 << self.rng.below(ZONES);
        let any = self.rng.byte();
        let byte_1 = self.rng.pick(&[0, zone, !zone, any, any]);
        let (right, wrong) =
            if locks { (CONFIRM_LOCKED, CONFIRM_UNLOCKED) } else { (CONFIRM_UNLOCKED, CONFIRM_LOCKED) };
        if !self.rng.percent(WRONG_CONFIRMATION_PERCENT) {
            [byte_0, byte_1, right]
        } else if self.rng.percent(HALF_PERCENT) {
            [byte_0, byte_1, self.rng.pick(&[wrong, any])]
        } else {
            [byte_0 | LOCK_BIT, byte_1, CONFIRM_UNLOCKED]
        }
    }

    /// Three bytes mostly; fewer or more at times, and so many that a count in a byte would come round to three.
    pub fn configuration_write(&mut self, chip: usize) -> Vec<Event> {
        let whole = self.configuration_bytes();
        let mut data = whole.to_vec();
        if self.rng.percent(OTHER_COUNT_PERCENT) {
            data.extend(whole);
            data.truncate(self.rng.between(1, data.len()));
        } else if self.rng.percent(ROUND_COUNT_PERCENT) {
            data.resize(BYTE_VALUES, whole[0]);
            data.extend(whole);
        }
        let mut turn = self.register_word(chip, REGISTER_ROW_MASK, CONFIGURATION_ROW);
        turn.extend(data.into_iter().map(send));
        self.stop(&mut turn);
        turn
    }

    /// The lock command, or as much of it as locks nothing: one word byte (the check), or no data.
    pub fn lock(&mut self, chip: usize) -> Vec<Event> {
        let mut turn = self.register_word(chip, LOCK_ROW_MASK, LOCK_ROW);
        if self.rng.percent(HALF_PERCENT) {
            turn.pop();
        } else if self.may_lock() {
            let count = self.rng.between(0, MOST_LOCK_DATA);
            turn.extend((0..count).map(|_| send(self.rng.byte())));
        }
        if self.rng.percent(HALF_PERCENT) {
            return self.with_read(chip, REGISTER_TYPE, turn);
        }
        self.stop(&mut turn);
        turn
    }

    /// A register word address that no row has, written to and read.
    pub fn nameless(&mut self, chip: usize) -> Vec<Event> {
        let nibble = self.rng.pick(&NAMELESS);
        let turn = self.register_word(chip, LOCK_ROW_MASK, nibble);
        if self.rng.percent(HALF_PERCENT) {
            self.with_data(turn)
        } else {
            self.with_read(chip, REGISTER_TYPE, turn)
        }
    }

    /// Device ID commands in every order: F8h and a byte, F9h and reads, other address bytes.
    pub fn device_id(&mut self, chip: usize) -> Vec<Event> {
        let mut turn = self.selection(chip);
        for _ in 0..self.rng.between(0, NEAR) {
            match self.rng.weighted(&ID_STEPS) {
                IdStep::Select => turn.append(&mut self.selection(chip)),
                IdStep::Read => {
                    turn.extend([start(), send(ID_READ)]);
                    turn.extend(vec![event(READ, ACK); self.rng.between(0, ID_READ_MOST)]);
                }
                IdStep::Other => turn.extend([start(), self.any_address(chip)]),
                IdStep::Stop => turn.push(event(STOP, 0)),
                IdStep::PowerUp => turn.push(event(POWER_UP, 0)),
            }
            if self.rng.percent(RARE_PERCENT) {
                turn.push(self.stray());
            }
        }
        turn.append(&mut self.reads());
        turn
    }

    /// Start, F8h, and mostly the chip's 1010 byte.
    fn selection(&mut self, chip: usize) -> Vec<Event> {
        let mut turn = vec![start(), send(ID_SELECT)];
        let read = self.rng.percent(HALF_PERCENT);
        let right = self.address_byte(chip, ARRAY_TYPE, read);
        let other = self.any_address(chip);
        turn.push(self.rng.pick(&[right, right, right, other]));
        turn
    }

    /// Every chip is made busy, at times one is ready again, and then they are called (request E8).
    pub fn busy_line(&mut self) -> Vec<Event> {
        let chips = self.seats.len();
        let mut turn: Vec<Event> = (0..chips).flat_map(|chip| self.two_writes(chip)).collect();
        if self.rng.percent(ONE_READY_PERCENT) {
            turn.push(event(CYCLE_OVER, self.rng.below(chips) as u8));
        }
        for _ in 0..self.rng.between(1, MOST_CALLS) {
            let chip = self.rng.below(chips);
            turn.append(&mut self.call(chip));
        }
        turn
    }

    /// A byte to the array and one to the ID page: where protection or a lock keeps one from starting a cycle, the
    /// other mostly does. Where the first does, the second goes to a busy chip.
    fn two_writes(&mut self, chip: usize) -> Vec<Event> {
        let Part { read_only, security, .. } = *self.seats[chip].registers;
        let array_place = self.array_place(chip);
        let array_word = self.array_word(chip, array_place);
        let id_place = self.rng.between(read_only, security - 1);
        let id_word = self.security_word_at(chip, id_place);
        let mut turn = vec![event(WP_LOW, chip as u8)];
        for word in [array_word, id_word] {
            turn.extend(word);
            turn.extend([send(self.rng.byte()), event(STOP, 0)]);
        }
        turn
    }

    /// A Start and a 1010 or 1011 byte of the chip; at times something comes between them, which forgets the Start or
    /// does not, and at times one more such byte, which is no address byte.
    fn call(&mut self, chip: usize) -> Vec<Event> {
        let mut turn = vec![start()];
        match self.rng.weighted(&BETWEEN) {
            Between::Nothing => {}
            Between::Read => turn.push(event(READ, self.rng.pick(&[ACK, NACK]))),
            Between::CycleOver => turn.push(event(CYCLE_OVER, chip as u8)),
            Between::Select => turn.push(send(ID_SELECT)),
            Between::Strays => turn.extend((0..self.rng.between(1, MOST_STRAYS)).map(|_| self.stray())),
        }
        let bytes = 1 + usize::from(self.rng.percent(SECOND_BYTE_PERCENT));
        for _ in 0..bytes {
            let device_type = self.rng.pick(&[ARRAY_TYPE, REGISTER_TYPE]);
            let read = self.rng.percent(HALF_PERCENT);
            turn.push(self.address_byte(chip, device_type, read));
        }
        self.stop(&mut turn);
        turn
    }

    /// An address byte of this chip or of any, a high-speed code, or a Device ID code.
    pub fn any_address(&mut self, chip: usize) -> Event {
        let read = self.rng.percent(HALF_PERCENT);
        let device_type = self.rng.pick(&[ARRAY_TYPE, REGISTER_TYPE]);
        let own = self.address_byte(chip, device_type, read);
        let any = send(address(device_type, self.rng.byte() % LINE_ADDRESSES, read));
        let fast = send(HIGH_SPEED + self.rng.byte() % LINE_ADDRESSES);
        let wild = send(self.rng.byte());
        self.rng.pick(&[own, any, any, fast, send(ID_SELECT), send(ID_READ), wild])
    }

    /// A write or a read to an address byte that may be nobody's.
    pub fn stranger(&mut self) -> Vec<Event> {
        let chip = self.rng.below(self.seats.len());
        let turn = vec![start(), self.any_address(chip)];
        if self.rng.percent(HALF_PERCENT) {
            return self.with_data(turn);
        }
        [turn, self.reads()].concat()
    }
}
