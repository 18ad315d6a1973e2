//! One chip on the line (paper, "How one chip behaves").

use crate::part::Part;

/// Device type identifiers, the upper four bits of an address byte (Table 3-2).
pub const ARRAY_TYPE: u8 = 0b1010;
pub const REGISTER_TYPE: u8 = 0b1011;
pub const TYPE_SHIFT: u32 = 4;
/// The three bits between the device type and the read bit, and the read bit.
pub const BITS_SHIFT: u32 = 1;
const BITS_MASK: u8 = 0b111;
pub const READ_BIT: u8 = 0b1;
/// The Device ID command's host codes (paper, Device ID; Table 3-2).
pub const ID_SELECT: u8 = 0xF8;
pub const ID_READ: u8 = 0xF9;
/// Table 3-3, first word-address byte: which bits are fixed in a row, and their values.
pub const REGISTER_ROW_MASK: u8 = 0b1000_1100;
pub const SECURITY_ROW: u8 = 0b0000_1000;
pub const CONFIGURATION_ROW: u8 = 0b1000_1000;
pub const LOCK_ROW_MASK: u8 = 0b0000_1111;
pub const LOCK_ROW: u8 = 0b0000_0110;
/// Registers 9-1 and 9-2: how many bytes there are.
pub const CONFIGURATION_BYTES: usize = 2;
/// Register 9-1: the bits of configuration byte 0 that can be written.
pub const LOCK_BIT: u8 = 0b01;
pub const EWPM_BIT: u8 = 0b10;
/// Table 9-4: the confirmation byte by the new LOCK bit.
pub const CONFIRM_LOCKED: u8 = 0x99;
pub const CONFIRM_UNLOCKED: u8 = 0x66;
/// The read byte where nothing is shown.
pub const NOTHING: u8 = 0xFF;
/// Width of a byte in a word address.
pub const BYTE_BITS: u32 = 8;
/// A factory-fresh memory, and the serial number that the bench gives its chips (paper, The transcript).
const ERASED: u8 = 0xFF;
const SERIAL_BYTES: usize = 16;
const SERIAL_BASE: u8 = 0x10;

/// What a chip is doing.
#[derive(Debug, Clone, Copy, PartialEq, Eq)]
pub enum Phase {
    Standby,
    Busy,
    Takes(Takes),
    Sends(Sends),
}

/// Which byte a chip takes next.
#[derive(Debug, Clone, Copy, PartialEq, Eq)]
pub enum Takes {
    Address,
    /// The byte after F8h.
    Selection,
    /// The first word-address byte for the array; `top` is A16 in its place.
    ArrayHigh {
        top: usize,
    },
    /// The second; `upper` is the word address without its last byte.
    ArrayLow {
        upper: usize,
    },
    RegisterHigh,
    RegisterLow {
        high: u8,
    },
    Data(Target),
}

/// Where data bytes are to go at the Stop. `first` is the address of the first of them.
#[derive(Debug, Clone, Copy, PartialEq, Eq)]
pub enum Target {
    Array { first: usize },
    Security { first: usize },
    Configuration,
    Lock,
    Nowhere,
}

/// What a chip sends.
#[derive(Debug, Clone, Copy, PartialEq, Eq)]
pub enum Sends {
    Array,
    Security,
    Configuration { place: usize },
    Id { place: usize },
    Nothing,
}

/// What a 1011 read shows: the region that the last whole 1011 word address named.
#[derive(Debug, Clone, Copy, PartialEq, Eq)]
enum Shown {
    Security,
    Configuration,
    Nothing,
}

/// A chip with its memories.
#[derive(Debug)]
pub struct Chip {
    part: &'static Part,
    strap: u8,
    array: Vec<u8>,
    security: Vec<u8>,
    wp_high: bool,
    configuration: [u8; CONFIGURATION_BYTES],
    id_page_locked: bool,
    array_counter: usize,
    security_counter: usize,
    shown: Shown,
    chosen: bool,
    phase: Phase,
    /// The data bytes since the word address, in the order they came; nothing is stored before the Stop.
    load: Vec<u8>,
}

/// Whether `byte` is a word-address byte of the row with these fixed bits.
fn in_row(byte: u8, mask: u8, row: u8) -> bool {
    byte & mask == row
}

impl Chip {
    /// A fresh chip (paper, "The two memories"), memories as the bench program sets them (paper, The transcript).
    pub fn fresh(part: &'static Part, strap: u8, number: u8) -> Chip {
        let mut security = vec![ERASED; part.security];
        if part.registers {
            security[..SERIAL_BYTES].fill(SERIAL_BASE + number);
        }
        Chip {
            part,
            strap,
            array: vec![ERASED; part.array],
            security,
            wp_high: false,
            configuration: [0; CONFIGURATION_BYTES],
            id_page_locked: false,
            array_counter: 0,
            security_counter: 0,
            shown: Shown::Security,
            chosen: false,
            phase: Phase::Standby,
            load: Vec::new(),
        }
    }

    pub fn part(&self) -> &'static Part {
        self.part
    }

    /// What the chip is doing.
    pub fn phase(&self) -> Phase {
        self.phase
    }

    pub fn is_busy(&self) -> bool {
        self.phase == Phase::Busy
    }

    /// The array, from outside the line (request E1).
    pub fn array(&self) -> &[u8] {
        &self.array
    }

    /// The security register, from outside the line (issue 23).
    pub fn security(&self) -> &[u8] {
        &self.security
    }

    pub fn strap(&self) -> u8 {
        self.strap
    }

    /// The counters of the array and of the security register.
    pub fn counters(&self) -> (usize, usize) {
        (self.array_counter, self.security_counter)
    }

    pub fn array_mut(&mut self) -> &mut [u8] {
        &mut self.array
    }

    /// Paper, Start.
    pub fn start(&mut self) {
        if !self.is_busy() {
            self.load.clear();
            self.phase = Phase::Takes(Takes::Address);
        }
    }

    /// The host sends a byte; true is the acknowledge.
    pub fn take(&mut self, byte: u8) -> bool {
        let Phase::Takes(takes) = self.phase else { return false };
        let next = match takes {
            Takes::Address => self.take_address(byte),
            Takes::Selection => return self.take_selection(byte),
            Takes::ArrayHigh { top } => Some(Phase::Takes(Takes::ArrayLow { upper: top + usize::from(byte) })),
            Takes::ArrayLow { upper } => Some(self.take_array_low(upper, byte)),
            Takes::RegisterHigh => self.take_register_high(byte),
            Takes::RegisterLow { high } => Some(self.take_register_low(high, byte)),
            Takes::Data(target) => Some(self.take_data(target, byte)),
        };
        self.phase = next.unwrap_or(Phase::Standby);
        next.is_some()
    }

    /// The three bits of an address byte with this device type, where they are this chip's code.
    pub fn code_in(&self, byte: u8, device_type: u8) -> Option<u8> {
        let bits = (byte >> BITS_SHIFT) & BITS_MASK;
        (byte >> TYPE_SHIFT == device_type && self.part.answers(self.strap, bits)).then_some(bits)
    }

    /// The same where the byte names this chip: no 1011 byte names one that has no registers (request E7).
    fn named_by(&self, byte: u8, device_type: u8) -> Option<u8> {
        let has_type = device_type != REGISTER_TYPE || self.part.registers;
        self.code_in(byte, device_type).filter(|_| has_type)
    }

    /// Whether a 1010 or 1011 byte names this chip, whatever its read bit.
    pub fn is_named(&self, byte: u8) -> bool {
        [ARRAY_TYPE, REGISTER_TYPE].into_iter().any(|device_type| self.named_by(byte, device_type).is_some())
    }

    /// Paper, Address byte and Device ID. None: no match, standby. To a chip that does not identify itself F8h and F9h
    /// are bytes like any other (request E7).
    fn take_address(&mut self, byte: u8) -> Option<Phase> {
        let identifies = self.part.identifies;
        if identifies && byte == ID_READ {
            return self.chosen.then_some(Phase::Sends(Sends::Id { place: 0 }));
        }
        self.chosen = false;
        if identifies && byte == ID_SELECT {
            return Some(Phase::Takes(Takes::Selection));
        }
        let read = byte & READ_BIT != 0;
        if let Some(bits) = self.named_by(byte, ARRAY_TYPE) {
            let top = self.part.high_word_bits(bits) << BYTE_BITS;
            return Some(if read { Phase::Sends(Sends::Array) } else { Phase::Takes(Takes::ArrayHigh { top }) });
        }
        self.named_by(byte, REGISTER_TYPE)?;
        Some(if read { Phase::Sends(self.shown_sends()) } else { Phase::Takes(Takes::RegisterHigh) })
    }

    /// Paper, Security register ("a 1011 read shows") and Configuration ("each read starts at byte 0").
    fn shown_sends(&self) -> Sends {
        match self.shown {
            Shown::Security => Sends::Security,
            Shown::Configuration => Sends::Configuration { place: 0 },
            Shown::Nothing => Sends::Nothing,
        }
    }

    /// The byte after F8h, read bit ignored: the chip is chosen where it is named, and takes nothing before the next
    /// Start. Where it is not named, a choice that it already has stays: of the bytes sent only an address byte drops
    /// one, and this is none (D40).
    fn take_selection(&mut self, byte: u8) -> bool {
        let named = self.named_by(byte, ARRAY_TYPE).is_some();
        self.chosen |= named;
        self.phase = Phase::Standby;
        named
    }

    /// Paper, Write: the counter is set on the second word-address byte.
    fn take_array_low(&mut self, upper: usize, byte: u8) -> Phase {
        let first = ((upper << BYTE_BITS) + usize::from(byte)) % self.part.array;
        self.array_counter = first;
        Phase::Takes(Takes::Data(Target::Array { first }))
    }

    /// Sheets 10.4: the first word byte of the lock command is not acknowledged on a locked page (D3).
    fn take_register_high(&mut self, byte: u8) -> Option<Phase> {
        let refused = self.id_page_locked && in_row(byte, LOCK_ROW_MASK, LOCK_ROW);
        (!refused).then_some(Phase::Takes(Takes::RegisterLow { high: byte }))
    }

    /// Table 3-3, and Table 9-2 for the configuration register. The word address is whole now.
    fn take_register_low(&mut self, high: u8, byte: u8) -> Phase {
        let (shown, target) = if in_row(high, REGISTER_ROW_MASK, SECURITY_ROW) {
            let first = usize::from(u16::from_be_bytes([high, byte])) % self.part.security;
            self.security_counter = first;
            (Shown::Security, Target::Security { first })
        } else if in_row(high, REGISTER_ROW_MASK, CONFIGURATION_ROW) {
            (Shown::Configuration, Target::Configuration)
        } else if in_row(high, LOCK_ROW_MASK, LOCK_ROW) {
            (Shown::Nothing, Target::Lock)
        } else {
            (Shown::Nothing, Target::Nowhere)
        };
        self.shown = shown;
        Phase::Takes(Takes::Data(target))
    }

    /// Paper, Data: loaded, and the counter advances within its page, stored later or not (D7).
    fn take_data(&mut self, target: Target, byte: u8) -> Phase {
        match target {
            Target::Array { .. } => self.array_counter = self.part.next_in_page(self.array_counter),
            Target::Security { .. } => self.security_counter = self.part.next_in_page(self.security_counter),
            Target::Configuration | Target::Lock | Target::Nowhere => {}
        }
        self.load.push(byte);
        Phase::Takes(Takes::Data(target))
    }

    /// The host reads a byte; None where this chip is not sending. Paper, Read: a host NACK ends it.
    pub fn send(&mut self, nack: bool) -> Option<u8> {
        let Phase::Sends(sends) = self.phase else { return None };
        let (byte, next) = self.sent(sends);
        self.phase = if nack { Phase::Standby } else { Phase::Sends(next) };
        Some(byte)
    }

    /// The byte that goes out, and what is sent after it. Counters advance from the last address to 0.
    fn sent(&mut self, sends: Sends) -> (u8, Sends) {
        match sends {
            Sends::Array => {
                let address = self.array_counter;
                self.array_counter = (address + 1) % self.part.array;
                (self.array[address], sends)
            }
            Sends::Security => {
                let address = self.security_counter;
                self.security_counter = (address + 1) % self.part.security;
                (self.security[address], sends)
            }
            Sends::Configuration { place } => {
                let next = (place + 1) % self.configuration.len();
                (self.configuration[place], Sends::Configuration { place: next })
            }
            Sends::Id { place } => {
                let next = (place + 1) % self.part.id.len(); // request E5; UM10204, 11.0
                (self.part.id[place], Sends::Id { place: next })
            }
            Sends::Nothing => (NOTHING, sends),
        }
    }

    /// Paper, Stop: what was loaded is stored, where it may be, and the chip is busy then.
    pub fn stop(&mut self) {
        if self.is_busy() {
            return;
        }
        let cycle = match self.phase {
            Phase::Takes(Takes::Data(target)) if !self.load.is_empty() => self.store(target),
            _ => false,
        };
        self.load.clear();
        self.chosen = false;
        self.phase = if cycle { Phase::Busy } else { Phase::Standby };
    }

    /// Stores the load; true where a write cycle starts.
    fn store(&mut self, target: Target) -> bool {
        match target {
            Target::Array { first } => {
                let open = !self.protected(first);
                if open {
                    store_in_page(&mut self.array, self.part, first, &self.load);
                }
                open
            }
            Target::Security { first } => {
                let open = first >= self.part.read_only && !self.id_page_locked; // WP does not act (D1)
                if open {
                    store_in_page(&mut self.security, self.part, first, &self.load);
                }
                open
            }
            Target::Configuration => self.store_configuration(),
            Target::Lock => !std::mem::replace(&mut self.id_page_locked, true),
            Target::Nowhere => false,
        }
    }

    /// Section 6.6: EWPM 0, WP high protects the whole array; EWPM 1, the zone's SWP bit does.
    fn protected(&self, address: usize) -> bool {
        let [byte_0, swp] = self.configuration;
        if byte_0 & EWPM_BIT == 0 {
            self.wp_high
        } else {
            (swp >> self.part.zone_of(address)) & 1 != 0
        }
    }

    /// Paper, Configuration: exactly three bytes, the third confirming the new LOCK bit.
    fn store_configuration(&mut self) -> bool {
        let [byte_0, byte_1, confirmation] = self.load[..] else { return false };
        let expected = if byte_0 & LOCK_BIT == 0 { CONFIRM_UNLOCKED } else { CONFIRM_LOCKED };
        let locked = self.configuration[0] & LOCK_BIT != 0;
        if locked || confirmation != expected {
            return false;
        }
        self.configuration = [byte_0 & (EWPM_BIT | LOCK_BIT), byte_1]; // the other bits are ignored (D6)
        true
    }

    /// Events 05 and 06.
    pub fn set_wp(&mut self, high: bool) {
        self.wp_high = high;
    }

    /// Event 07 at a busy chip: at any other the bus refuses it (request E2).
    pub fn cycle_over(&mut self) {
        self.phase = Phase::Standby;
    }

    /// Paper, Power up; with it a 1011 read shows the security register again (paper, Security register).
    pub fn power_up(&mut self) {
        self.phase = Phase::Standby;
        self.load.clear();
        self.chosen = false;
        self.array_counter = 0;
        self.security_counter = 0;
        self.shown = Shown::Security;
    }
}

/// Writes bytes one after the other from `first` on, round its page: later bytes replace earlier ones.
fn store_in_page(memory: &mut [u8], part: &Part, first: usize, bytes: &[u8]) {
    let mut address = first;
    for &byte in bytes {
        memory[address] = byte;
        address = part.next_in_page(address);
    }
}

#[cfg(test)]
mod tests {
    use super::*;
    use crate::part::{AT24CM01, CS32};

    /// Only a state that is handed in has a chosen chip that awaits the byte after F8h: no transcript leads there
    /// (D40).
    #[test]
    fn a_choice_outlives_a_byte_after_f8_that_is_not_its_own() {
        let handed_in = || {
            let mut chip = Chip::fresh(&CS32, 3, 0);
            chip.chosen = true;
            chip.phase = Phase::Takes(Takes::Selection);
            chip
        };
        for (byte, acknowledged) in
            [(0xA6, true), (0xA7, true), (0xA4, false), (0xB6, false), (ID_SELECT, false), (ID_READ, false)]
        {
            let mut chip = handed_in();
            assert_eq!(chip.take(byte), acknowledged, "{byte:02X}");
            assert_eq!((chip.chosen, chip.phase), (true, Phase::Standby), "{byte:02X}");
        }
        let mut chip = handed_in();
        chip.start();
        chip.take(0xA4);
        assert!(!chip.chosen, "an address byte drops the choice");
    }

    /// Request E7, in states that are handed in too: whatever the byte is, but for its 1010 bytes it falls silent.
    #[test]
    fn an_at24cm01_knows_no_1011_byte_and_no_device_id() {
        for byte in (0..=u8::MAX).filter(|byte| ![0xA4, 0xA5, 0xA6, 0xA7].contains(byte)) {
            let mut chip = Chip::fresh(&AT24CM01, 1, 0);
            chip.chosen = true;
            chip.start();
            assert!(!chip.take(byte) && !chip.is_named(byte), "{byte:02X}");
            assert_eq!((chip.chosen, chip.phase), (false, Phase::Standby), "{byte:02X}");
        }
    }
}
