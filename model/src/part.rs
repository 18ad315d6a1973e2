//! The figures and abilities of the parts: the paper's table with request E7's row, and the IDs of the sheets' Table
//! 11-1.

/// What sets one part apart from another. Sizes are in bytes.
#[derive(Debug, PartialEq, Eq)]
pub struct Part {
    /// What the sheet calls it.
    pub name: &'static str,
    /// Size of the array.
    pub array: usize,
    /// Size of a page, in the array and in the security register (the ID page is one such page).
    pub page: usize,
    /// Size of a write-protection zone.
    pub zone: usize,
    /// Size of the security register.
    pub security: usize,
    /// Size of the security register's read-only half, which lies before the ID page.
    pub read_only: usize,
    /// How many straps there are, counted from 0.
    pub straps: u8,
    /// How many of the address byte's three bits lie below the strap: A16, where the array needs it.
    pub word_bits: u32,
    /// Whether it has a security and a configuration register, which 1011 bytes are for (request E7).
    pub registers: bool,
    /// Whether it says what it is, which F8h and F9h are for (request E7).
    pub identifies: bool,
    /// The three bytes of the Device ID (sheet, section 11.1).
    pub id: [u8; ID_BYTES],
}

/// Length of the Device ID (UM10204).
pub const ID_BYTES: usize = 3;

/// Stands in the place of an ID where there is none; it is never sent.
const NO_ID: [u8; ID_BYTES] = [0; ID_BYTES];

/// Part 1, source document 000.
pub static CSM01: Part = Part {
    name: "24CSM01",
    array: 131_072,
    page: 256,
    zone: 16_384,
    security: 512,
    read_only: 256,
    straps: 4,
    word_bits: 1,
    registers: true,
    identifies: true,
    id: [0x00, 0xD0, 0xD0],
};

/// Part 2, source document 001.
pub static CS32: Part = Part {
    name: "24CS32",
    array: 4_096,
    page: 32,
    zone: 512,
    security: 64,
    read_only: 32,
    straps: 8,
    word_bits: 0,
    registers: true,
    identifies: true,
    id: [0x00, 0xD0, 0xA8],
};

/// Part 3, source document 002 (request E7). The zone is the 24CSM01's and protects nothing: EWPM stays 0.
pub static AT24CM01: Part = Part {
    name: "AT24CM01",
    array: 131_072,
    page: 256,
    zone: 16_384,
    security: 0,
    read_only: 0,
    straps: 4,
    word_bits: 1,
    registers: false,
    identifies: false,
    id: NO_ID,
};

/// The numbers that stand for the parts.
pub const CSM01_NUMBER: u8 = 1;
pub const CS32_NUMBER: u8 = 2;
pub const AT24CM01_NUMBER: u8 = 3;

/// The table of parts.
pub static PARTS: [(u8, &Part); 3] = [(CSM01_NUMBER, &CSM01), (CS32_NUMBER, &CS32), (AT24CM01_NUMBER, &AT24CM01)];

/// How many values the three bits after 1010 or 1011 have.
pub const LINE_ADDRESSES: u8 = 8;

impl Part {
    /// The part that a number stands for (refusal 2: "a part other than 1 or 2", and "2 now allows part 3").
    pub fn numbered(number: u8) -> Option<&'static Part> {
        PARTS.iter().find(|(of_part, _)| *of_part == number).map(|(_, part)| *part)
    }

    /// Whether a chip of this part and strap answers to the three bits (paper, Address byte).
    pub fn answers(&self, strap: u8, bits: u8) -> bool {
        bits >> self.word_bits == strap
    }

    /// The part of the word address that the three bits hold: A16, where the array needs it.
    pub fn high_word_bits(&self, bits: u8) -> usize {
        usize::from(bits) % (1 << self.word_bits)
    }

    /// The zone of an array address (paper, Protection: "address divided by zone size").
    pub fn zone_of(&self, address: usize) -> usize {
        address / self.zone
    }

    /// The address after this one in a write: the place wraps within the page (paper, Data).
    pub fn next_in_page(&self, address: usize) -> usize {
        address - address % self.page + (address + 1) % self.page
    }
}

#[cfg(test)]
mod tests {
    use super::*;

    #[test]
    fn zones_of_both_sizes() {
        for (address, zone) in [(0x3FFF, 0), (0x4000, 1), (0x1FFFF, 7)] {
            assert_eq!(CSM01.zone_of(address), zone);
        }
        for (address, zone) in [(0x1FF, 0), (0x200, 1), (0xFFF, 7)] {
            assert_eq!(CS32.zone_of(address), zone);
        }
    }

    #[test]
    fn pages_wrap() {
        assert_eq!(CS32.next_in_page(0x01F), 0x000);
        assert_eq!(CS32.next_in_page(0xFFE), 0xFFF);
        assert_eq!(CSM01.next_in_page(0x1FFFF), 0x1FF00);
    }

    #[test]
    fn no_page_crosses_a_zone_and_the_halves_are_pages() {
        for (_, part) in PARTS {
            assert_eq!(part.zone % part.page, 0);
            assert_eq!(part.zone * 8, part.array);
            let halves = if part.registers { (part.page, part.page * 2) } else { (0, 0) };
            assert_eq!((part.read_only, part.security), halves);
            assert_eq!(part.straps << part.word_bits, LINE_ADDRESSES);
            assert_eq!(part.identifies, part.id != NO_ID);
        }
    }

    /// Request E7: "the array, page and address byte of the 24CSM01".
    #[test]
    fn an_at24cm01_is_a_24csm01_without_registers_and_id() {
        let Part { name, security, read_only, registers, identifies, id, .. } = AT24CM01;
        assert_eq!(AT24CM01, Part { name, security, read_only, registers, identifies, id, ..CSM01 });
    }
}
