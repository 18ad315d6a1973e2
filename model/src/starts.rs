//! What comes between a Start and the bytes after it, to see that what request E8 tells apart happens often.

use crate::bus::{
    Bus, Event, CYCLE_OVER, DONE, OCCUPIED, POWER_UP, READ, SEND, START, STOP, UNANSWERED, WP_HIGH, WP_LOW,
    WRONG_DIRECTION,
};
use crate::calls;
use crate::census::STARTS;
use crate::chip::{Chip, BITS_SHIFT, ID_SELECT, READ_BIT, REGISTER_TYPE, TYPE_SHIFT};
use crate::generate::Run;
use crate::transcript;

/// The bit of an address byte that is A16 where the part has one.
const A16_BIT: u8 = 1 << BITS_SHIFT;
/// The events that forget a Start when they are done.
const FORGETTING: [u8; 4] = [SEND, READ, STOP, POWER_UP];

/// The events since the last Start, with their statuses.
#[derive(Default)]
struct Since(Vec<(Event, u8)>);

impl Since {
    fn add(&mut self, event: Event, status: u8) {
        if event.kind == START && status == DONE {
            self.0.clear();
        } else {
            self.0.push((event, status));
        }
    }

    /// Whether an event of one of these kinds came with this status.
    fn came(&self, kinds: &[u8], status: u8) -> bool {
        self.0.iter().any(|(event, with)| kinds.contains(&event.kind) && *with == status)
    }

    /// The kinds of events that forgot the Start.
    fn forgotten_by(&self) -> Vec<u8> {
        FORGETTING.into_iter().filter(|kind| self.came(&[*kind], DONE)).collect()
    }

    /// Whether something was refused with another number than 8.
    fn other_refusal(&self) -> bool {
        self.0.iter().any(|(_, status)| ![DONE, WRONG_DIRECTION].contains(status))
    }
}

/// Plays a transcript, and shows what its board and each byte sent are examples of, by groups. The flag that the bus
/// keeps is not asked.
pub fn watch(run: &Run, mut see: impl FnMut(&'static str, &'static str, bool)) {
    let Ok(mut bus) = Bus::set_up(&run.asked().board) else { return };
    for (part, alone) in calls::parts_on(bus.chips()) {
        see(part.name, "boards", true);
        see(part.name, "boards of it alone", alone);
    }
    let mut since = Since::default();
    for event in transcript::events(&run.transcript) {
        let answer = bus.step(event);
        if event.kind == SEND && answer.status == DONE {
            for (what, is_seen) in sights(bus.chips(), event.value, answer.reply, &since) {
                see(STARTS, what, is_seen);
            }
            if since.forgotten_by().is_empty() {
                calls::watch(bus.chips(), event.value, answer.reply, &mut see);
            }
        }
        since.add(event, answer.status);
    }
}

/// What a byte sent may be an example of, and whether it is. It leaves busy chips as they are, so that they can be
/// looked at after it.
fn sights(chips: &[Chip], byte: u8, reply: u8, since: &Since) -> impl IntoIterator<Item = (&'static str, bool)> {
    let forgotten_by = since.forgotten_by();
    let is_address = forgotten_by.is_empty();
    let all_busy = is_address && chips.iter().all(Chip::is_busy);
    let names_busy = chips.iter().any(|chip| chip.is_busy() && chip.is_named(byte));
    let told = reply == OCCUPIED;
    let silent = reply == UNANSWERED;
    let forgotten = |kind| silent && names_busy && forgotten_by == [kind];
    let is_over = |(number, chip): (u8, &Chip)| {
        let over = Event { kind: CYCLE_OVER, value: number };
        chip.is_named(byte) && since.0.contains(&(over, DONE))
    };
    let lower = byte & !A16_BIT;
    let is_upper = byte != lower && chips.iter().any(|chip| chip.is_named(byte) && chip.is_named(lower));
    [
        ("first byte with all busy", all_busy),
        ("F8 with all busy", all_busy && byte == ID_SELECT),
        ("02", told),
        ("02 to 1011", told && byte >> TYPE_SHIFT == REGISTER_TYPE),
        ("02 to a read", told && byte & READ_BIT != 0),
        ("02 to A16", told && is_upper),
        ("02 after a refused read", told && since.came(&[READ], WRONG_DIRECTION)),
        ("02 after another refusal", told && since.other_refusal()),
        ("02 after 05 or 06", told && since.came(&[WP_LOW, WP_HIGH], DONE)),
        ("02 after another's 07", told && since.came(&[CYCLE_OVER], DONE)),
        ("00 after its 07", silent && is_address && (0..).zip(chips).any(is_over)),
        ("00 after a read", forgotten(READ)),
        ("00 after a Stop", forgotten(STOP)),
        ("00 after a byte", forgotten(SEND)),
    ]
}
