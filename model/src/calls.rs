//! How chips of each part are called, to see that what request E7 tells apart happens often.

use crate::bus::UNANSWERED;
use crate::chip::{Chip, ARRAY_TYPE, ID_SELECT, REGISTER_TYPE};
use crate::part::{Part, PARTS};

/// The parts that stand on a line, each with whether no other does.
pub fn parts_on(chips: &[Chip]) -> impl Iterator<Item = (&'static Part, bool)> + '_ {
    let count = |part: &Part| chips.iter().filter(|chip| chip.part() == part).count();
    let counted = PARTS.iter().map(move |(_, part)| (*part, count(part)));
    counted.filter(|(_, count)| *count > 0).map(|(part, count)| (part, count == chips.len()))
}

/// What an address byte may be an example of, for each part on the line, and whether it is. It leaves busy chips as
/// they are, so that they can be looked at after it.
pub fn watch(chips: &[Chip], byte: u8, reply: u8, mut see: impl FnMut(&'static str, &'static str, bool)) {
    let selects = byte == ID_SELECT;
    for (part, alone) in parts_on(chips) {
        let own = |busy| chips.iter().filter(move |chip| chip.part() == part && chip.is_busy() == busy);
        let called = |busy, device_type| own(busy).any(|chip| chip.code_in(byte, device_type).is_some());
        let unheard = selects && !alone && reply == UNANSWERED;
        for (what, is_seen) in [
            ("F8 on boards of it alone", selects && alone),
            ("F8 on mixed boards", selects && !alone),
            ("F8 unanswered beside it ready", unheard && own(false).next().is_some()),
            ("busy and called by 1010", called(true, ARRAY_TYPE)),
            ("busy and called by 1011", called(true, REGISTER_TYPE)),
            ("ready and called by 1011", called(false, REGISTER_TYPE)),
        ] {
            see(part.name, what, is_seen);
        }
    }
}
