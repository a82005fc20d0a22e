//! Notes from outside: damaged, of another session, receipts for later minutes,
//! copies, any bytes, and forged ones that a site takes for true.

use super::random::Random;
use crate::decision::entries::{arrivals, KEYS};
use crate::sites::acts::Side;
use crate::sites::exchange::Exchange;
use crate::sites::notes::{Bytes, Kind, Note, LENGTH};

/// What such a note is.
#[derive(Clone, Copy, PartialEq, Eq, Debug)]
pub enum Sort {
    Damaged,
    Foreign,
    DamagedForeign,
    LaterReceipt,
    Copy,
    Any,
    Forged,
}

impl Sort {
    pub const ALL: [Sort; 7] = [
        Sort::Damaged,
        Sort::Foreign,
        Sort::DamagedForeign,
        Sort::LaterReceipt,
        Sort::Copy,
        Sort::Any,
        Sort::Forged,
    ];
}

/// A note that is brought to this site.
pub fn note(exchange: &Exchange, to: Side, forges: bool, random: &mut Random) -> (Sort, Bytes) {
    let sort = match random.one_of(&Sort::ALL) {
        Sort::Forged if !forges => Sort::Copy,
        sort => sort,
    };
    let forged = forged(exchange, to, random);
    let copy = match exchange.written(to.other()) {
        [] => forged,
        written => random.one_of(written),
    };
    let bytes = match sort {
        Sort::Damaged => damaged(copy, random),
        Sort::Foreign => foreign(copy, random),
        Sort::DamagedForeign => damaged(foreign(copy, random), random),
        Sort::LaterReceipt => later_receipt(exchange, to, copy, random),
        Sort::Copy => copy,
        Sort::Any => random.bytes(LENGTH).try_into().expect("so many bytes"),
        Sort::Forged => forged,
    };
    (sort, bytes)
}

/// One field out of range, or one byte that is any.
fn damaged(mut note: Bytes, random: &mut Random) -> Bytes {
    match random.below(6) {
        0 => note[4] = random.one_of(&[0, 3, 255]),
        1 => note[5] = random.one_of(&[16, 17, 255]),
        2 => note[6] = random.one_of(&[11, 12, 255]),
        3 => note[7] = random.one_of(&[17, 255, if note[6] < 10 { 16 } else { 15 }]),
        4 => note[8..].fill(0),
        _ => note[random.below(LENGTH)] = random.byte(),
    }
    note
}

/// The same in another session: one byte of its number differs.
pub fn foreign(mut note: Bytes, random: &mut Random) -> Bytes {
    note[random.below(4)] ^= random.within(1, 255) as u8;
    note
}

/// A receipt for a later minute than the site holds for the note's entry.
fn later_receipt(exchange: &Exchange, to: Side, bytes: Bytes, random: &mut Random) -> Bytes {
    let Some(note) = Note::read(&bytes) else {
        return bytes;
    };
    let held = exchange.site(to).minute(note.entry);
    let any = random.within(held as usize, u32::MAX as usize) as u32;
    let later = Note {
        kind: Kind::Receipt,
        minute: random.one_of(&[held.saturating_add(1), any, u32::MAX]),
        ..note
    };
    later.bytes()
}

/// A lawful note of the session about any entry and any minute.
fn forged(exchange: &Exchange, to: Side, random: &mut Random) -> Bytes {
    let symbol = random.within(0, 10);
    let places = arrivals(symbol);
    let low = random.within(1, 5_000) as u32;
    let any = (random.number() as u32).max(1);
    let forged = Note {
        session: exchange.site(to).session(),
        kind: random.one_of(&[Kind::Raise, Kind::Receipt]),
        entry: (
            random.below(KEYS),
            symbol,
            random.within(places.start, places.end - 1),
        ),
        minute: random.one_of(&[1, low, low, any, u32::MAX]),
    };
    forged.bytes()
}
