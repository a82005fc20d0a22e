//! A note of 12 bytes: session, kind, key, symbol, arrival, minute.

use super::entry::Entry;
use crate::decision::entries::{arrivals, KEYS, MAY_DELEGATE};

pub const LENGTH: usize = 12;
pub type Bytes = [u8; LENGTH];

#[derive(Clone, Copy, PartialEq, Eq, Debug)]
pub enum Kind {
    Raise,
    Receipt,
}

#[derive(Clone, Copy, PartialEq, Eq, Debug)]
pub struct Note {
    pub session: u32,
    pub kind: Kind,
    pub entry: Entry,
    pub minute: u32,
}

impl Note {
    /// The note in these bytes; none if they are not 12 or a field is out of
    /// range.
    pub fn read(bytes: &[u8]) -> Option<Note> {
        let &[s1, s2, s3, s4, kind, key, symbol, arrival, m1, m2, m3, m4] = bytes else {
            return None;
        };
        let kind = match kind {
            1 => Kind::Raise,
            2 => Kind::Receipt,
            _ => return None,
        };
        let note = Note {
            session: u32::from_be_bytes([s1, s2, s3, s4]),
            kind,
            entry: (key.into(), symbol.into(), arrival.into()),
            minute: u32::from_be_bytes([m1, m2, m3, m4]),
        };
        Some(note).filter(|note| note.minute != 0 && can_rise(note.entry))
    }

    pub fn bytes(&self) -> Bytes {
        let (key, symbol, arrival) = self.entry;
        let [s1, s2, s3, s4] = self.session.to_be_bytes();
        let [m1, m2, m3, m4] = self.minute.to_be_bytes();
        let kind = match self.kind {
            Kind::Raise => 1,
            Kind::Receipt => 2,
        };
        let [key, symbol, arrival] = [key, symbol, arrival].map(|field| field as u8);
        [s1, s2, s3, s4, kind, key, symbol, arrival, m1, m2, m3, m4]
    }
}

/// Whether a certificate can bring the entry about, so that notes speak of it.
fn can_rise((key, symbol, arrival): Entry) -> bool {
    key < KEYS && symbol <= MAY_DELEGATE && arrivals(symbol).contains(&arrival)
}
