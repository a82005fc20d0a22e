//! An entry that a note speaks of.

use crate::decision::entries;

/// A key reads a symbol and arrives.
pub type Entry = (usize, usize, usize);

/// The entry's number.
pub fn number((key, symbol, arrival): Entry) -> usize {
    entries::entry(key, symbol, arrival)
}
