//! The 2,592 entries and their numbers: a key reads a symbol and arrives.

pub const KEYS: usize = 16;
pub const IDENTIFIERS: usize = 10;
pub const MAY_DELEGATE: usize = 10;
pub const ACCESS_ONLY: usize = 11;
/// The end place, where a mark arrives.
pub const END: usize = 16;
/// The keys and the end place.
pub const ARRIVALS: usize = 17;
pub const ENTRIES: usize = 2_592;

/// The entry's number; an identifier arrives at a key, a mark at the end.
pub fn entry(key: usize, symbol: usize, arrival: usize) -> usize {
    match symbol {
        MAY_DELEGATE => 2_560 + key,
        ACCESS_ONLY => 2_576 + key,
        _ => (key * 10 + symbol) * 16 + arrival,
    }
}

/// The entry by which this key as owner is judged.
pub fn mark_entry(key: usize) -> usize {
    entry(key, MAY_DELEGATE, END)
}

/// The two entries of the asker that hold from the start.
pub fn askers_entries(asker: usize) -> [usize; 2] {
    [mark_entry(asker), entry(asker, ACCESS_ONLY, END)]
}

/// Where a symbol can arrive.
pub fn arrivals(symbol: usize) -> std::ops::Range<usize> {
    if symbol < IDENTIFIERS {
        0..KEYS
    } else {
        END..ARRIVALS
    }
}

/// How a reading is weighed: what it is to read nothing, how one more entry
/// adds to it, and which of two readings is kept.
pub struct Weighing<W> {
    pub nothing: W,
    pub along: fn(W, W) -> W,
    pub over: fn(W, W) -> W,
}

/// Reads the symbols one after another from this key on, through entries that
/// may hold something; says for each arrival what the readings come to.
pub fn read<W: Copy>(
    key: usize,
    symbols: &[usize],
    weighing: &Weighing<W>,
    held: impl Fn(usize) -> Option<W>,
) -> [Option<W>; ARRIVALS] {
    let mut here = [None; ARRIVALS];
    here[key] = Some(weighing.nothing);
    for &symbol in symbols {
        let mut next = [None; ARRIVALS];
        for (from, reading) in here.into_iter().enumerate() {
            let Some(reading) = reading else { continue };
            for arrival in arrivals(symbol) {
                let Some(entry) = held(entry(from, symbol, arrival)) else {
                    continue;
                };
                let longer = (weighing.along)(reading, entry);
                next[arrival] = Some(match next[arrival] {
                    Some(other) => (weighing.over)(other, longer),
                    None => longer,
                });
            }
        }
        here = next;
    }
    here
}
