//! Passes over a map of minutes, literally: the new map is worked out from the
//! old one, certificate by certificate.

use super::entry::Entry;
use crate::decision::entries::END;
use crate::decision::rules::Rule;
use std::collections::BTreeMap;

/// The minutes of the entries that have one.
pub type Minutes = BTreeMap<Entry, u32>;

/// The entry's minute.
pub fn held(minutes: &Minutes, entry: Entry) -> u32 {
    minutes.get(&entry).copied().unwrap_or(0)
}

/// Passes until nothing changes.
pub fn settle(rules: &[Rule], minutes: &Minutes) -> Minutes {
    let mut old = minutes.clone();
    loop {
        let new = pass(rules, &old);
        if new == old {
            return new;
        }
        old = new;
    }
}

fn pass(rules: &[Rule], old: &Minutes) -> Minutes {
    let mut new = old.clone();
    for rule in rules {
        for (arrival, reading) in readings(old, rule.to, &rule.writes) {
            let minute = reading.min(rule.not_after);
            raise(&mut new, (rule.from, rule.reads, arrival), minute);
        }
    }
    new
}

/// The entry's minute becomes the greater; 0 is not kept.
fn raise(minutes: &mut Minutes, entry: Entry, minute: u32) {
    if minute > held(minutes, entry) {
        minutes.insert(entry, minute);
    }
}

/// Where reading the symbols from this key arrives, with the best minute.
fn readings(old: &Minutes, key: usize, symbols: &[usize]) -> BTreeMap<usize, u32> {
    let mut here = BTreeMap::from([(key, u32::MAX)]);
    for &symbol in symbols {
        let mut next = BTreeMap::new();
        for (&from, &reading) in &here {
            for (&(_, _, arrival), &minute) in old.range((from, symbol, 0)..=(from, symbol, END)) {
                let best: &mut u32 = next.entry(arrival).or_default();
                *best = minute.min(reading).max(*best);
            }
        }
        here = next;
    }
    here
}
