//! Passes, literally: every entry of the new table is worked out from the old
//! one, and the new table takes its place only when the pass is over.

use super::entries::{arrivals, askers_entries, entry, read, Weighing, ENTRIES};
use super::rules::Rule;

/// Least along a chain, greatest over chains.
const MINUTES: Weighing<u32> = Weighing {
    nothing: u32::MAX,
    along: std::cmp::min,
    over: std::cmp::max,
};

/// The asker's two mark entries without end, the others 0.
pub fn start(asker: usize) -> Vec<u32> {
    let mut table = vec![0; ENTRIES];
    for number in askers_entries(asker) {
        table[number] = u32::MAX;
    }
    table
}

/// One pass over the old table.
pub fn pass(rules: &[Rule], old: &[u32]) -> Vec<u32> {
    let mut new = old.to_vec();
    for rule in rules {
        let held = |number: usize| Some(old[number]).filter(|&minute| minute != 0);
        let readings = read(rule.to, &rule.writes, &MINUTES, held);
        for arrival in arrivals(rule.reads) {
            let reading = readings[arrival].unwrap_or(0);
            let number = entry(rule.from, rule.reads, arrival);
            new[number] = new[number].max(reading.min(rule.not_after));
        }
    }
    new
}

/// All passes up to and including the first that changes nothing.
pub fn settle(rules: &[Rule], table: &[u32]) -> (usize, Vec<u32>) {
    let mut old = table.to_vec();
    let mut passes = 0;
    loop {
        let new = pass(rules, &old);
        passes += 1;
        if new == old {
            return (passes, new);
        }
        old = new;
    }
}
