//! The fewest certificates that bring an entry about, level by level: what
//! takes n certificates is found once all that takes fewer is known, since an
//! entry takes more than each entry its subject reads. The same levels count
//! how many shortest chains there are, and write one out.

use super::entries::{arrivals, askers_entries, entry, read, Weighing, ENTRIES};
use super::rules::Rule;

/// Stands for "none, or more than 200".
pub const TOO_MANY: u32 = 201;

/// Sum along a chain, fewest over chains.
const STEPS: Weighing<u32> = Weighing {
    nothing: 0,
    along: |one, other| one + other,
    over: std::cmp::min,
};

/// Steps with the number of ways; many ways are kept as `MANY`.
type Ways = (u32, u32);
const MANY: u32 = 1_000;

const WAYS: Weighing<Ways> = Weighing {
    nothing: (0, 1),
    along: |(one, ways), (other, others)| (one + other, (ways * others).min(MANY)),
    over: |one, other| match one.0.cmp(&other.0) {
        std::cmp::Ordering::Less => one,
        std::cmp::Ordering::Greater => other,
        std::cmp::Ordering::Equal => (one.0, (one.1 + other.1).min(MANY)),
    },
};

fn start(asker: usize) -> Vec<u32> {
    let mut steps = vec![TOO_MANY; ENTRIES];
    for number in askers_entries(asker) {
        steps[number] = 0;
    }
    steps
}

/// What these steps say of an entry: nothing if they are too many.
fn known(steps: u32) -> Option<u32> {
    Some(steps).filter(|&steps| steps < TOO_MANY)
}

/// The steps of every entry among these rules.
pub fn steps(rules: &[Rule], asker: usize) -> Vec<u32> {
    let mut steps = start(asker);
    loop {
        let found = next_level(rules, &steps);
        if found.is_empty() {
            return steps;
        }
        for (number, level) in found {
            steps[number] = level;
        }
    }
}

/// The entries without steps that take the fewest through those that have some.
fn next_level(rules: &[Rule], steps: &[u32]) -> Vec<(usize, u32)> {
    let mut found: Vec<(usize, u32)> = Vec::new();
    for rule in rules {
        let readings = read(rule.to, &rule.writes, &STEPS, |number| known(steps[number]));
        for arrival in arrivals(rule.reads) {
            let number = entry(rule.from, rule.reads, arrival);
            let Some(reading) = readings[arrival] else {
                continue;
            };
            if reading + 1 < TOO_MANY && steps[number] == TOO_MANY {
                found.push((number, reading + 1));
            }
        }
    }
    let least = found.iter().map(|&(_, level)| level).min();
    found.retain(|&(_, level)| Some(level) == least);
    found
}

/// How many shortest chains bring the entry about, up to `MANY`; `steps` are
/// those of all entries.
pub fn ways(rules: &[Rule], asker: usize, steps: &[u32], number: usize) -> u32 {
    let mut ways = vec![0; ENTRIES];
    for start in askers_entries(asker) {
        ways[start] = 1;
    }
    for level in 1..=known(steps[number]).unwrap_or(0) {
        for rule in rules {
            let of = |number: usize| known(steps[number]).map(|steps| (steps, ways[number]));
            let readings = read(rule.to, &rule.writes, &WAYS, of);
            for arrival in arrivals(rule.reads) {
                let number = entry(rule.from, rule.reads, arrival);
                match readings[arrival] {
                    Some((reading, more)) if reading + 1 == level && steps[number] == level => {
                        ways[number] = (ways[number] + more).min(MANY);
                    }
                    _ => {}
                }
            }
        }
    }
    ways[number]
}

/// A shortest chain of the entry where key `from` reads `symbol` and arrives:
/// its own certificate first, then the entries its subject reads.
pub fn chain(rules: &[Rule], steps: &[u32], read: (usize, usize, usize)) -> Vec<usize> {
    let (from, symbol, arrival) = read;
    let all = steps[entry(from, symbol, arrival)];
    if all == 0 {
        return Vec::new();
    }
    let mut own = rules
        .iter()
        .filter(|rule| rule.from == from && rule.reads == symbol);
    let found = own.find_map(|rule| {
        let rest = subject_chain(rules, steps, (rule.to, &rule.writes, arrival), all - 1)?;
        Some([vec![rule.number], rest].concat())
    });
    found.expect("an entry with steps has a certificate that brings it about")
}

/// A chain of exactly `budget` certificates by which the symbols are read.
fn subject_chain(
    rules: &[Rule],
    steps: &[u32],
    (key, symbols, arrival): (usize, &[usize], usize),
    budget: u32,
) -> Option<Vec<usize>> {
    let Some((&symbol, rest)) = symbols.split_first() else {
        return Some(Vec::new()).filter(|_| key == arrival && budget == 0);
    };
    arrivals(symbol).find_map(|place| {
        let taken = known(steps[entry(key, symbol, place)])?;
        let left = budget.checked_sub(taken)?;
        let tail = subject_chain(rules, steps, (place, rest, arrival), left)?;
        Some([chain(rules, steps, (key, symbol, place)), tail].concat())
    })
}
