//! Minutes by thresholds. A chain of minute m or later exists exactly if one
//! exists among the rules that end at m or later; so each entry's minute is
//! the greatest threshold at which it is reached at all. The thresholds are
//! gone through downwards, and what is reached only grows.

use super::entries::{arrivals, entry, END, ENTRIES, KEYS};
use super::rules::Rule;

const SYMBOLS: usize = 12;

/// Which places each key reaches by each symbol, as a set of bits.
struct Reached {
    places: [[u32; SYMBOLS]; KEYS],
}

impl Reached {
    /// The asker's two marks are reached before any rule is used.
    fn start(asker: usize) -> Reached {
        let mut places = [[0; SYMBOLS]; KEYS];
        places[asker][10] = 1 << END;
        places[asker][11] = 1 << END;
        Reached { places }
    }

    fn holds(&self, key: usize, symbol: usize, place: usize) -> bool {
        self.places[key][symbol] >> place & 1 == 1
    }

    /// Where the rule's right side leads.
    fn led_to(&self, rule: &Rule) -> u32 {
        let mut places = 1 << rule.to;
        for &symbol in &rule.writes {
            let from = (0..KEYS).filter(|key| places >> key & 1 == 1);
            places = from.fold(0, |all, key| all | self.places[key][symbol]);
        }
        places
    }

    /// Uses these rules again and again until nothing more is reached.
    fn grow(&mut self, rules: &[&Rule]) {
        let mut growing = true;
        while growing {
            growing = false;
            for rule in rules {
                let more = self.led_to(rule) & !self.places[rule.from][rule.reads];
                self.places[rule.from][rule.reads] |= more;
                growing |= more != 0;
            }
        }
    }

    /// Gives this minute to the entries that are reached and have none yet.
    fn give(&self, minute: u32, minutes: &mut [u32]) {
        for (key, symbols) in self.places.iter().enumerate() {
            for symbol in (0..SYMBOLS).filter(|&symbol| symbols[symbol] != 0) {
                for place in arrivals(symbol).filter(|&place| self.holds(key, symbol, place)) {
                    let held = &mut minutes[entry(key, symbol, place)];
                    *held = minute.max(*held);
                }
            }
        }
    }
}

/// The minute of each entry; 0 where there is no chain.
pub fn minutes(rules: &[Rule], asker: usize) -> Vec<u32> {
    let mut thresholds: Vec<u32> = rules.iter().map(|rule| rule.not_after).collect();
    thresholds.push(u32::MAX);
    thresholds.sort_unstable();
    thresholds.dedup();
    let mut reached = Reached::start(asker);
    let mut minutes = vec![0; ENTRIES];
    for &threshold in thresholds.iter().rev() {
        let late = rules.iter().filter(|rule| rule.not_after >= threshold);
        reached.grow(&late.collect::<Vec<&Rule>>());
        reached.give(threshold, &mut minutes);
    }
    minutes
}

/// Whether there is a chain at all.
pub fn is_granted(rules: &[Rule], owner: usize, asker: usize) -> bool {
    let mut reached = Reached::start(asker);
    reached.grow(&rules.iter().collect::<Vec<&Rule>>());
    reached.holds(owner, 10, END)
}
