//! The second program's minutes and steps against a search over
//! configurations, on small files: whatever chain the search finds must be
//! known, and every short one that is known must be found.

use second::decision::chains::Configuration;
use second::decision::entries::{arrivals, entry, MAY_DELEGATE};
use second::decision::rules::Rule;
use second::decision::{ask, Decision, Places};
use second::making::asking;
use second::making::random::Random;
use std::collections::HashMap;

const QUESTIONS: usize = 1_500;
/// The search goes so many steps, over lists of so many symbols.
const DEPTH: u32 = 6;
const LONGEST: usize = DEPTH as usize + 2;
/// The most certificates of a file that is searched.
const CERTIFICATES: usize = 40;

/// Every configuration that is found, with its fewest steps.
fn found(rules: &[Rule], from: Configuration) -> HashMap<Configuration, u32> {
    let mut known = HashMap::from([(from.clone(), 0)]);
    let mut last = vec![from];
    for depth in 1..=DEPTH {
        let mut next = Vec::new();
        for here in &last {
            for there in rules.iter().filter_map(|rule| here.clone().applied(rule)) {
                if there.length() <= LONGEST && !known.contains_key(&there) {
                    known.insert(there.clone(), depth);
                    next.push(there);
                }
            }
        }
        last = next;
    }
    known
}

/// The fewest steps by which the key reads the symbol and arrives.
fn fewest(
    known: &HashMap<Configuration, u32>,
    symbol: usize,
    end: usize,
    asker: u8,
) -> Option<u32> {
    let arrives = |there: &Configuration| match symbol {
        MAY_DELEGATE => there.is_asker(asker),
        _ => there.key == end && there.length() == 0,
    };
    let ends = known.iter().filter(|(there, _)| arrives(there));
    ends.map(|(_, &steps)| steps).min()
}

/// Looks at every entry of keys that issue, at one threshold.
fn agree_from(decision: &Decision, threshold: u32) -> u64 {
    let late = decision
        .rules
        .iter()
        .filter(|rule| rule.not_after >= threshold);
    let rules: Vec<Rule> = late.cloned().collect();
    let best = threshold != 0 && decision.verdict.minute() == threshold;
    let mut seen = 0;
    for rule in &decision.rules {
        let known = found(&rules, Configuration::of(rule.from, rule.reads));
        for end in arrivals(rule.reads) {
            let number = entry(rule.from, rule.reads, end);
            let found = fewest(&known, rule.reads, end, decision.request.asker);
            let (minute, steps) = (decision.minutes[number], decision.steps[number]);
            if let Some(found) = found {
                seen += 1;
                assert!(minute >= threshold, "a later chain is found");
                assert!(!best || steps == found, "found {found}, known {steps}");
            } else if best {
                assert!(steps > DEPTH, "known {steps}, none is found");
            }
        }
    }
    seen
}

#[test]
fn minutes_and_steps_are_what_a_search_finds() {
    let mut random = Random::new(11);
    let mut seen = 0;
    for _ in 0..QUESTIONS {
        let question = asking::question(&mut random);
        let Ok(decision) = ask(&question.file, question.request, Places::ENOUGH) else {
            continue;
        };
        if decision.rules.len() > CERTIFICATES {
            continue;
        }
        let mut thresholds: Vec<u32> = decision.rules.iter().map(|rule| rule.not_after).collect();
        thresholds.push(decision.verdict.minute());
        thresholds.sort_unstable();
        thresholds.dedup();
        for threshold in thresholds {
            seen += agree_from(&decision, threshold);
        }
    }
    assert!(seen > 10_000, "only {seen} entries were found");
}
