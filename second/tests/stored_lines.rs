//! The stored questions: enough of every sort, each printed chain a chain,
//! and no other one as short where that can be searched.

use second::decision::chains::{self, Configuration};
use second::decision::entries::MAY_DELEGATE;
use second::decision::lines::{chain, line, parts};
use second::decision::rules::Rule;
use second::decision::{ask, Decision, Places, Verdict};
use second::stored::cut::{self, FAR, READ};
use second::stored::{lines, questions};
use second::wac::{HEAD, MOST, RECORD};

/// Chains up to this length are looked for one by one.
const SEARCHED: u32 = 8;

/// How many chains of exactly so many steps lead on to the asker.
fn chains_of(rules: &[Rule], here: &Configuration, steps: u32, asker: u8) -> usize {
    if here.length() > steps as usize + 1 {
        return 0;
    }
    if steps == 0 {
        return usize::from(here.is_asker(asker));
    }
    let next = rules.iter().filter_map(|rule| here.clone().applied(rule));
    next.map(|there| chains_of(rules, &there, steps - 1, asker))
        .sum()
}

fn is_the_only_one(decision: &Decision, minute: u32, steps: u32) -> bool {
    let chain: Vec<u8> = chain(decision).iter().map(|&number| number as u8).collect();
    assert_eq!(chain.len(), steps as usize);
    let judged = chains::minute(&decision.rules, decision.request, &chain);
    assert_eq!(judged, Ok(minute));
    let owner = Configuration::of(usize::from(decision.request.owner), MAY_DELEGATE);
    let rules = decision.best_rules();
    steps > SEARCHED || chains_of(&rules, &owner, steps, decision.request.asker) == 1
}

#[test]
fn every_sort_is_stored() {
    let questions = questions();
    assert!(questions.len() >= 300);
    let lines = lines(&questions).expect("the lines are those that are given");
    for number in [9, 10, 11, 12, 13, 14, 15, 20, 21, 22] {
        let refused = format!("REFUSED {number} ");
        assert!(lines.lines().any(|line| line.starts_with(&refused)));
    }
    let steps = |line: &str| line.split(' ').nth(2).map(str::to_string);
    for limit in ["0", "1", "127", "128", "199", "200"] {
        assert!(lines
            .lines()
            .any(|line| steps(line).as_deref() == Some(limit)));
    }
    assert!(lines.lines().any(|line| line.starts_with("GRANTED-LONG")));
    assert!(questions
        .iter()
        .any(|stored| stored.question.len() == 3_007));
    assert_eq!(line(&questions[0].question), "GRANTED 5000 4 3 0 1 2 3");
}

#[test]
fn a_stored_chain_is_the_only_one() {
    let mut searched = 0;
    for stored in questions() {
        let Some((request, file)) = parts(&stored.question) else {
            continue;
        };
        let Ok(decision) = ask(file, request, Places::ENOUGH) else {
            continue;
        };
        if let Verdict::Granted { minute, steps } = decision.verdict {
            assert!(is_the_only_one(&decision, minute, steps));
            searched += u32::from(steps <= SEARCHED);
        }
    }
    assert!(searched > 100);
}

#[test]
fn what_is_cut_off_would_be_granted() {
    let cuts = cut::questions();
    for length in [READ - 1, READ, READ + 1, FAR] {
        let long = cuts.iter().find(|cut| cut.name == length.to_string());
        let long = long.expect("each length is stored");
        assert_eq!(long.question.len(), length);
        assert_eq!(long.text(), "REFUSED 14 0\n");
        let whole = &long.question[..7 + HEAD + RECORD * MOST];
        assert!(line(whole).starts_with("GRANTED 5000 4 "));
    }
    for (name, text) in [
        ("mark", "11"),
        ("version", "12"),
        ("count", "13"),
        ("owner", "14"),
    ] {
        let named = cuts.iter().find(|cut| cut.name.ends_with(name));
        let named = named.expect("each ground is stored");
        assert_eq!(named.text(), format!("REFUSED {text} 0\n"));
    }
}
