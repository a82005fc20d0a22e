//! Stored questions that are made at random from a fixed seed.

use super::question::{is_definite, Stored};
use crate::decision::lines::question;
use crate::decision::{ask, Places, Verdict};
use crate::making::question::Question;
use crate::making::random::Random;
use crate::making::{asking, long};

const SEED: u64 = 20;

/// The longest file of a random question that is stored.
const LONGEST: usize = 1_200;

fn stored(made: &Question) -> Stored {
    Stored::new(question(made.request, &made.file))
}

/// Best chains about the limit of 200 steps, far past it, and of many passes.
pub fn long_chains() -> Vec<Stored> {
    let mut random = Random::new(SEED);
    let mut cases = Vec::new();
    for steps in [
        3, 50, 199, 200, 200, 200, 201, 201, 201, 202, 203, 400, 1_000,
    ] {
        cases.push(stored(&long::exactly(steps, &mut random)));
    }
    for _ in 0..4 {
        cases.push(stored(&long::multiplied(&mut random)));
        cases.push(stored(&long::single(&mut random)));
    }
    cases
}

/// What a random question comes to, for the shares in which they are stored.
#[derive(Clone, Copy, PartialEq)]
enum Share {
    GrantedAtOnce,
    Granted,
    NoChain,
    Refused,
}

const SHARES: [(Share, usize); 4] = [
    (Share::GrantedAtOnce, 20),
    (Share::Granted, 140),
    (Share::NoChain, 50),
    (Share::Refused, 40),
];

fn share(made: &Question) -> Share {
    match ask(&made.file, made.request, Places::ENOUGH) {
        Err(_) => Share::Refused,
        Ok(decision) => match decision.verdict {
            Verdict::NoChain => Share::NoChain,
            Verdict::Granted { steps: 0 | 1, .. } => Share::GrantedAtOnce,
            Verdict::Granted { .. } | Verdict::GrantedLong { .. } => Share::Granted,
        },
    }
}

/// Random questions, not made for a long chain, until every share is filled.
pub fn random() -> Vec<Stored> {
    let mut random = Random::new(SEED + 1);
    let mut left = SHARES;
    let mut cases = Vec::new();
    while left.iter().any(|(_, wanted)| *wanted > 0) {
        let made = asking::question(&mut random);
        let stored = stored(&made);
        let apart = made.known.is_some() || made.file.len() > LONGEST;
        if apart || !is_definite(&stored.question) {
            continue;
        }
        let found = share(&made);
        let place = left.iter_mut().find(|(share, _)| *share == found);
        if let Some((_, wanted)) = place.filter(|(_, wanted)| *wanted > 0) {
            *wanted -= 1;
            cases.push(stored);
        }
    }
    cases
}
