//! The three places lent to a question, what they must hold after it, and what
//! is to be told. A chain is judged as a chain, since several may be right.

use crate::compare::lending::{chain_pattern, pattern, Lending};
use crate::decision::{chains, Decision, Places, Refusal, Verdict};
use crate::proved_decision::{LentPlaces, Told};

/// What the margins hold.
pub const NUMBER_FILL: u32 = 0x5A5A_A5A5;
const BYTE_FILL: u8 = 0xA5;

/// What the archive is to tell.
pub fn told(result: &Result<Decision, Refusal>) -> Told {
    match result {
        Ok(decision) => Told {
            number: decision.verdict.number(),
            steps: decision.verdict.steps(),
            passes: decision.passes as u32,
            minute: decision.verdict.minute(),
        },
        Err(refusal) => Told {
            number: refusal.number(),
            steps: 0,
            passes: 0,
            minute: refusal.record(),
        },
    }
}

/// The three places lent to one question.
pub struct Lent {
    minutes: Lending<u32>,
    steps: Lending<u32>,
    chain: Lending<u8>,
}

impl Lent {
    pub fn of(places: Places) -> Lent {
        Lent {
            minutes: Lending::of(&pattern(places.minutes), NUMBER_FILL),
            steps: Lending::of(&pattern(places.steps), NUMBER_FILL),
            chain: Lending::of(&chain_pattern(places.chain), BYTE_FILL),
        }
    }

    pub fn places(&mut self) -> LentPlaces<'_> {
        LentPlaces {
            minutes: self.minutes.lent(),
            steps: self.steps.lent(),
            chain: self.chain.lent(),
        }
    }

    /// What the places must hold after this answer.
    pub fn are_right(&mut self, result: &Result<Decision, Refusal>) -> Result<(), String> {
        let (minutes, steps, length) = match result {
            Ok(decision) => (
                decision.minutes.as_slice(),
                decision.steps.as_slice(),
                decision.verdict.steps() as usize,
            ),
            Err(_) => ([].as_slice(), [].as_slice(), 0),
        };
        let chain = self.chain.lent()[..length].to_vec();
        self.minutes.holds("minutes", minutes)?;
        self.steps.holds("steps", steps)?;
        self.chain.holds("chain", &chain)?;
        match result {
            Ok(decision) => is_chain(decision, &chain),
            Err(_) => Ok(()),
        }
    }
}

/// Passes unless the verdict is 0 and this is no chain of its minute.
fn is_chain(decision: &Decision, chain: &[u8]) -> Result<(), String> {
    let Verdict::Granted { minute, .. } = decision.verdict else {
        return Ok(());
    };
    match chains::minute(&decision.rules, decision.request, chain) {
        Ok(found) if found == minute => Ok(()),
        Ok(found) => Err(format!("\n  the chain {chain:?} has the minute {found}")),
        Err(told) => Err(format!("\n  the chain {chain:?} is none: {told}")),
    }
}
