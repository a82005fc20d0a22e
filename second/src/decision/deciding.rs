//! The question, the read screen, the stock list and settle: what each of them
//! is to answer.

use super::entries::{mark_entry, ENTRIES, KEYS};
use super::fewest::{self, TOO_MANY};
use super::request::{short_request, Places, Request};
use super::rules::{self, Rule};
use super::verdict::{Refusal, Verdict};
use super::{passes, reach};
use crate::wac;

/// A question worked out: the verdict and what the first 2,592 places of
/// minutes and of steps then hold. `rules` are the usable certificates.
pub struct Decision {
    pub request: Request,
    pub rules: Vec<Rule>,
    pub verdict: Verdict,
    pub passes: usize,
    pub minutes: Vec<u32>,
    pub steps: Vec<u32>,
}

impl Decision {
    /// The usable certificates that a best chain can be made of.
    pub fn best_rules(&self) -> Vec<Rule> {
        rules::ending_from(&self.rules, self.verdict.minute())
    }
}

/// The question.
pub fn ask(file: &[u8], request: Request, places: Places) -> Result<Decision, Refusal> {
    Ok(decide(usable(file, request, places)?, request))
}

/// The question about certificates of several files together, which may be
/// more than one file holds.
pub fn ask_together(certificates: &[wac::Certificate], request: Request) -> Decision {
    decide(rules::usable(certificates, request), request)
}

/// The usable certificates of a question that is not refused. The refusals
/// are looked for in the order of their numbers.
pub fn usable(file: &[u8], request: Request, places: Places) -> Result<Vec<Rule>, Refusal> {
    let certificates = lawful(file, &[request.owner, request.asker])?;
    if !(1..=15).contains(&request.rights) {
        return Err(Refusal::RightsOutside);
    }
    if request.at == 0 {
        return Err(Refusal::MinuteZero);
    }
    if !places.are_enough() {
        return Err(Refusal::PlacesTooFew);
    }
    Ok(rules::usable(&certificates, request))
}

/// The certificates of a file that is not refused, asked about these keys.
fn lawful(file: &[u8], keys: &[u8]) -> Result<Vec<wac::Certificate>, Refusal> {
    let certificates = wac::parse(file).map_err(Refusal::File)?;
    match keys.iter().all(|&key| usize::from(key) < KEYS) {
        true => Ok(certificates),
        false => Err(Refusal::KeyAboveFifteen),
    }
}

/// The question over the usable certificates; thresholds and passes must give
/// the same minutes.
fn decide(rules: Vec<Rule>, request: Request) -> Decision {
    let asker = usize::from(request.asker);
    let owners = mark_entry(usize::from(request.owner));
    let minutes = reach::minutes(&rules, asker);
    let (passes, settled) = passes::settle(&rules, &passes::start(asker));
    assert!(minutes == settled, "thresholds and passes disagree");
    let minute = minutes[owners];
    let (verdict, steps) = if minute == 0 {
        (Verdict::NoChain, vec![TOO_MANY; ENTRIES])
    } else {
        let steps = fewest::steps(&rules::ending_from(&rules, minute), asker);
        (granted(minute, steps[owners]), steps)
    };
    Decision {
        request,
        rules,
        verdict,
        passes,
        minutes,
        steps,
    }
}

/// The verdict where a chain was found.
fn granted(minute: u32, steps: u32) -> Verdict {
    match steps {
        TOO_MANY => Verdict::GrantedLong { minute },
        _ => Verdict::Granted { minute, steps },
    }
}

/// The read screen: yes if the short form grants, however long the chain.
pub fn may(file: &[u8], owner: u8, asker: u8, at: u32) -> Result<bool, Refusal> {
    let certificates = lawful(file, &[owner, asker])?;
    if at == 0 {
        return Err(Refusal::MinuteZero);
    }
    Ok(yes(&certificates, short_request(owner, asker, at)))
}

/// Whether any chain grants the request.
fn yes(certificates: &[wac::Certificate], request: Request) -> bool {
    let rules = rules::usable(certificates, request);
    reach::is_granted(
        &rules,
        usize::from(request.owner),
        usize::from(request.asker),
    )
}

/// The stock list: the keys that get yes.
pub fn stock(file: &[u8], owner: u8, at: u32) -> Result<Vec<u8>, Refusal> {
    let certificates = lawful(file, &[owner])?;
    if at == 0 {
        return Err(Refusal::MinuteZero);
    }
    let asked = |&asker: &u8| yes(&certificates, short_request(owner, asker, at));
    Ok((0..KEYS as u8).filter(asked).collect())
}

/// Passes over a given table until nothing changes: how many, and the table.
pub fn settle(
    file: &[u8],
    request: Request,
    minutes: &[u32],
) -> Result<(usize, Vec<u32>), Refusal> {
    let places = Places {
        minutes: minutes.len(),
        ..Places::ENOUGH
    };
    let rules = usable(file, request, places)?;
    Ok(passes::settle(&rules, &minutes[..ENTRIES]))
}
