//! The line the decision program prints for one question: owner, asker and
//! rights a byte each, T in 4 bytes, high byte first, then the file.

use super::deciding::{ask, Decision};
use super::entries::{mark_entry, END, MAY_DELEGATE};
use super::fewest;
use super::request::{Places, Request};
use super::verdict::{Refusal, Verdict};

/// Bytes before the file.
pub const REQUEST: usize = 7;

/// The question's bytes.
pub fn question(request: Request, file: &[u8]) -> Vec<u8> {
    let mut bytes = vec![request.owner, request.asker, request.rights];
    bytes.extend(request.at.to_be_bytes());
    bytes.extend(file);
    bytes
}

/// The request and the file, if there are bytes enough for a request.
pub fn parts(question: &[u8]) -> Option<(Request, &[u8])> {
    let (&[owner, asker, rights, t1, t2, t3, t4], file) =
        question.split_first_chunk::<REQUEST>()?;
    let request = Request {
        owner,
        asker,
        rights,
        at: u32::from_be_bytes([t1, t2, t3, t4]),
    };
    Some((request, file))
}

/// The line for these bytes; the chain is the first shortest best one found.
pub fn line(question: &[u8]) -> String {
    match parts(question) {
        None => "REFUSED 9 0".to_string(),
        Some((request, file)) => match ask(file, request, Places::ENOUGH) {
            Ok(decision) => decided(&decision),
            Err(refusal) => refused(refusal),
        },
    }
}

fn refused(refusal: Refusal) -> String {
    format!("REFUSED {} {}", refusal.number(), refusal.record())
}

fn decided(decision: &Decision) -> String {
    let passes = decision.passes;
    match decision.verdict {
        Verdict::NoChain => format!("NO-CHAIN {passes}"),
        Verdict::GrantedLong { minute } => format!("GRANTED-LONG {minute} {passes}"),
        Verdict::Granted { minute, steps } => {
            let mut line = format!("GRANTED {minute} {steps} {passes}");
            for number in chain(decision) {
                line += &format!(" {number}");
            }
            line
        }
    }
}

/// A shortest best chain of a question that was answered with 0.
pub fn chain(decision: &Decision) -> Vec<usize> {
    let owner = usize::from(decision.request.owner);
    let asked = (owner, MAY_DELEGATE, END);
    fewest::chain(&decision.best_rules(), &decision.steps, asked)
}

/// How many shortest best chains a question that was answered with 0 has.
pub fn chains(decision: &Decision) -> u32 {
    let Request { owner, asker, .. } = decision.request;
    let (owner, asker) = (mark_entry(usize::from(owner)), usize::from(asker));
    fewest::ways(&decision.best_rules(), asker, &decision.steps, owner)
}
