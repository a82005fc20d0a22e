//! The usable certificates of a request, as rules that rewrite.

use super::request::Request;
use crate::wac::{Certificate, AUTHORIZATION};

/// Key `from` with the symbol `reads` first becomes key `to` with the
/// symbols `writes` in its place.
#[derive(Clone, PartialEq, Eq, Debug)]
pub struct Rule {
    /// The certificate's number in the file.
    pub number: usize,
    pub from: usize,
    pub reads: usize,
    pub to: usize,
    pub writes: Vec<usize>,
    pub not_after: u32,
}

/// The certificates that are usable for the request.
pub fn usable(certificates: &[Certificate], request: Request) -> Vec<Rule> {
    let numbered = certificates.iter().enumerate();
    let kept = numbered.filter(|(_, certificate)| is_usable(certificate, request));
    kept.map(|(number, certificate)| rule(number, certificate))
        .collect()
}

pub fn is_usable(certificate: &Certificate, request: Request) -> bool {
    let begun = certificate.not_before <= request.at;
    let ended = certificate.not_after < request.at;
    let carries = certificate.rights & request.rights == request.rights;
    begun && !ended && (carries || certificate.kind != AUTHORIZATION)
}

fn rule(number: usize, certificate: &Certificate) -> Rule {
    let identifiers = &certificate.identifiers[..usize::from(certificate.length)];
    let mut writes: Vec<usize> = identifiers.iter().map(|&byte| usize::from(byte)).collect();
    if certificate.kind == AUTHORIZATION {
        writes.push(usize::from(certificate.mark));
    }
    Rule {
        number,
        from: usize::from(certificate.issuer),
        reads: usize::from(certificate.left),
        to: usize::from(certificate.subject),
        writes,
        not_after: certificate.not_after,
    }
}

/// The rules with a not-after at or above this minute.
pub fn ending_from(rules: &[Rule], minute: u32) -> Vec<Rule> {
    let kept = rules.iter().filter(|rule| rule.not_after >= minute);
    kept.cloned().collect()
}
