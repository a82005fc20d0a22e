//! Dense files: so many names of so few keys that most of them meet.

use super::random::Random;
use crate::wac::{Certificate, ACCESS_ONLY, MAY_DELEGATE};

/// Names of any length, every fourth certificate an authorization.
pub fn certificates(
    count: usize,
    (keys, identifiers): (usize, usize),
    random: &mut Random,
) -> Vec<Certificate> {
    let mut certificates = Vec::new();
    for place in 0..count {
        let issuer = random.below(keys) as u8;
        let subject = random.below(keys) as u8;
        let length = random.one_of(&[0, 0, 1, 1, 2, 3]);
        let some: Vec<u8> = (0..=length)
            .map(|_| random.below(identifiers) as u8)
            .collect();
        let mark = random.one_of(&[MAY_DELEGATE, ACCESS_ONLY]);
        let end = 100 + random.below(1_000) as u32;
        let made = match place % 4 {
            0 => Certificate::authorization(issuer, subject, &some[..length], mark),
            _ => Certificate::name(issuer, some[length], subject, &some[..length]),
        };
        certificates.push(made.until(end));
    }
    certificates
}
