//! Files of 0, 1, 127, 128 and 129 certificates.

use super::question::Stored;
use crate::decision::lines::question;
use crate::decision::Request;
use crate::wac::{file_of, Certificate, ACCESS_ONLY, MAY_DELEGATE};

pub fn cases() -> Vec<Stored> {
    let mut cases = Vec::new();
    for count in [0, 1, 2, 126, 127, 128, 129] {
        for asker in [0, 1, 14, 15] {
            cases.push(asked(&late_grant(count), asker));
            cases.push(asked(&relay(count), asker));
        }
    }
    cases
}

fn asked(certificates: &[Certificate], asker: u8) -> Stored {
    let request = Request {
        owner: 0,
        asker,
        rights: 2,
        at: 50,
    };
    Stored::new(question(request, &file_of(certificates)))
}

/// Names that nothing leads to, and the one authorization last of all.
fn late_grant(count: usize) -> Vec<Certificate> {
    let key = |number: usize| (number % 16) as u8;
    let identifier = |number: usize| (number % 10) as u8;
    let names = (1..count).map(|number| {
        let to = [identifier(number / 3), identifier(number)];
        Certificate::name(key(number), identifier(number / 16), key(number * 7), &to)
    });
    let grant = Certificate::authorization(0, 15, &[], ACCESS_ONLY).until(70);
    names.chain([grant].into_iter().take(count)).collect()
}

/// A name handed on from key to key through every certificate but the first.
pub fn relay(count: usize) -> Vec<Certificate> {
    let place = |number: usize| ((number % 15) as u8, (number / 15) as u8);
    let mut certificates = vec![Certificate::authorization(0, 0, &[0], MAY_DELEGATE)];
    for number in 0..count.saturating_sub(2) {
        let ((from, left), (to, next)) = (place(number), place(number + 1));
        certificates.push(Certificate::name(from, left, to, &[next]).until(100 + number as u32));
    }
    let (from, left) = place(count.saturating_sub(2));
    certificates.push(Certificate::name(from, left, 15, &[]).until(99));
    certificates.truncate(count);
    certificates
}
