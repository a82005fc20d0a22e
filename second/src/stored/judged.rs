//! Document 01's "A file to judge by": P1 to P10 with their lines, and other
//! requests about the same file.

use super::question::Stored;
use crate::decision::lines::question;
use crate::decision::Request;
use crate::wac::{file_of, Certificate, ACCESS_ONLY, MAY_DELEGATE};

/// Asker, rights, T, and the line.
const CASES: [(u8, u8, u32, &str); 9] = [
    (4, 4, 100, "GRANTED 5000 4 3 0 1 2 3"),
    (4, 2, 100, "GRANTED 6000 1 2 4"),
    (4, 6, 100, "GRANTED 5000 4 3 0 1 2 3"),
    (4, 8, 100, "NO-CHAIN 2"),
    (3, 8, 100, "GRANTED 5000 3 3 0 1 2"),
    (6, 2, 100, "NO-CHAIN 2"),
    (0, 4, 100, "GRANTED 4294967295 0 2"),
    (4, 4, 5000, "GRANTED 5000 4 3 0 1 2 3"),
    (4, 4, 5001, "NO-CHAIN 2"),
];

/// The seven certificates.
pub fn certificates() -> Vec<Certificate> {
    vec![
        Certificate::authorization(0, 1, &[1, 0], MAY_DELEGATE).until(9000),
        Certificate::name(1, 1, 2, &[]).until(5000),
        Certificate::name(2, 0, 3, &[]).until(7000),
        Certificate::authorization(3, 4, &[], ACCESS_ONLY)
            .carrying(6)
            .until(8000),
        Certificate::authorization(0, 4, &[], ACCESS_ONLY)
            .carrying(2)
            .until(6000),
        Certificate::name(1, 1, 5, &[]).until(9000),
        Certificate::authorization(4, 6, &[], MAY_DELEGATE).until(9000),
    ]
}

/// The file's bytes.
pub fn file() -> Vec<u8> {
    file_of(&certificates())
}

/// P1's request.
pub const REQUEST: Request = Request {
    owner: 0,
    asker: 4,
    rights: 4,
    at: 100,
};

pub fn cases() -> Vec<Stored> {
    let mut cases: Vec<Stored> = CASES.iter().map(case).collect();
    cases.push(Stored {
        question: question(REQUEST, &file_of(&[])),
        given: Some("NO-CHAIN 1"),
    });
    cases
}

fn case(&(asker, rights, at, given): &(u8, u8, u32, &'static str)) -> Stored {
    let request = Request {
        asker,
        rights,
        at,
        ..REQUEST
    };
    Stored {
        question: question(request, &file()),
        given: Some(given),
    }
}

/// Other requests about the same file.
pub fn requests() -> Vec<Stored> {
    let file = file();
    let requests = [by_rights(), by_keys(), by_minute()].concat();
    let stored = requests.into_iter();
    stored
        .map(|request| Stored::new(question(request, &file)))
        .collect()
}

fn by_rights() -> Vec<Request> {
    let rights = (0..=17).chain([31, 128, 255]);
    rights.map(|rights| Request { rights, ..REQUEST }).collect()
}

/// Every asker, every owner that issues, and keys past the last.
fn by_keys() -> Vec<Request> {
    let mut requests = Vec::new();
    for asker in 0..=16 {
        requests.push(Request { asker, ..REQUEST });
    }
    for owner in [1, 2, 3, 4, 14, 15, 16, 255] {
        requests.push(Request { owner, ..REQUEST });
    }
    for key in [0, 4, 15, 16, 255] {
        requests.push(Request {
            owner: key,
            asker: key,
            ..REQUEST
        });
    }
    requests
}

/// T at both ends of the dates, with the last right that a chain carries.
fn by_minute() -> Vec<Request> {
    let minutes = [0, 1, 2, 4999, 5000, 5001, 6000, 6001, 9000, u32::MAX];
    let mut requests = Vec::new();
    for at in minutes {
        for rights in [2, 4] {
            requests.push(Request {
                at,
                rights,
                ..REQUEST
            });
        }
        requests.push(Request {
            at,
            asker: 0,
            ..REQUEST
        });
    }
    requests
}
