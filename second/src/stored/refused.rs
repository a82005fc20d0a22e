//! Questions a program refuses, 9 to 22, and their neighbours that it does
//! not: each ground alone, and grounds together, of which the lowest counts.

use super::judged::{file, REQUEST};
use super::question::Stored;
use crate::decision::lines::question;
use crate::decision::Request;
use crate::wac::{HEAD, RECORD};

/// The longest question that can be stored.
const LONGEST: usize = 65_535;

pub fn cases() -> Vec<Stored> {
    let mut questions = short_inputs();
    for file in [heads(), lengths(), records()].concat() {
        questions.push(question(REQUEST, &file));
    }
    questions.extend(several_grounds());
    questions.into_iter().map(Stored::new).collect()
}

/// 0 to 6 bytes of input (9), and 0 to 6 of a file (10, and 14 for a head
/// that counts what is not there).
fn short_inputs() -> Vec<Vec<u8>> {
    let whole = question(REQUEST, &file());
    (0..=7 + HEAD)
        .map(|bytes| whole[..bytes].to_vec())
        .collect()
}

/// The mark, the version and the count changed byte by byte.
fn heads() -> Vec<Vec<u8>> {
    let changes: [(usize, &[u8]); 6] = [
        (0, &[0, 86, 88, 119]),
        (1, &[0, 64, 66]),
        (2, &[0, 66, 68]),
        (3, &[1, 255]),
        (4, &[0, 2, 255]),
        (5, &[0, 6, 8, 128, 129, 255]),
    ];
    let mut files = Vec::new();
    for (place, bytes) in changes {
        for &byte in bytes {
            files.push(changed(&[(place, byte)]));
        }
    }
    files.push(changed(&[(3, 1), (4, 0)]));
    files.push(changed(&[(0, 0), (4, 2), (5, 200)]));
    files.push(changed(&[(4, 2), (5, 200)]));
    files
}

/// One byte off, one record off, and far too long.
fn lengths() -> Vec<Vec<u8>> {
    let right = file().len();
    let lengths = [right - RECORD, right - 1, right + 1, right + RECORD];
    let mut files: Vec<Vec<u8>> = lengths.iter().map(|&length| resized(length)).collect();
    for length in [HEAD + 129 * RECORD, 3_000, LONGEST - 7] {
        files.push(resized(length));
    }
    for byte in [(0, 0), (4, 2), (5, 129)] {
        let mut long = changed(&[byte]);
        long.resize(3_000, 1);
        files.push(long);
    }
    files
}

fn resized(length: usize) -> Vec<u8> {
    let mut file = file();
    file.resize(length, 1);
    file
}

/// Document 01's file with these bytes in place of its own.
fn changed(bytes: &[(usize, u8)]) -> Vec<u8> {
    let mut file = file();
    for &(place, byte) in bytes {
        file[place] = byte;
    }
    file
}

/// Both sides of each limit in each byte of an authorization with two
/// identifiers (record 0) and of a name with none (record 1); then a bad last
/// record, and two bad ones.
fn records() -> Vec<Vec<u8>> {
    let limits: [&[u8]; 10] = [
        &[0, 1, 2, 3],
        &[15, 16, 255],
        &[9, 10, 11],
        &[15, 16, 255],
        &[0, 1, 2, 3, 4],
        &[9, 10, 255],
        &[9, 10, 255],
        &[0, 254, 255],
        &[9, 10, 11, 12, 254, 255],
        &[0, 1, 15, 16],
    ];
    let mut files = Vec::new();
    for record in [0, 1] {
        for (byte, numbers) in limits.iter().enumerate() {
            for &number in *numbers {
                files.push(changed(&[(in_record(record, byte), number)]));
            }
        }
    }
    files.push(changed(&[(in_record(6, 0), 3)]));
    files.push(changed(&[(in_record(6, 9), 16)]));
    files.push(changed(&[(in_record(3, 1), 16), (in_record(5, 8), 10)]));
    files
}

fn in_record(record: usize, byte: usize) -> usize {
    HEAD + RECORD * record + byte
}

/// The file's grounds before the request's, and 20 before 21 before 22.
fn several_grounds() -> Vec<Vec<u8>> {
    let bad = changed(&[(in_record(2, 0), 0)]);
    let mut questions = Vec::new();
    for owner in [0, 15, 16] {
        for asker in [4, 16, 255] {
            for rights in [0, 4, 16] {
                for at in [0, 100] {
                    let request = Request {
                        owner,
                        asker,
                        rights,
                        at,
                    };
                    questions.push(question(request, &file()));
                }
            }
        }
        let request = Request {
            owner,
            asker: 16,
            rights: 0,
            at: 0,
        };
        questions.push(question(request, &bad));
        questions.push(question(request, &[]));
    }
    questions
}
