//! Files and certificates that go through every value of the bytes that are
//! checked, where the random ones might miss the one that counts.

use crate::wac::{file_of, Certificate};
use crate::wac::{ACCESS_ONLY, AUTHORIZATION, HEAD, MAY_DELEGATE, MOST, NAME, NOTHING, RECORD};

/// Byte 5 of files that are few, just lawful, just too many and the most.
const COUNTS: [u8; 8] = [0, 1, 2, 127, 128, 129, 130, 255];
/// Identifier bytes: least, greatest, one past, one short of nothing, nothing.
const IDENTIFIER_LIMITS: [u8; 5] = [0, 9, 10, 254, NOTHING];

/// A lawful certificate of this kind with this many subject identifiers.
fn plain(kind: u8, length: u8) -> Certificate {
    let is_name = kind == NAME;
    let mut identifiers = [NOTHING; 3];
    identifiers[..usize::from(length)].fill(7);
    Certificate {
        kind,
        issuer: 3,
        left: if is_name { 4 } else { MAY_DELEGATE },
        subject: 5,
        length,
        identifiers,
        mark: if is_name { NOTHING } else { ACCESS_ONLY },
        rights: if is_name { 0 } else { 6 },
        not_before: 0x0102_0304,
        not_after: 0xF1F2_F3F4,
    }
}

/// Both kinds with 0 to 3 subject identifiers.
fn plain_certificates() -> impl Iterator<Item = Certificate> {
    [NAME, AUTHORIZATION]
        .into_iter()
        .flat_map(|kind| (0..=3).map(move |length| plain(kind, length)))
}

/// The bytes with the one at `place` set to every value in turn.
fn every_value(bytes: Vec<u8>, place: usize) -> impl Iterator<Item = Vec<u8>> {
    (0..=255).map(move |value| {
        let mut changed = bytes.clone();
        changed[place] = value;
        changed
    })
}

/// Every byte of each plain certificate through every value.
fn every_byte() -> impl Iterator<Item = Certificate> {
    plain_certificates()
        .flat_map(|plain| (0..RECORD).flat_map(move |place| every_value(plain.bytes(), place)))
        .map(|record| Certificate::read(&record))
}

/// Every number of identifiers, with each of the three bytes through these.
fn every_subject() -> impl Iterator<Item = Certificate> {
    plain_certificates().flat_map(|plain| {
        (0..=4).flat_map(move |length| {
            every_three(&IDENTIFIER_LIMITS).map(move |identifiers| Certificate {
                length,
                identifiers,
                ..plain
            })
        })
    })
}

fn every_three(choices: &'static [u8]) -> impl Iterator<Item = [u8; 3]> {
    choices.iter().flat_map(move |&first| {
        choices
            .iter()
            .flat_map(move |&second| choices.iter().map(move |&third| [first, second, third]))
    })
}

/// Certificates on both sides of every line of the table.
pub fn certificates() -> impl Iterator<Item = Certificate> {
    every_byte().chain(every_subject())
}

/// A file with this count byte and as many lawful certificates.
fn filled(count: u8) -> Vec<u8> {
    file_of(&vec![plain(AUTHORIZATION, 2); usize::from(count)])
}

/// Every byte of the head through every value.
fn every_head() -> impl Iterator<Item = Vec<u8>> {
    COUNTS
        .into_iter()
        .flat_map(|count| (0..HEAD).flat_map(move |place| every_value(filled(count), place)))
}

/// Every high byte with every low byte that could be taken for version 1.
fn every_version() -> impl Iterator<Item = Vec<u8>> {
    [0, 1, 2, 254, 255].into_iter().flat_map(|low| {
        let mut file = filled(1);
        file[4] = low;
        every_value(file, 3)
    })
}

/// Every count byte with the length that fits, and some bytes off.
fn every_length() -> impl Iterator<Item = Vec<u8>> {
    (0..=255u8).flat_map(|count| {
        (0..=40).map(move |longer| {
            let mut file = filled(count);
            let wanted = (file.len() + longer).saturating_sub(20);
            file.resize(wanted, NOTHING);
            file
        })
    })
}

/// A full file with one record against the table, and with that one and the last.
fn every_bad_record() -> impl Iterator<Item = Vec<u8>> {
    (0..MOST).flat_map(|number| {
        [number, MOST - 1].map(|other| {
            let mut file = filled(MOST as u8);
            file[HEAD + RECORD * number] = 3;
            file[HEAD + RECORD * other + 1] = 16;
            file
        })
    })
}

/// Files on both sides of every limit of the head and the length.
pub fn files() -> impl Iterator<Item = Vec<u8>> {
    every_head()
        .chain(every_version())
        .chain(every_length())
        .chain(every_bad_record())
}
