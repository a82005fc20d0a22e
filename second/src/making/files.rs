//! Makes what is compared on: certificates and files, lawful ones of every
//! size and ones with damage of every kind the table and the head can take,
//! and the numbers and used lengths to ask about them.

use super::random::Random;
use crate::wac::{file_of, Certificate};
use crate::wac::{ACCESS_ONLY, AUTHORIZATION, HEAD, MAY_DELEGATE, MOST, NAME, NOTHING, RECORD};

/// Numbers on both sides of every limit of the table.
const BESIDE_LIMITS: [u8; 18] = [
    0, 1, 2, 3, 4, 8, 9, 10, 11, 12, 14, 15, 16, 17, 127, 128, 254, 255,
];

/// A lawful certificate, often with numbers at the limits.
pub fn certificate(random: &mut Random) -> Certificate {
    let length = random.below(4);
    let mut identifiers = [NOTHING; 3];
    for place in &mut identifiers[..length] {
        *place = up_to(9, random);
    }
    let is_name = random.once_in(2);
    let right_marks = [MAY_DELEGATE, ACCESS_ONLY];
    Certificate {
        kind: if is_name { NAME } else { AUTHORIZATION },
        issuer: up_to(15, random),
        left: if is_name {
            up_to(9, random)
        } else {
            MAY_DELEGATE
        },
        subject: up_to(15, random),
        length: length as u8,
        identifiers,
        mark: if is_name {
            NOTHING
        } else {
            random.one_of(&right_marks)
        },
        rights: if is_name { 0 } else { up_to(15, random) },
        not_before: date(random),
        not_after: date(random),
    }
}

/// A number from 0 to `greatest`, the two ends more often than the others.
fn up_to(greatest: u8, random: &mut Random) -> u8 {
    let other = random.below(usize::from(greatest) + 1) as u8;
    random.one_of(&[0, greatest, other, other])
}

fn date(random: &mut Random) -> u32 {
    let any = random.number() as u32;
    let low = any % 10_000;
    random.one_of(&[0, 1, u32::MAX, u32::MAX - 1, any, any, low, low])
}

/// A lawful certificate, or one that was changed in one or two bytes.
pub fn new_certificate(random: &mut Random) -> Certificate {
    let mut bytes = certificate(random).bytes();
    if random.once_in(3) {
        for _ in 0..random.within(1, 2) {
            change_record(&mut bytes, random);
        }
    }
    Certificate::read(&bytes)
}

fn certificates(count: usize, random: &mut Random) -> Vec<Certificate> {
    (0..count).map(|_| certificate(random)).collect()
}

/// Every count from 0 to 128; few, 127 and 128 more often than the others.
fn count(random: &mut Random) -> usize {
    match random.below(8) {
        0 | 1 => random.within(0, 3),
        2 => MOST - 1,
        3 => MOST,
        _ => random.within(0, MOST),
    }
}

/// One file in four is lawful, the others carry one to three damages.
pub fn file(random: &mut Random) -> Vec<u8> {
    let count = count(random);
    let mut file = file_of(&certificates(count, random));
    let damages = random.one_of(&[0, 0, 1, 1, 1, 1, 2, 3]);
    for _ in 0..damages {
        damage(&mut file, random);
    }
    file
}

/// One damage of any kind.
pub fn damage(file: &mut Vec<u8>, random: &mut Random) {
    match random.below(11) {
        0 => change_any_byte(file, random),
        1 => shorten(file, random),
        2 => lengthen(file, random),
        3 => set_count(file, random),
        4 => overfill(file, random),
        5 => set_version(file, random),
        6 => keep_under_head(file, random),
        7 => change_mark(file, random),
        8 => change_records(file, 1, random),
        9 => change_records(file, random.within(2, 5), random),
        _ => change_dates(file, random),
    }
}

/// A byte becomes a near one, 0, 255, one beside a limit or any.
fn changed(byte: u8, random: &mut Random) -> u8 {
    let beside = random.one_of(&BESIDE_LIMITS);
    let near = [byte.wrapping_add(1), byte.wrapping_sub(1)];
    let other = random.byte();
    random.one_of(&[near[0], near[1], 0, 255, beside, beside, other])
}

fn change_any_byte(file: &mut [u8], random: &mut Random) {
    if !file.is_empty() {
        let place = random.below(file.len());
        file[place] = changed(file[place], random);
    }
}

fn shorten(file: &mut Vec<u8>, random: &mut Random) {
    let bytes = random.one_of(&[1, 1, 2, 17, 18, 19, 36]);
    file.truncate(file.len().saturating_sub(bytes));
}

/// Adds some bytes, or exactly one lawful certificate the count leaves out.
fn lengthen(file: &mut Vec<u8>, random: &mut Random) {
    let bytes = random.one_of(&[1, 1, 2, 17, 18, 19, 36, 256 * RECORD]);
    let more = match bytes {
        RECORD => certificate(random).bytes(),
        _ => random.bytes(bytes),
    };
    file.extend(more);
}

fn set_count(file: &mut [u8], random: &mut Random) {
    if let Some(count) = file.get_mut(5) {
        *count = random.one_of(&[0, 127, 128, 129, 130, 255]);
    }
}

/// More certificates than permitted, with the length that fits their count.
fn overfill(file: &mut Vec<u8>, random: &mut Random) {
    if file.len() >= HEAD {
        let count = random.one_of(&[129, 129, 130, 200, 255]);
        file.truncate(HEAD);
        file[5] = count as u8;
        for certificate in certificates(count, random) {
            file.extend(certificate.bytes());
        }
    }
}

fn set_version(file: &mut [u8], random: &mut Random) {
    if file.len() >= HEAD {
        let version: u16 = random.one_of(&[0, 2, 255, 256, 257, 513, 65_281, 65_535]);
        file[3..5].copy_from_slice(&version.to_be_bytes());
    }
}

fn keep_under_head(file: &mut Vec<u8>, random: &mut Random) {
    file.truncate(random.below(HEAD));
}

fn change_mark(file: &mut [u8], random: &mut Random) {
    if file.len() >= HEAD {
        let place = random.below(3);
        file[place] = random.one_of(&[0, 255, b'A', b'C', b'W', b'w', file[place] ^ 1]);
    }
}

/// A whole record of the file, chosen at random or at one of the two ends.
fn any_record<'a>(file: &'a mut [u8], random: &mut Random) -> Option<&'a mut [u8]> {
    let records = file.len().saturating_sub(HEAD) / RECORD;
    if records == 0 {
        return None;
    }
    let any = random.below(records);
    let number = random.one_of(&[0, records - 1, any, any]);
    Some(&mut file[HEAD + RECORD * number..][..RECORD])
}

fn change_records(file: &mut [u8], times: usize, random: &mut Random) {
    for _ in 0..times {
        if let Some(record) = any_record(file, random) {
            change_record(record, random);
        }
    }
}

fn change_dates(file: &mut [u8], random: &mut Random) {
    if let Some(record) = any_record(file, random) {
        record[10..14].copy_from_slice(&date(random).to_be_bytes());
        record[14..18].copy_from_slice(&date(random).to_be_bytes());
    }
}

/// One of the bytes the table speaks of becomes one beside a limit; or the
/// identifier bytes past the number do.
fn change_record(record: &mut [u8], random: &mut Random) {
    if random.once_in(3) {
        let number = usize::from(record[4]).min(3);
        for byte in &mut record[5 + number..8] {
            *byte = random.one_of(&[255, 254, 0, 9]);
        }
    } else {
        let place = random.below(10);
        record[place] = random.one_of(&BESIDE_LIMITS);
    }
}

/// Certificate numbers to ask for: about the count, about the limits, and
/// ones that a narrower number or a product would take for small.
pub fn asked_numbers(file: &[u8], random: &mut Random) -> Vec<usize> {
    let count = usize::from(*file.get(5).unwrap_or(&0));
    let last = count.saturating_sub(1);
    let mut numbers = vec![0, last, count, count + 1, 127, 128, 255, 256];
    numbers.push(random.below(count + 1));
    numbers.extend([256 + last, 65_536 + last, (1 << 32) + last]);
    numbers.extend([usize::MAX / RECORD, usize::MAX / RECORD + 1]);
    numbers.extend([usize::MAX / 2 + 1, usize::MAX - last, usize::MAX]);
    numbers
}

/// Used lengths that are not the file's: short, long, past the buffer, and
/// ones that a narrower number or a sum would take for small.
pub fn wrong_used_lengths(length: usize, room: usize, random: &mut Random) -> Vec<usize> {
    let buffer = length + room;
    let mut lengths = vec![length + 1, buffer + 1, usize::MAX];
    lengths.push(length.saturating_sub(1));
    let any = random.below(buffer + 1);
    lengths.push(random.one_of(&[
        0,
        any,
        length.saturating_sub(RECORD),
        buffer + RECORD,
        65_536 + length,
        (1 << 32) + length,
        usize::MAX - RECORD,
        usize::MAX - RECORD + 1,
    ]));
    lengths
}
