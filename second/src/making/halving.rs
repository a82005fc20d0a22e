//! Makes the openings of two sites: halves of a random file in every share, two
//! full files, and openings that are refused.

use super::question::bend;
use super::random::Random;
use super::{asking, dense, files, long};
use crate::decision::entries::mark_entry;
use crate::decision::rules::Rule;
use crate::decision::{reach, usable, Places, Request};
use crate::sites::opening::Opening;
use crate::wac::{self, file_of, Certificate, MOST};

/// The dense files' keys and identifiers.
const DENSE: [(usize, usize); 3] = [(4, 3), (5, 4), (16, 10)];

/// How often halves are shared out again while one file alone gives what both
/// give together.
const TRIES: usize = 8;

/// Halves that are not refused: once in 8 two dense files.
pub fn opening(random: &mut Random) -> Opening {
    let any = random.number() as u32;
    let session = random.one_of(&[0, 1, 7, u32::MAX, any, any]);
    let (request, files) = match random.once_in(8) {
        true => dense_files(random),
        false => chosen_halves(random),
    };
    Opening {
        request,
        session,
        files,
    }
}

/// Two times in three halves of which neither alone gives what both give.
fn chosen_halves(random: &mut Random) -> (Request, [Vec<u8>; 2]) {
    let tries = random.one_of(&[0, TRIES, TRIES]);
    let mut made = halves(random);
    for _ in 0..tries {
        let (request, files) = &made;
        if together(files, *request) > alone(files, *request) {
            break;
        }
        made = halves(random);
    }
    made
}

/// The minute that the certificates of both files give together.
pub fn together(files: &[Vec<u8>; 2], request: Request) -> u32 {
    let rules = files.each_ref().map(|file| rules_of(file, request));
    minute(&rules.concat(), request)
}

/// The later of the minutes that each file gives.
pub fn alone(files: &[Vec<u8>; 2], request: Request) -> u32 {
    let minutes = files
        .each_ref()
        .map(|file| minute(&rules_of(file, request), request));
    minutes[0].max(minutes[1])
}

fn rules_of(file: &[u8], request: Request) -> Vec<Rule> {
    usable(file, request, Places::ENOUGH).expect("the halves are not refused")
}

fn minute(rules: &[Rule], request: Request) -> u32 {
    let minutes = reach::minutes(rules, usize::from(request.asker));
    minutes[mark_entry(usize::from(request.owner))]
}

fn dense_files(random: &mut Random) -> (Request, [Vec<u8>; 2]) {
    let sort = random.one_of(&DENSE);
    let count = random.one_of(&[12, 20, 20, 30, 40, 65, MOST]);
    let request = Request {
        owner: 0,
        asker: random.below(sort.0) as u8,
        rights: 2,
        at: 100,
    };
    let files = [0, 1].map(|_| file_of(&dense::certificates(count, sort, random)));
    (request, files)
}

/// A random file that is not refused, shared out; once in 8 one that hands a
/// name on.
fn halves(random: &mut Random) -> (Request, [Vec<u8>; 2]) {
    loop {
        let made = match random.once_in(8) {
            true => long::single(random),
            false => asking::question(random),
        };
        if usable(&made.file, made.request, Places::ENOUGH).is_ok() {
            let certificates = wac::parse(&made.file).expect("a usable file is lawful");
            return (made.request, shared_out(&certificates, random));
        }
    }
}

/// Who holds a certificate: A, B or both.
fn shared_out(certificates: &[Certificate], random: &mut Random) -> [Vec<u8>; 2] {
    let manner = random.below(10);
    let middle = random.below(certificates.len() + 1);
    let mut files = [Vec::new(), Vec::new()];
    for (number, certificate) in certificates.iter().enumerate() {
        let held = match manner {
            0 => [true, false],
            1 => [false, true],
            2 => [true, true],
            3 => random.one_of(&[[true, false], [false, true], [true, true]]),
            4 => [number < middle, number >= middle],
            5 => [number % 2 == 0, number % 2 == 1],
            _ => random.one_of(&[[true, false], [false, true]]),
        };
        for (file, held) in files.iter_mut().zip(held) {
            file.extend(Some(*certificate).filter(|_| held));
        }
    }
    files.map(|file| file_of(&file))
}

/// The bytes of an opening that is mostly refused: a file damaged, a request
/// at a limit or past it, or bytes cut off.
pub fn refused(random: &mut Random) -> Vec<u8> {
    let mut opening = opening(random);
    match random.below(10) {
        0 => return cut_off(&opening.bytes(), random),
        1 | 2 => bend(&mut opening.request, random),
        3..=5 => files::damage(&mut opening.files[0], random),
        _ => files::damage(&mut opening.files[1], random),
    }
    if random.once_in(8) {
        let side = random.below(2);
        files::damage(&mut opening.files[side], random);
        bend(&mut opening.request, random);
    }
    opening.bytes()
}

fn cut_off(bytes: &[u8], random: &mut Random) -> Vec<u8> {
    let any = random.below(bytes.len());
    let length = random.one_of(&[any, any, any.min(13), bytes.len() - 1]);
    bytes[..length].to_vec()
}
