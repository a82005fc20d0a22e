//! Makes questions: files of many and few keys, dense name chains, equal and
//! nearly equal dates, certificates that are not usable, damaged files; and
//! requests of every kind.

use super::question::{bend, places, Question};
use super::random::Random;
use super::{files, long};
use crate::decision::reach::is_granted;
use crate::decision::{rules, Request};
use crate::wac::{self, Certificate, ACCESS_ONLY, MAY_DELEGATE, MOST};

/// What the certificates of one file have in common.
struct Style {
    count: usize,
    keys: Vec<u8>,
    /// The keys that issue: all, or a few.
    issuers: Vec<u8>,
    identifiers: Vec<u8>,
    /// Whether names only lead to later identifiers and authorizations to
    /// later keys, which makes deep chains of many lengths and minutes.
    layered: bool,
    lengths: &'static [usize],
    /// Names among four certificates.
    names: usize,
    /// One certificate in so many is not usable.
    spoiled: usize,
    at: u32,
    ends: Vec<u32>,
    rights: Vec<u8>,
}

/// Subjects of mostly nothing, of every length, of mostly two and three.
const LENGTHS: [&[usize]; 4] = [
    &[0, 0, 0, 1],
    &[0, 0, 1, 1, 2, 3],
    &[0, 1, 2, 3],
    &[0, 2, 2, 3, 3],
];

/// A question at random: one in 20 made for its long chain, one file in 12
/// damaged, one request in 10 at a limit or past it.
pub fn question(random: &mut Random) -> Question {
    if random.once_in(20) {
        return long::question(random);
    }
    let at = minute(random);
    let request = request(at, random);
    let style = match random.once_in(2) {
        true => layered_style(request, random),
        false => style(request, random),
    };
    let certificates: Vec<Certificate> = (0..style.count)
        .map(|_| certificate(&style, random))
        .collect();
    let mut file = wac::file_of(&certificates);
    if random.once_in(12) {
        for _ in 0..random.within(1, 2) {
            files::damage(&mut file, random);
        }
    }
    let mut request = placed(request, &style, random);
    if random.once_in(2) {
        request.asker = granted_asker(&certificates, request, random);
    }
    if random.once_in(10) {
        bend(&mut request, random);
    }
    Question {
        file,
        request,
        places: places(random),
        known: None,
    }
}

fn count(random: &mut Random) -> usize {
    match random.below(100) {
        0..=24 => random.within(0, 8),
        25..=77 => random.within(8, 24),
        78..=94 => random.within(24, 64),
        95..=97 => random.within(64, MOST),
        98 => MOST - 1,
        _ => MOST,
    }
}

fn minute(random: &mut Random) -> u32 {
    let any = (random.number() as u32).max(1);
    random.one_of(&[1, 2, 100, 100, any, any, u32::MAX - 1, u32::MAX])
}

fn request(at: u32, random: &mut Random) -> Request {
    let any = random.within(1, 15) as u8;
    Request {
        owner: 0,
        asker: 0,
        rights: random.one_of(&[1, 2, 2, 2, 4, 8, 6, 15, any, any]),
        at,
    }
}

/// Owner and asker among the file's keys, once in 20 the same.
fn placed(request: Request, style: &Style, random: &mut Random) -> Request {
    let owner = random.one_of(&style.issuers);
    let others: Vec<u8> = style
        .keys
        .iter()
        .copied()
        .filter(|&key| key != owner)
        .collect();
    let (first, last) = (style.keys[0], style.keys[style.keys.len() - 1]);
    let (owner, asker) = match random.below(20) {
        0 => (owner, owner),
        1..=12 if style.layered => (first, last),
        _ => (owner, random.one_of(&others)),
    };
    Request {
        owner,
        asker,
        ..request
    }
}

/// An asker other than the owner to whom a chain leads, if there is one.
fn granted_asker(certificates: &[Certificate], request: Request, random: &mut Random) -> u8 {
    let rules = rules::usable(certificates, request);
    let owner = usize::from(request.owner);
    let granted = (0..16).filter(|&asker| asker != owner && is_granted(&rules, owner, asker));
    match granted.collect::<Vec<usize>>().as_slice() {
        [] => request.asker,
        askers => random.one_of(askers) as u8,
    }
}

fn style(request: Request, random: &mut Random) -> Style {
    let keys = some_of(16, &[2, 3, 4, 6, 16, 16], random);
    let few = random.one_of(&[2, 3, keys.len()]).min(keys.len());
    Style {
        count: count(random),
        issuers: keys[..few].to_vec(),
        keys,
        identifiers: some_of(10, &[1, 2, 3, 5, 10], random),
        layered: false,
        lengths: random.one_of(&LENGTHS),
        names: random.within(1, 3),
        spoiled: random.one_of(&[2, 4, 10, 1_000]),
        at: request.at,
        ends: ends(request.at, random),
        rights: rights(request.rights, random),
    }
}

/// Enough names of few keys that most are reached.
fn layered_style(request: Request, random: &mut Random) -> Style {
    let keys = some_of(16, &[3, 4, 5, 6, 10], random);
    let identifiers = some_of(10, &[1, 2, 3, 4], random);
    let names = keys.len() * identifiers.len();
    Style {
        count: random.within(names, names + names / 2 + 12),
        issuers: keys.clone(),
        keys,
        identifiers,
        layered: true,
        names: random.within(2, 3),
        spoiled: random.one_of(&[6, 20, 1_000]),
        ..style(request, random)
    }
}

/// A few of the numbers below `all`, beginning anywhere.
fn some_of(all: usize, sizes: &[usize], random: &mut Random) -> Vec<u8> {
    let first = random.below(all);
    let size = random.one_of(sizes);
    (0..size).map(|more| ((first + more) % all) as u8).collect()
}

/// Not-after minutes: one for all, some that are nearly equal, or any.
fn ends(at: u32, random: &mut Random) -> Vec<u32> {
    let later = at.saturating_add(random.below(5_000) as u32);
    match random.below(4) {
        0 => vec![later],
        1 => (0..3).map(|more| later.saturating_add(more)).collect(),
        2 => vec![at, at.saturating_add(1), later, u32::MAX],
        _ => (0..20)
            .map(|_| at.saturating_add(random.below(100) as u32))
            .collect(),
    }
}

/// Rights of the authorizations: enough, or some that are not.
fn rights(asked: u8, random: &mut Random) -> Vec<u8> {
    let more = asked | random.within(0, 15) as u8;
    let less = asked & random.within(0, 15) as u8;
    match random.below(4) {
        0 => vec![15],
        1 => vec![asked, more, 15],
        2 => vec![asked, more, 15, 15, less],
        _ => vec![asked, more, less, 15 & !asked, 0, 15],
    }
}

fn certificate(style: &Style, random: &mut Random) -> Certificate {
    let dated = match random.below(4) < style.names {
        true => a_name(style, random),
        false => an_authorization(style, random),
    };
    let (not_before, not_after) = dates(style, random);
    Certificate {
        not_before,
        not_after,
        ..dated
    }
}

fn a_name(style: &Style, random: &mut Random) -> Certificate {
    let place = random.below(style.identifiers.len());
    let later = match style.layered {
        true => &style.identifiers[place + 1..],
        false => &style.identifiers,
    };
    let issuer = random.one_of(&style.issuers);
    let subject = match style.layered {
        true => random.one_of(&style.issuers),
        false => random.one_of(&style.keys),
    };
    let subjects = subjects(later, style, random);
    Certificate::name(issuer, style.identifiers[place], subject, &subjects)
}

fn an_authorization(style: &Style, random: &mut Random) -> Certificate {
    let last = style.keys.len() - 1;
    let mark = random.one_of(&[MAY_DELEGATE, MAY_DELEGATE, ACCESS_ONLY]);
    let subjects = subjects(&style.identifiers, style, random);
    let (issuer, subject) = if style.layered {
        let place = random.below(last + 1);
        let later = (place + random.within(1, 2)).min(last);
        (style.keys[place], style.keys[later])
    } else {
        let issuer = random.one_of(&style.issuers);
        (issuer, random.one_of(&style.keys))
    };
    Certificate {
        rights: random.one_of(&style.rights),
        ..Certificate::authorization(issuer, subject, &subjects, mark)
    }
}

/// The identifiers of a subject, out of these.
fn subjects(identifiers: &[u8], style: &Style, random: &mut Random) -> Vec<u8> {
    let length = match identifiers {
        [] => 0,
        _ => random.one_of(style.lengths),
    };
    (0..length).map(|_| random.one_of(identifiers)).collect()
}

/// Dates about T, now and then ended or not yet begun.
fn dates(style: &Style, random: &mut Random) -> (u32, u32) {
    let (at, end) = (style.at, random.one_of(&style.ends));
    let before = random.one_of(&[0, 1, at - 1, at, at]);
    if !random.once_in(style.spoiled) {
        return (before, end);
    }
    match random.below(4) {
        0 => (before, at - 1),
        1 => (at.saturating_add(1), end),
        2 => (end, before),
        _ => (at.saturating_add(random.below(9) as u32), end),
    }
}
