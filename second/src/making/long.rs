//! Files made for a best chain of a known number of steps. Identifiers that
//! rewrite to two or three of the next one make thousands of steps from few
//! certificates; identifiers that each rewrite to one other make many passes.

use super::question::{places, Question};
use super::random::Random;
use crate::decision::Request;
use crate::wac::{self, Certificate, ACCESS_ONLY, MAY_DELEGATE};

/// The chain's certificates so far; all end at `end` or later.
struct Path {
    certificates: Vec<Certificate>,
    not_before: u32,
    end: u32,
    steps: u32,
}

/// A question whose best chain takes a number of steps about the limit, or
/// many more, or many passes.
pub fn question(random: &mut Random) -> Question {
    match random.below(8) {
        0 => multiplied(random),
        1 | 2 => single(random),
        _ => {
            let steps = random.one_of(&[199, 200, 201, 202]);
            exactly(steps, random)
        }
    }
}

/// A best chain of exactly so many steps, at least 3.
pub fn exactly(steps: u32, random: &mut Random) -> Question {
    made(random, |path, keys, random| {
        path.add_stages(keys, steps, random)
    })
}

/// A best chain of up to 29,525 steps, by few certificates.
pub fn multiplied(random: &mut Random) -> Question {
    made(random, |path, keys, random| {
        path.add_multiplied(keys[0], keys[1], random)
    })
}

/// A best chain of up to 121 steps that takes as many passes.
pub fn single(random: &mut Random) -> Question {
    made(random, |path, keys, random| {
        path.add_single(keys[0], keys[1], random)
    })
}

/// A question about a path from the first of the keys to the second.
fn made(random: &mut Random, fill: impl Fn(&mut Path, &[u8], &mut Random)) -> Question {
    let at = random.within(1, 1_000) as u32;
    let mut path = Path {
        certificates: Vec::new(),
        not_before: at,
        end: at + random.within(1, 1_000) as u32,
        steps: 0,
    };
    let keys = shuffled((0..16).collect(), random);
    fill(&mut path, &keys, random);
    path.finish(keys[0], keys[1], random)
}

impl Path {
    fn add(&mut self, certificate: Certificate, random: &mut Random) {
        self.certificates.push(Certificate {
            not_before: random.within(0, self.not_before as usize) as u32,
            not_after: self.end + random.below(3) as u32,
            ..certificate
        });
    }

    /// Owner to asker in exactly `steps`, over one to three authorizations.
    fn add_stages(&mut self, keys: &[u8], steps: u32, random: &mut Random) {
        let stages = random.within(1, 3) as u32;
        let mut from = keys[0];
        for stage in (0..stages).rev() {
            let to = keys[1 + stage as usize];
            let most = steps - self.steps - stage;
            let own = match stage {
                0 => most,
                _ => random.within(1, most as usize) as u32,
            };
            self.add_stage((from, to), own, stage == 0, random);
            from = to;
        }
    }

    /// One authorization whose subject's identifiers take the steps left.
    fn add_stage(&mut self, keys: (u8, u8), steps: u32, last: bool, random: &mut Random) {
        let (from, to) = keys;
        let names = loop {
            if let Some(names) = Names::taking(steps - 1, random) {
                break names;
            }
        };
        let mark = match last {
            true => random.one_of(&[MAY_DELEGATE, ACCESS_ONLY]),
            false => MAY_DELEGATE,
        };
        self.add(
            Certificate::authorization(from, to, &names.first, mark),
            random,
        );
        for (left, subject) in &names.written {
            self.add(Certificate::name(to, *left, to, subject), random);
        }
        self.steps += steps;
    }

    /// Identifiers that each rewrite to one, two or three of the next.
    fn add_multiplied(&mut self, owner: u8, asker: u8, random: &mut Random) {
        let identifiers = shuffled((0..10).collect(), random);
        let mut steps = 1;
        self.add(Certificate::name(asker, identifiers[0], asker, &[]), random);
        for pair in identifiers.windows(2) {
            let times = random.one_of(&[1, 2, 2, 2, 3, 3]);
            self.add(
                Certificate::name(asker, pair[1], asker, &vec![pair[0]; times]),
                random,
            );
            steps = 1 + steps * times as u32;
        }
        let last = [identifiers[9]];
        self.add(
            Certificate::authorization(owner, asker, &last, ACCESS_ONLY),
            random,
        );
        self.steps = 1 + steps;
    }

    /// Names of many keys, each of which rewrites to one other.
    fn add_single(&mut self, owner: u8, asker: u8, random: &mut Random) {
        let pairs = (0..160).map(|pair| (pair / 10, pair % 10)).collect();
        let mut pairs: Vec<(u8, u8)> = shuffled(pairs, random);
        pairs.truncate(random.within(1, 120));
        let (key, identifier) = pairs[0];
        self.add(
            Certificate::authorization(owner, key, &[identifier], MAY_DELEGATE),
            random,
        );
        for pair in pairs.windows(2) {
            let [(from, left), (to, next)] = [pair[0], pair[1]];
            self.add(Certificate::name(from, left, to, &[next]), random);
        }
        let (key, identifier) = pairs[pairs.len() - 1];
        self.add(Certificate::name(key, identifier, asker, &[]), random);
        self.steps = 1 + pairs.len() as u32;
    }

    /// One certificate ends the chain; shorter ways end a minute earlier.
    fn finish(mut self, owner: u8, asker: u8, random: &mut Random) -> Question {
        let ending = random.below(self.certificates.len());
        self.certificates[ending].not_after = self.end;
        for _ in 0..random.below(4) {
            let mut shorter = Certificate::authorization(owner, asker, &[], MAY_DELEGATE);
            shorter.not_after = self.end - random.within(1, 2) as u32;
            self.certificates.push(shorter);
        }
        let certificates = shuffled(self.certificates, random);
        Question {
            file: wac::file_of(&certificates),
            request: Request {
                owner,
                asker,
                rights: random.one_of(&[1, 2, 2, 4, 15]),
                at: self.not_before,
            },
            places: places(random),
            known: Some(self.steps),
        }
    }
}

/// Identifiers of one key: those a subject names, and what each rewrites to.
struct Names {
    first: Vec<u8>,
    written: Vec<(u8, Vec<u8>)>,
    /// Each identifier that is needed and its steps.
    needed: Vec<(u32, u8)>,
}

impl Names {
    /// Up to three identifiers that take so many steps together; none if
    /// that needs more than ten.
    fn taking(steps: u32, random: &mut Random) -> Option<Names> {
        let mut names = Names {
            first: Vec::new(),
            written: Vec::new(),
            needed: Vec::new(),
        };
        names.first = names.subject(steps, random)?;
        let mut next = 0;
        while next < names.needed.len() {
            let (steps, identifier) = names.needed[next];
            let subject = names.subject(steps - 1, random)?;
            names.written.push((identifier, subject));
            next += 1;
        }
        Some(names)
    }

    /// A subject that takes exactly so many steps to read.
    fn subject(&mut self, steps: u32, random: &mut Random) -> Option<Vec<u8>> {
        if steps == 0 {
            return Some(Vec::new());
        }
        let parts = random.within(1, 3.min(steps as usize)) as u32;
        let mut each = vec![steps / parts; parts as usize];
        each[0] += steps % parts;
        each.into_iter().map(|part| self.identifier(part)).collect()
    }

    /// The identifier that takes so many steps, a new one if there is none.
    fn identifier(&mut self, steps: u32) -> Option<u8> {
        if let Some(&(_, known)) = self.needed.iter().find(|(taken, _)| *taken == steps) {
            return Some(known);
        }
        let new = Some(self.needed.len() as u8).filter(|&new| new < 10)?;
        self.needed.push((steps, new));
        Some(new)
    }
}

fn shuffled<T>(mut all: Vec<T>, random: &mut Random) -> Vec<T> {
    for place in (1..all.len()).rev() {
        all.swap(place, random.below(place + 1));
    }
    all
}
