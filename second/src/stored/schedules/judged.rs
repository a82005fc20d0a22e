//! P11 of document 01, and the same halves in other orders and under the
//! requests of P1 to P10.

use super::schedule::{halves, Schedule};
use crate::decision::Request;
use crate::sites::acts::Act::{Bring, Full, Work, Write};
use crate::sites::acts::Side::{A, B};
use crate::sites::opening::Opening;

/// Asker, rights and T of P2 to P9.
const REQUESTS: [(&str, u8, u8, u32); 8] = [
    ("p2", 4, 2, 100),
    ("p3", 4, 6, 100),
    ("p4", 4, 8, 100),
    ("p5", 3, 8, 100),
    ("p6", 6, 2, 100),
    ("p7-owner-is-asker", 0, 4, 100),
    ("p8", 4, 4, 5_000),
    ("p9", 4, 4, 5_001),
];

/// The input of P11: two full exchanges, A first.
pub fn eleventh() -> Vec<u8> {
    halves().input(&[Full(A), Full(A)])
}

pub fn schedules() -> Vec<Schedule> {
    let halves = halves();
    let [first, second] = halves.files.clone();
    let swapped = Opening {
        files: [second, first],
        ..halves.clone()
    };
    let mut schedules = vec![
        Schedule::new("p11-a-first", &halves, &[Full(A), Full(A), Full(A)]),
        Schedule::new("p11-b-first", &halves, &[Full(B), Full(B), Full(B)]),
        Schedule::new("p11-swapped-a-first", &swapped, &[Full(A), Full(A)]),
        Schedule::new("p11-swapped-b-first", &swapped, &[Full(B), Full(B)]),
        Schedule::new("p11-by-turns", &halves, &[Full(A), Full(B), Full(A)]),
        by_hand(&halves),
    ];
    for (name, asker, rights, at) in REQUESTS {
        let request = Request {
            asker,
            rights,
            at,
            ..halves.request
        };
        let asked = Opening {
            request,
            ..halves.clone()
        };
        schedules.push(Schedule::new(name, &asked, &[Full(A), Full(A), Full(B)]));
    }
    schedules
}

/// P11 note by note: B's three entries go to A, A works and answers.
fn by_hand(halves: &Opening) -> Schedule {
    let mut acts = vec![Work(A), Work(B), Write(A, 0), Write(B, 0), Bring(A, 0)];
    for place in 0..6 {
        acts.extend([Bring(B, place), Bring(A, place), Write(B, 0)]);
    }
    acts.extend([Work(A), Write(A, 0), Bring(A, 65_535), Work(B)]);
    for place in 0..9 {
        acts.extend([Bring(A, place), Bring(B, place)]);
    }
    Schedule::new("p11-by-hand", halves, &acts)
}
