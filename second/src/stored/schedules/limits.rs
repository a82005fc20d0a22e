//! The last entry numbers, lists that are full, acts that end the run, full
//! files, and a name handed on between the sites.

use super::schedule::{after, between, halves, Schedule};
use crate::decision::Request;
use crate::making::dense;
use crate::making::random::Random;
use crate::making::scheduling::EXCHANGES;
use crate::sites::acts::Act::{self, Bring, Full, Hand, Work, Write};
use crate::sites::acts::Side::{self, A, B};
use crate::sites::exchange::KEPT;
use crate::sites::notes::{Kind, Note};
use crate::sites::opening::Opening;
use crate::stored::counts::relay;
use crate::stored::judged::REQUEST;
use crate::wac::{Certificate, ACCESS_ONLY, MOST};

/// Seed of the dense files.
const SEED: u64 = 30;

pub fn schedules() -> Vec<Schedule> {
    let mut schedules = vec![last_entries(), counted_round(), no_notes(), full_lists()];
    schedules.extend(ended());
    schedules.extend(full_files());
    schedules.extend(handed_on());
    schedules
}

/// The last entry that can have a note is 2,575; from 2,576 on there is none.
fn last_entries() -> Schedule {
    let grant = |key| Certificate::authorization(key, 4, &[], ACCESS_ONLY).until(300);
    let opening = between(
        &[grant(15)],
        &[grant(14), Certificate::name(15, 9, 15, &[])],
    );
    let mut acts = Vec::new();
    for _ in 0..2 {
        for from in [0, 2_559, 2_560, 2_574, 2_575, 2_576, 2_591, 2_592, 65_535] {
            acts.extend([Write(A, from), Write(B, from)]);
        }
        acts.extend([Work(A), Work(B)]);
    }
    Schedule::new("limit-entries", &opening, &acts)
}

/// A note's number counts round what is kept.
fn counted_round() -> Schedule {
    let mut acts = vec![Full(A), Full(A)];
    for place in (0..16).chain([300, 65_533, 65_534, 65_535]) {
        acts.extend([Bring(B, place), Bring(A, place)]);
    }
    Schedule::new("limit-note-numbers", &halves(), &acts)
}

/// There is nothing to bring.
fn no_notes() -> Schedule {
    let mut acts = Vec::new();
    for place in [0, 1, 65_535] {
        acts.extend([Bring(A, place), Bring(B, place)]);
    }
    acts.extend([Work(A), Bring(A, 0), Bring(B, 0)]);
    Schedule::new("limit-no-notes", &halves(), &acts)
}

/// Runs that an act ends before the input does.
fn ended() -> Vec<Schedule> {
    let note = after(&halves(), &[Full(A)]).written(A)[0];
    let cut = |act: Act| {
        let bytes = act.bytes();
        bytes[..bytes.len() - 1].to_vec()
    };
    let ends = [
        ("ended-act-10", vec![10, 0, 1]),
        ("ended-act-255", vec![255]),
        ("ended-write-cut", cut(Write(A, 0))),
        ("ended-write-alone", vec![3]),
        ("ended-bring-cut", cut(Bring(B, 0))),
        ("ended-bring-alone", vec![4]),
        ("ended-note-cut", cut(Hand(B, note))),
        ("ended-note-alone", vec![8]),
    ];
    let acts = [Full(A), Work(B)];
    let schedule =
        |(name, after): (&str, Vec<u8>)| Schedule::followed(name, &halves(), &acts, &after);
    ends.map(schedule).into()
}

/// Two files of 128 certificates.
fn dense_files(sort: (usize, usize)) -> Opening {
    let mut random = Random::new(SEED);
    let [first, second] = [0, 1].map(|_| dense::certificates(MOST, sort, &mut random));
    between(&first, &second)
}

fn full_files() -> Vec<Schedule> {
    let sorts = [("five", (5, 4)), ("nine", (9, 6)), ("sixteen", (16, 10))];
    let mut schedules = Vec::new();
    for (words, sort) in sorts {
        let opening = dense_files(sort);
        for side in Side::BOTH {
            let name = format!("full-files-{words}-keys-{side}-first").to_lowercase();
            schedules.push(until_rest(&name, &opening, side));
        }
    }
    schedules
}

/// Full exchanges until both rest, and one more.
fn until_rest(name: &str, opening: &Opening, first: Side) -> Schedule {
    let mut exchange = after(opening, &[]);
    let mut acts = vec![Full(first)];
    while !exchange.both_rest() {
        exchange.act(Full(first));
        acts.push(Full(first));
        assert!(acts.len() <= EXCHANGES + 1, "{name} does not come to rest");
    }
    Schedule::new(name, opening, &acts)
}

/// A name that goes through certificates of A and B by turns, so that each
/// exchange hands it on by one or two.
fn handed_on() -> Vec<Schedule> {
    let (mut first, mut second) = (Vec::new(), Vec::new());
    for (number, certificate) in relay(MOST).into_iter().enumerate() {
        match number % 2 {
            0 => first.push(certificate),
            _ => second.push(certificate),
        }
    }
    let opening = Opening {
        request: Request {
            owner: 0,
            asker: 15,
            rights: 2,
            at: 50,
        },
        ..between(&first, &second)
    };
    vec![
        until_rest("handed-on-a-first", &opening, A),
        until_rest("handed-on-b-first", &opening, B),
    ]
}

/// Two sites that write more than 4,096 notes each in two exchanges: what A
/// knows by itself up to minute 100, it knows with B up to 200.
fn many_notes() -> Opening {
    let (mut first, mut second) = (Vec::new(), Vec::new());
    for key in 0..16 {
        let reaches = [
            Certificate::name(key, 0, key, &[]),
            Certificate::name(key, 0, (key + 1) % 16, &[0]),
        ];
        first.extend(reaches.map(|name| name.until(100)));
        second.extend(reaches.map(|name| name.until(200)));
        let same = |identifier| Certificate::name(key, identifier, key, &[0]).until(300);
        first.extend((1..7).map(same));
        second.extend((7..10).map(same));
    }
    between(&first, &second)
}

/// Both lists are full: a note's number counts round 4,096, and what is written
/// then is said but lost.
fn full_lists() -> Schedule {
    let opening = Opening {
        request: Request { at: 50, ..REQUEST },
        ..many_notes()
    };
    let mut acts = vec![Full(A), Full(A)];
    let exchange = after(&opening, &acts);
    let full = |&side: &Side| exchange.written(side).len() == KEPT;
    assert!(Side::BOTH.iter().all(full), "both lists are full");
    for place in (0..=u16::MAX).step_by(997) {
        acts.extend([Bring(A, place), Bring(B, place)]);
    }
    let later = Note {
        session: opening.session,
        kind: Kind::Raise,
        entry: (3, 0, 3),
        minute: 250,
    };
    acts.extend([
        Hand(A, later.bytes()),
        Work(A),
        Write(A, 0),
        Write(A, 1_000),
    ]);
    acts.extend([4_094, 4_095, 4_096, 4_097].map(|place| Bring(A, place)));
    acts.extend([Full(B), Write(A, 0), Write(B, 0), Full(B)]);
    Schedule::new("limit-full-lists", &opening, &acts)
}
