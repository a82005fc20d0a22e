//! Openings that are refused: 9 to 15 and 20 to 22, on either side, alone and
//! with others, of which A's comes before B's and the lowest first.

use super::schedule::{halves, Schedule};
use crate::decision::Request;
use crate::sites::acts::Act::Full;
use crate::sites::acts::Side::{self, A};
use crate::sites::opening::Opening;
use crate::wac::{file_of, Certificate, HEAD, RECORD};

/// What is done to a file, and the number by which it is then refused.
type Ground = (u32, fn(&mut Vec<u8>));

/// What is done to a request, and the schedule's name.
type Bent = (&'static str, fn(&mut Request));

const GROUNDS: [Ground; 6] = [
    (10, |file| file.truncate(HEAD - 1)),
    (11, |file| file[2] = b'D'),
    (12, |file| file[3] = 1),
    (13, |file| *file = too_many()),
    (14, |file| file.push(0)),
    (15, |file| file[HEAD + RECORD] = 3),
];

pub fn schedules() -> Vec<Schedule> {
    let mut schedules = cut_off();
    for side in Side::BOTH {
        for (number, damage) in GROUNDS {
            let mut opening = halves();
            damage(&mut opening.files[side as usize]);
            let name = format!("opening-{number}-{side}").to_lowercase();
            schedules.push(refused(&name, &opening));
        }
    }
    schedules.extend(requests());
    schedules.extend(several());
    schedules.extend(lengths());
    schedules
}

/// The opening with an act after it.
fn refused(name: &str, opening: &Opening) -> Schedule {
    Schedule::new(name, opening, &[Full(A)])
}

fn too_many() -> Vec<u8> {
    file_of(&[Certificate::name(1, 1, 2, &[]); 129])
}

/// The input of P11 cut off before its acts: within the request, the session,
/// the first length, A's file, the second length and B's file.
fn cut_off() -> Vec<Schedule> {
    let whole = halves().bytes();
    let second = 7 + 4 + 2 + HEAD + 2 * RECORD;
    let lengths = [0, 6, 10, 12, second - 1, second + 1, whole.len() - 1];
    let cut = |length: usize| Schedule {
        name: format!("opening-9-after-{length}"),
        input: whole[..length].to_vec(),
    };
    lengths.into_iter().map(cut).collect()
}

fn requests() -> Vec<Schedule> {
    let bent: [Bent; 8] = [
        ("opening-20-owner", |request| request.owner = 16),
        ("opening-20-asker", |request| request.asker = 16),
        ("opening-20-both", |request| {
            (request.owner, request.asker) = (255, 255)
        }),
        ("opening-21-none", |request| request.rights = 0),
        ("opening-21-above", |request| request.rights = 16),
        ("opening-22", |request| request.at = 0),
        ("opening-20-before-21", |request| {
            (request.asker, request.rights, request.at) = (16, 0, 0)
        }),
        ("opening-21-before-22", |request| {
            (request.rights, request.at) = (16, 0)
        }),
    ];
    let schedule = |(name, bend): Bent| {
        let mut opening = halves();
        bend(&mut opening.request);
        refused(name, &opening)
    };
    bent.map(schedule).into()
}

/// Several grounds at once.
fn several() -> Vec<Schedule> {
    let spoiled = |changes: &[(Side, usize, u8)]| {
        let mut opening = halves();
        for &(side, place, byte) in changes {
            opening.files[side as usize][place] = byte;
        }
        opening
    };
    let record = |number: usize| HEAD + RECORD * number;
    let both = spoiled(&[(Side::A, record(1), 0), (Side::B, 0, 0)]);
    let lowest = spoiled(&[(Side::B, record(4) + 1, 16), (Side::B, record(2) + 8, 0)]);
    let head = spoiled(&[(Side::A, 4, 2), (Side::A, 5, 200), (Side::A, record(0), 9)]);
    let mut fifteen = spoiled(&[(Side::A, record(0), 0)]);
    fifteen.request.owner = 16;
    fifteen.request.at = 0;
    let mut request = spoiled(&[(Side::B, 1, 0)]);
    request.request.rights = 0;
    let spoiled_and_cut = both.bytes();
    vec![
        refused("opening-15-a-before-11-b", &both),
        refused("opening-15-lowest-record", &lowest),
        refused("opening-12-before-13", &head),
        refused("opening-15-before-20", &fifteen),
        refused("opening-21-a-before-11-b", &request),
        Schedule {
            name: "opening-9-before-15".to_string(),
            input: spoiled_and_cut[..spoiled_and_cut.len() - 1].to_vec(),
        },
    ]
}

/// Files of no bytes, and longer than any lawful one.
fn lengths() -> Vec<Schedule> {
    let resized = |name: &str, side: Side, length: usize| {
        let mut opening = halves();
        opening.files[side as usize].resize(length, 1);
        refused(name, &opening)
    };
    let mut wide = halves();
    wide.files[0].resize(12_000, 1);
    wide.files[0][0] = 0;
    vec![
        resized("opening-10-no-bytes", Side::A, 0),
        resized("opening-14-long-a", Side::A, 3_000),
        resized("opening-14-long-b", Side::B, 5_000),
        resized("opening-14-longest-b", Side::B, 65_535),
        refused("opening-11-long-a", &wide),
    ]
}
