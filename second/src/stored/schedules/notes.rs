//! Notes from outside: each field out of range and at its limits, another
//! session, receipts for later minutes, and which ground comes first.

use super::schedule::{halves, Schedule, SESSION};
use crate::sites::acts::Act::{self, Full, Hand, Work, Write};
use crate::sites::acts::Side::{self, A, B};
use crate::sites::notes::Bytes;

/// The owner's mark 10 entry, as the fields key, symbol and arrival.
const OWNERS: [u8; 3] = [0, 10, 16];
/// Key 1 reads identifier 1 and arrives at key 2.
const NAMED: [u8; 3] = [1, 1, 2];

const RAISE: u8 = 1;
const RECEIPT: u8 = 2;

fn note(session: u32, kind: u8, [key, symbol, arrival]: [u8; 3], minute: u32) -> Bytes {
    let mut bytes = [0; 12];
    bytes[..4].copy_from_slice(&session.to_be_bytes());
    bytes[4..8].copy_from_slice(&[kind, key, symbol, arrival]);
    bytes[8..].copy_from_slice(&minute.to_be_bytes());
    bytes
}

/// Brings each of the notes to both sites before and after they worked.
fn handed(name: &str, notes: &[Bytes]) -> Schedule {
    let each = |side: Side| notes.iter().map(move |&note| Hand(side, note));
    let mut acts: Vec<Act> = Side::BOTH.into_iter().flat_map(each).collect();
    let again = acts.clone();
    acts.extend([Full(A)]);
    acts.extend(again);
    acts.extend([Full(A), Full(A), Full(B)]);
    Schedule::new(name, &halves(), &acts)
}

/// Notes about these entries, both kinds of each.
fn about(entries: &[[u8; 3]], minute: u32) -> Vec<Bytes> {
    let both = |&entry| [RAISE, RECEIPT].map(|kind| note(SESSION, kind, entry, minute));
    entries.iter().flat_map(both).collect()
}

pub fn schedules() -> Vec<Schedule> {
    let kinds = [0, 3, 4, 255].map(|kind| note(SESSION, kind, NAMED, 50));
    let keys = [[16, 1, 2], [255, 1, 2], [16, 10, 16]];
    let symbols = [[1, 11, 16], [1, 12, 16], [1, 255, 16], [1, 11, 2]];
    let arrivals = [[1, 1, 16], [1, 1, 17], [1, 9, 255], [1, 0, 16]];
    let ends = [[1, 10, 15], [1, 10, 0], [1, 10, 17], [0, 10, 255]];
    let limits = [[0, 0, 0], [15, 9, 15], [15, 0, 15], [15, 10, 16]];
    vec![
        handed("note-27-kind", &kinds),
        handed("note-27-key", &about(&keys, 50)),
        handed("note-27-symbol", &about(&symbols, 50)),
        handed("note-27-arrival", &about(&arrivals, 50)),
        handed("note-27-end-place", &about(&ends, 50)),
        handed("note-27-minute", &about(&[NAMED, OWNERS], 0)),
        handed("note-27-before-26", &before_26()),
        handed("note-26", &foreign()),
        handed("note-26-before-28", &[note(6, RECEIPT, NAMED, u32::MAX)]),
        handed("note-lowest-minute", &about(&limits, 1)),
        handed("note-greatest-minute", &about(&limits, u32::MAX)),
        handed("note-askers-mark", &about(&[[4, 10, 16]], 50)),
        handed(
            "note-askers-mark-without-end",
            &about(&[[4, 10, 16]], u32::MAX),
        ),
        later_receipts(),
        raised_by_hand(),
    ]
}

/// Out of range and of another session: 27.
fn before_26() -> Vec<Bytes> {
    vec![
        note(8, 0, NAMED, 50),
        note(8, RAISE, [16, 1, 2], 50),
        note(8, RECEIPT, [1, 11, 16], 50),
        note(8, RAISE, NAMED, 0),
        [255; 12],
        [0; 12],
    ]
}

/// Sessions that differ in one byte each.
fn foreign() -> Vec<Bytes> {
    let sessions = [6, 8, 0, 7 + (1 << 8), 7 + (1 << 16), 7 + (1 << 24), 7 << 24];
    let mut notes = Vec::new();
    for session in sessions {
        notes.push(note(session, RAISE, NAMED, 9_000));
        notes.push(note(session, RECEIPT, OWNERS, 1));
    }
    notes
}

/// Receipts one minute above, at and below what B holds; A holds nothing.
fn later_receipts() -> Schedule {
    let receipts = [5_001, 5_000, 4_999, 1].map(|minute| note(SESSION, RECEIPT, NAMED, minute));
    let mut acts = vec![Hand(A, receipts[0]), Hand(B, receipts[3]), Work(B)];
    for receipt in [receipts[0], receipts[3], receipts[2]] {
        acts.extend([Hand(B, receipt), Write(B, 0)]);
    }
    acts.extend([Hand(B, receipts[1]), Write(B, 0)]);
    acts.extend(receipts.map(|receipt| Hand(A, receipt)));
    Schedule::new("note-28", &halves(), &acts)
}

/// Raises that are no site's own: what is below, at and above what B holds.
fn raised_by_hand() -> Schedule {
    let mut acts = vec![Work(B)];
    for minute in [4_999, 5_000, 5_001, 5_000, u32::MAX, 1] {
        acts.extend([Hand(B, note(SESSION, RAISE, NAMED, minute)), Write(B, 0)]);
        acts.push(Work(B));
    }
    acts.extend([Full(B), Full(B), Full(B)]);
    Schedule::new("note-raises", &halves(), &acts)
}
