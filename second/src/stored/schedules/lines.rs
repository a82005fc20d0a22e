//! What a line does to notes: loss, repetition, delay, reordering, replay; and
//! what a site must not take for more than it is.

use super::schedule::{after, between, halves, Schedule};
use crate::decision::Request;
use crate::sites::acts::Act::{self, Bring, Full, Hand, Work, Write};
use crate::sites::acts::Side::{self, A, B};
use crate::sites::exchange::Exchange;
use crate::sites::number;
use crate::sites::opening::Opening;
use crate::stored::judged::{certificates, REQUEST};
use crate::wac::{file_of, Certificate, ACCESS_ONLY};

pub fn schedules() -> Vec<Schedule> {
    vec![
        loss(),
        repetition(),
        delay(),
        reordering(),
        replay_after_rest(),
        foreign_session(),
        older_receipt(),
        receipts_lost(),
        raised_not_worked(),
        rest_without_work(),
        held_by("half-empty-a", &[], &certificates()),
        held_by("half-empty-b", &certificates(), &[]),
        held_by("halves-empty", &[], &[]),
        held_by("halves-equal", &certificates(), &certificates()),
        owner_is_asker(),
        no_acts(),
    ]
}

/// B works and writes so many notes, each from the entry after the last.
fn all_of_b(notes: usize) -> Vec<Act> {
    let exchange = after(&halves(), &[Work(B)]);
    let mut acts = vec![Work(B)];
    let mut from = 0;
    for _ in 0..notes {
        acts.push(Write(B, from));
        let note = exchange.site(B).next(from.into());
        let note = note.expect("B has so many notes");
        from = number(note.entry) as u16 + 1;
    }
    acts
}

/// Two of B's four notes are never brought, until the exchanges send them again.
fn loss() -> Schedule {
    let mut acts = all_of_b(4);
    acts.extend([Bring(B, 0), Bring(B, 3), Work(A), Write(A, 0), Bring(A, 0)]);
    acts.extend([Full(A), Full(A), Full(A)]);
    Schedule::new("line-loss", &halves(), &acts)
}

fn repetition() -> Schedule {
    let mut acts = all_of_b(2);
    for _ in 0..3 {
        acts.extend([Bring(B, 0), Bring(B, 1), Work(A), Bring(A, 0), Bring(A, 0)]);
    }
    acts.extend([Full(B), Bring(B, 0), Bring(A, 1), Full(B), Full(B)]);
    Schedule::new("line-repetition", &halves(), &acts)
}

/// The first notes arrive when all is settled without them.
fn delay() -> Schedule {
    let mut acts = all_of_b(4);
    acts.extend([Full(A), Full(A)]);
    acts.extend((0..4).map(|place| Bring(B, place)));
    acts.extend((0..8).map(|place| Bring(A, place)));
    Schedule::new("line-delay", &halves(), &acts)
}

/// Notes and receipts in turned order.
fn reordering() -> Schedule {
    let mut acts = all_of_b(4);
    acts.extend((0..4).rev().map(|place| Bring(B, place)));
    acts.extend((0..4).rev().map(|place| Bring(A, place)));
    acts.extend([Work(A), Write(A, 0), Bring(A, 4), Bring(B, 4), Work(B)]);
    Schedule::new("line-reordering", &halves(), &acts)
}

/// Everything that was ever written is brought again, twice.
fn replay_after_rest() -> Schedule {
    let mut acts = vec![Full(A), Full(A)];
    let rested = after(&halves(), &acts);
    assert!(rested.both_rest(), "two exchanges are enough");
    for place in (0..2 * kept(&rested)).rev() {
        acts.extend([Bring(A, place), Bring(B, place)]);
    }
    acts.extend([Work(A), Work(B), Write(A, 0), Write(B, 0), Full(B)]);
    Schedule::new("line-replay-after-rest", &halves(), &acts)
}

/// The most notes that either site keeps.
fn kept(exchange: &Exchange) -> u16 {
    let kept = Side::BOTH.map(|side| exchange.written(side).len());
    kept.into_iter().max().unwrap_or(0) as u16
}

/// The notes of a session with the same request and halves, but other numbers.
fn foreign_session() -> Schedule {
    let other = Opening {
        session: 6,
        ..halves()
    };
    let exchange = after(&other, &[Full(A), Full(A)]);
    let mut acts = Vec::new();
    for side in Side::BOTH {
        let notes = exchange.written(side).iter();
        acts.extend(notes.map(|&note| Hand(side.other(), note)));
    }
    let again = acts.clone();
    acts.extend([Full(A)]);
    acts.extend(again);
    acts.extend([Full(A), Full(A)]);
    Schedule::new("line-foreign-session", &halves(), &acts)
}

/// A's entry has the minute 100 by itself and 200 with B's name.
fn rising() -> Opening {
    let first = [
        Certificate::authorization(0, 1, &[0], ACCESS_ONLY).until(900),
        Certificate::name(1, 0, 4, &[]).until(100),
        Certificate::name(1, 0, 2, &[1]).until(300),
    ];
    between(&first, &[Certificate::name(2, 1, 4, &[]).until(200)])
}

/// The receipt for A's minute 100 comes when the entry stands at 200: the
/// entry is still to be sent.
fn older_receipt() -> Schedule {
    let mut acts = vec![Work(A), Work(B), Write(A, 0), Write(A, 2_560), Write(B, 0)];
    acts.extend([Bring(A, 0), Bring(A, 1), Bring(B, 0), Bring(B, 1)]);
    acts.extend([Bring(B, 2), Work(A), Bring(B, 1), Bring(B, 2)]);
    acts.extend([Write(A, 0), Write(A, 2_560), Bring(B, 1), Bring(B, 2)]);
    acts.extend([Bring(A, 2), Bring(A, 3), Bring(A, 4), Work(B)]);
    acts.extend([Bring(B, 1), Bring(B, 2), Write(A, 0), Write(A, 2_560)]);
    acts.extend((3..7).map(|place| Bring(B, place)));
    acts.extend([Full(A), Full(A)]);
    let asked = Opening {
        request: Request { at: 50, ..REQUEST },
        ..rising()
    };
    Schedule::new("line-older-receipt", &asked, &acts)
}

/// All notes arrive and no receipt does: the sender is not at rest.
fn receipts_lost() -> Schedule {
    let mut acts = all_of_b(4);
    acts.extend((0..4).map(|place| Bring(B, place)));
    acts.extend([Work(A), Work(B), Write(B, 0), Write(A, 0)]);
    Schedule::new("line-receipts-lost", &halves(), &acts)
}

/// A has everything receipted and was raised since it worked.
fn raised_not_worked() -> Schedule {
    let acts = [
        Work(A),
        Work(B),
        Write(B, 0),
        Bring(B, 0),
        Bring(A, 0),
        Work(A),
        Bring(B, 0),
    ];
    Schedule::new("rest-raised-not-worked", &halves(), &acts)
}

/// Nothing is to be sent from the start, and only working gives rest.
fn rest_without_work() -> Schedule {
    let acts = [
        Write(A, 0),
        Write(B, 0),
        Bring(A, 0),
        Bring(B, 9),
        Work(A),
        Work(B),
    ];
    Schedule::new("rest-needs-work", &between(&[], &[]), &acts)
}

fn held_by(name: &str, first: &[Certificate], second: &[Certificate]) -> Schedule {
    let acts = [Full(A), Full(A), Full(B)];
    Schedule::new(name, &between(first, second), &acts)
}

/// The empty chain: both show the minute without end before they work.
fn owner_is_asker() -> Schedule {
    let mut opening = halves();
    opening.request.owner = 4;
    opening.files[1] = file_of(&[Certificate::authorization(4, 4, &[], ACCESS_ONLY).until(500)]);
    let acts = [Write(A, 0), Work(A), Work(B), Full(B), Full(A)];
    Schedule::new("owner-is-asker", &opening, &acts)
}

/// The sites are opened and nothing is printed.
fn no_acts() -> Schedule {
    Schedule {
        name: "no-acts".to_string(),
        input: halves().bytes(),
    }
}
