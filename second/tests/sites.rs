//! One site by itself: notes by their bytes, what a receipt counts for, and
//! when it rests.

use second::decision::Request;
use second::sites::notes::{Kind, Note};
use second::sites::{number, Refusal, Site, Taken};
use second::wac::{file_of, Certificate, ACCESS_ONLY};

const REQUEST: Request = Request {
    owner: 0,
    asker: 4,
    rights: 2,
    at: 50,
};

/// Key 1 reads identifier 0 and arrives at the asker: 100 by itself, 300 by
/// way of key 2, whose name is not in the file.
fn site() -> Site {
    let file = file_of(&[
        Certificate::name(1, 0, 4, &[]).until(100),
        Certificate::name(1, 0, 2, &[1]).until(300),
        Certificate::authorization(0, 1, &[0], ACCESS_ONLY),
    ]);
    Site::open(&file, REQUEST, 7).expect("the file is lawful")
}

fn note(kind: Kind, entry: (usize, usize, usize), minute: u32) -> Note {
    Note {
        session: 7,
        kind,
        entry,
        minute,
    }
}

const NAME: (usize, usize, usize) = (1, 0, 4);
const OTHERS: (usize, usize, usize) = (2, 1, 4);

#[test]
fn entries_are_numbered_as_document_01_has_it() {
    assert_eq!(number((0, 0, 0)), 0);
    assert_eq!(number(NAME), 164);
    assert_eq!(number((15, 9, 15)), 2_559);
    assert_eq!(number((0, 10, 16)), 2_560);
    assert_eq!(number((15, 11, 16)), 2_591);
}

#[test]
fn a_note_is_its_twelve_bytes() {
    let bytes = [1, 2, 3, 4, 2, 15, 9, 14, 5, 6, 7, 8];
    let read = Note::read(&bytes).expect("a lawful note");
    assert_eq!(read.session, 0x0102_0304);
    assert_eq!(read.kind, Kind::Receipt);
    assert_eq!(read.entry, (15, 9, 14));
    assert_eq!(read.minute, 0x0506_0708);
    assert_eq!(read.bytes(), bytes);
    assert_eq!(Note::read(&bytes[..11]), None);
    assert_eq!(Note::read(&[&bytes[..], &[0]].concat()), None);
}

#[test]
fn each_field_has_its_limits() {
    let read = |place: usize, fields: &[u8]| {
        let mut bytes = [0, 0, 0, 7, 1, 15, 9, 15, 0, 0, 0, 1];
        bytes[place..place + fields.len()].copy_from_slice(fields);
        Note::read(&bytes).is_some()
    };
    let lawful: [(usize, &[u8]); 4] = [(4, &[1]), (4, &[2]), (6, &[10, 16]), (11, &[255])];
    assert!(lawful.iter().all(|(place, fields)| read(*place, fields)));
    let outside: [(usize, &[u8]); 8] = [
        (4, &[0]),
        (4, &[3]),
        (5, &[16]),
        (6, &[11, 16]),
        (6, &[10, 15]),
        (6, &[10, 17]),
        (7, &[16]),
        (11, &[0]),
    ];
    assert!(!outside.iter().any(|(place, fields)| read(*place, fields)));
}

#[test]
fn a_raise_is_answered_and_not_sent_back() {
    let mut site = site();
    site.work();
    let raise = note(Kind::Raise, OTHERS, 200);
    let receipt = note(Kind::Receipt, OTHERS, 200);
    assert_eq!(site.take(&raise.bytes()), Ok(Taken::Raise(receipt)));
    assert_eq!(site.minute(OTHERS), 200);
    let next = site.next(number(OTHERS)).expect("the owner's entry");
    assert_eq!(next.entry, (0, 10, 16));
}

#[test]
fn a_receipt_counts_for_its_own_minute() {
    let mut site = site();
    site.work();
    assert_eq!(site.next(0), Some(note(Kind::Raise, NAME, 100)));
    assert!(site.take(&note(Kind::Raise, OTHERS, 200).bytes()).is_ok());
    site.work();
    let older = note(Kind::Receipt, NAME, 100).bytes();
    assert_eq!(site.take(&older), Ok(Taken::Receipt));
    assert_eq!(site.next(0), Some(note(Kind::Raise, NAME, 200)));
    let present = note(Kind::Receipt, NAME, 200).bytes();
    assert_eq!(site.take(&present), Ok(Taken::Receipt));
    assert_ne!(site.next(0).map(|next| next.entry), Some(NAME));
}

#[test]
fn rest_wants_work_and_every_receipt() {
    let mut site = Site::open(&file_of(&[]), REQUEST, 7).expect("an empty file is lawful");
    assert!(!site.rests());
    site.work();
    assert!(site.rests());
    let raise = note(Kind::Raise, OTHERS, 200).bytes();
    assert!(site.take(&raise).is_ok());
    assert!(!site.rests());
    site.work();
    assert!(site.rests());
    assert!(site.take(&raise).is_ok());
    assert!(site.rests(), "nothing rose");
}

#[test]
fn grounds_are_looked_for_in_their_order() {
    let mut site = site();
    let later = note(Kind::Receipt, NAME, 1);
    let foreign = Note {
        session: 8,
        ..later
    };
    let mut damaged = foreign.bytes();
    damaged[5] = 16;
    assert_eq!(site.take(&damaged), Err(Refusal::OutOfRange));
    assert_eq!(site.take(&foreign.bytes()), Err(Refusal::OtherSession));
    assert_eq!(site.take(&later.bytes()), Err(Refusal::LaterThanHeld));
}
