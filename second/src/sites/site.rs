//! One site: what it is opened with, what it takes and what it sends.

use super::entry::{number, Entry};
use super::notes::{Kind, Note};
use super::passes::{self, Minutes};
use crate::decision::entries::{ACCESS_ONLY, END, MAY_DELEGATE};
use crate::decision::rules::Rule;
use crate::decision::{self, Places, Request};

/// Why a note is refused.
#[derive(Clone, Copy, PartialEq, Eq, Debug)]
pub enum Refusal {
    OtherSession,
    OutOfRange,
    LaterThanHeld,
}

impl Refusal {
    pub fn number(self) -> u32 {
        match self {
            Refusal::OtherSession => 26,
            Refusal::OutOfRange => 27,
            Refusal::LaterThanHeld => 28,
        }
    }

    pub fn words(self) -> &'static str {
        match self {
            Refusal::OtherSession => "note of another session",
            Refusal::OutOfRange => "note with a field out of range",
            Refusal::LaterThanHeld => "receipt for a later minute than held",
        }
    }
}

/// What a site does with a note that it does not refuse.
#[derive(Clone, Copy, PartialEq, Eq, Debug)]
pub enum Taken {
    /// A raise is answered by this receipt.
    Raise(Note),
    Receipt,
}

#[derive(Clone, Debug)]
pub struct Site {
    request: Request,
    session: u32,
    /// The usable certificates of its own file.
    rules: Vec<Rule>,
    minutes: Minutes,
    receipted: Minutes,
    /// Whether it has worked since it was opened and since the last rise.
    worked: bool,
}

impl Site {
    pub fn open(file: &[u8], request: Request, session: u32) -> Result<Site, decision::Refusal> {
        let rules = decision::usable(file, request, Places::ENOUGH)?;
        let asker = usize::from(request.asker);
        let marks = [MAY_DELEGATE, ACCESS_ONLY];
        let start = Minutes::from(marks.map(|mark| ((asker, mark, END), u32::MAX)));
        Ok(Site {
            request,
            session,
            rules,
            minutes: start.clone(),
            receipted: start,
            worked: false,
        })
    }

    /// Passes over its own file until nothing changes.
    pub fn work(&mut self) {
        self.minutes = passes::settle(&self.rules, &self.minutes);
        self.worked = true;
    }

    pub fn take(&mut self, bytes: &[u8]) -> Result<Taken, Refusal> {
        let note = self.admit(bytes)?;
        if note.kind == Kind::Raise && note.minute > self.minute(note.entry) {
            self.minutes.insert(note.entry, note.minute);
            self.worked = false;
        }
        let receipted = self.receipted.entry(note.entry).or_default();
        *receipted = note.minute.max(*receipted);
        Ok(match note.kind {
            Kind::Raise => Taken::Raise(Note {
                kind: Kind::Receipt,
                ..note
            }),
            Kind::Receipt => Taken::Receipt,
        })
    }

    /// The note in these bytes, unless it is refused.
    pub fn admit(&self, bytes: &[u8]) -> Result<Note, Refusal> {
        let note = Note::read(bytes).ok_or(Refusal::OutOfRange)?;
        if note.session != self.session {
            return Err(Refusal::OtherSession);
        }
        if note.kind == Kind::Receipt && note.minute > self.minute(note.entry) {
            return Err(Refusal::LaterThanHeld);
        }
        Ok(note)
    }

    /// The next note to send, from this entry number on.
    pub fn next(&self, from: usize) -> Option<Note> {
        let open = self.unreceipted().filter(|&entry| number(entry) >= from);
        let entry = open.min_by_key(|&entry| number(entry))?;
        Some(Note {
            session: self.session,
            kind: Kind::Raise,
            entry,
            minute: self.minute(entry),
        })
    }

    /// The entries whose minute is above their receipted minute.
    fn unreceipted(&self) -> impl Iterator<Item = Entry> + '_ {
        let held = self.minutes.iter();
        let open = held.filter(|(entry, &minute)| minute > passes::held(&self.receipted, **entry));
        open.map(|(&entry, _)| entry)
    }

    pub fn rests(&self) -> bool {
        self.worked && self.unreceipted().next().is_none()
    }

    /// The owner's mark 10 minute.
    pub fn shown(&self) -> u32 {
        self.minute((usize::from(self.request.owner), MAY_DELEGATE, END))
    }

    pub fn minute(&self, entry: Entry) -> u32 {
        passes::held(&self.minutes, entry)
    }

    /// The entries that have a minute, by their numbers.
    pub fn numbered(&self) -> Vec<(usize, u32)> {
        let held = self.minutes.iter();
        let mut numbered: Vec<(usize, u32)> = held
            .map(|(&entry, &minute)| (number(entry), minute))
            .collect();
        numbered.sort_unstable();
        numbered
    }

    pub fn session(&self) -> u32 {
        self.session
    }
}
