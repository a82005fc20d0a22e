//! What the program `exchange` prints: two sites over a line whose acts are
//! written in the input, and a line of text after each act.

use super::acts::{Act, Side};
use super::entry::number;
use super::notes::{Bytes, Note};
use super::opening::Opening;
use super::site::{Site, Taken};
use crate::decision;
use std::fmt;

/// So many notes and receipts of each site are kept; what it writes past that
/// is lost.
pub const KEPT: usize = 4_096;

/// What an act is answered with.
#[derive(Clone, Copy, PartialEq, Eq, Debug)]
pub enum Said {
    Nothing,
    /// The note for this entry was written.
    Note(usize),
    Receipt,
    Taken,
    Refused(u32),
    /// There was no note to write or to bring.
    None,
}

impl fmt::Display for Said {
    fn fmt(&self, out: &mut fmt::Formatter) -> fmt::Result {
        match self {
            Said::Nothing => Ok(()),
            Said::Note(entry) => write!(out, " NOTE {entry}"),
            Said::Receipt => write!(out, " RECEIPT"),
            Said::Taken => write!(out, " TAKEN"),
            Said::Refused(number) => write!(out, " REFUSED {number}"),
            Said::None => write!(out, " NONE"),
        }
    }
}

/// Both sites, and what each has written so far.
#[derive(Clone)]
pub struct Exchange {
    sites: [Site; 2],
    written: [Vec<Bytes>; 2],
}

/// The whole text that the program prints for this input.
pub fn text(input: &[u8]) -> String {
    let Some((opening, acts)) = Opening::read(input) else {
        return "REFUSED 9\n".to_string();
    };
    match Exchange::open(&opening) {
        Ok(mut exchange) => exchange.run(acts),
        Err((side, refusal)) => {
            let (number, record) = (refusal.number(), refusal.record());
            format!("REFUSED {side} {number} {record}\n")
        }
    }
}

impl Exchange {
    /// Opens A, then B; says which was refused.
    pub fn open(opening: &Opening) -> Result<Exchange, (Side, decision::Refusal)> {
        let open = |side: Side| {
            let file = &opening.files[side as usize];
            Site::open(file, opening.request, opening.session).map_err(|refusal| (side, refusal))
        };
        Ok(Exchange {
            sites: [open(Side::A)?, open(Side::B)?],
            written: [Vec::new(), Vec::new()],
        })
    }

    fn run(&mut self, mut acts: &[u8]) -> String {
        let mut text = String::new();
        while let Some((act, rest)) = Act::read(acts) {
            let said = self.act(act);
            text += &format!("{self}{said}\n");
            acts = rest;
        }
        text
    }

    pub fn act(&mut self, act: Act) -> Said {
        match act {
            Act::Work(side) => {
                self.sites[side as usize].work();
                Said::Nothing
            }
            Act::Write(side, from) => match self.write(side, from.into()) {
                Some(note) => Said::Note(number(note.entry)),
                None => Said::None,
            },
            Act::Bring(from, place) => match self.kept(from, place.into()) {
                Some(note) => self.bring(from.other(), &note),
                None => Said::None,
            },
            Act::Full(first) => {
                self.send_all(first);
                self.send_all(first.other());
                Said::Nothing
            }
            Act::Hand(to, note) => self.bring(to, &note),
        }
    }

    /// The site's next note, which joins what it has written.
    fn write(&mut self, side: Side, from: usize) -> Option<Note> {
        let note = self.site(side).next(from)?;
        self.keep(side, note);
        Some(note)
    }

    fn keep(&mut self, side: Side, note: Note) {
        let written = &mut self.written[side as usize];
        if written.len() < KEPT {
            written.push(note.bytes());
        }
    }

    /// The site's note of this number, counted round what is kept.
    fn kept(&self, side: Side, place: usize) -> Option<Bytes> {
        let written = self.written(side);
        let place = place.checked_rem(written.len())?;
        Some(written[place])
    }

    fn bring(&mut self, to: Side, note: &[u8]) -> Said {
        match self.sites[to as usize].take(note) {
            Ok(Taken::Raise(receipt)) => {
                self.keep(to, receipt);
                Said::Receipt
            }
            Ok(Taken::Receipt) => Said::Taken,
            Err(refusal) => Said::Refused(refusal.number()),
        }
    }

    /// The site works and sends all its notes; each is taken by the other, and
    /// its receipt by the sender.
    fn send_all(&mut self, sender: Side) {
        self.sites[sender as usize].work();
        let mut from = 0;
        while let Some(note) = self.write(sender, from) {
            from = number(note.entry) + 1;
            let taken = self.sites[sender.other() as usize].take(&note.bytes());
            let Ok(Taken::Raise(receipt)) = taken else {
                panic!("a note that a site wrote is not taken: {taken:?}");
            };
            self.keep(sender.other(), receipt);
            let receipted = self.sites[sender as usize].take(&receipt.bytes());
            assert_eq!(receipted, Ok(Taken::Receipt), "a receipt is taken");
        }
    }

    pub fn site(&self, side: Side) -> &Site {
        &self.sites[side as usize]
    }

    /// The notes and receipts of this site that are kept.
    pub fn written(&self, side: Side) -> &[Bytes] {
        &self.written[side as usize]
    }

    pub fn both_rest(&self) -> bool {
        self.sites.iter().all(Site::rests)
    }
}

impl fmt::Display for Exchange {
    fn fmt(&self, out: &mut fmt::Formatter) -> fmt::Result {
        let state = |side: Side| {
            let site = self.site(side);
            let rest = if site.rests() { "rest" } else { "busy" };
            format!("{side} {} {rest}", site.shown())
        };
        write!(out, "{} {}", state(Side::A), state(Side::B))
    }
}
