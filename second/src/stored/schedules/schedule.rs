//! A stored schedule, and what many of them begin with.

use crate::sites::acts::Act;
use crate::sites::exchange::{text, Exchange};
use crate::sites::opening::Opening;
use crate::stored::judged::{certificates, REQUEST};
use crate::wac::{file_of, Certificate};

/// The session of the stored schedules.
pub const SESSION: u32 = 7;

/// What is stored under a name: the program's input.
pub struct Schedule {
    pub name: String,
    pub input: Vec<u8>,
}

impl Schedule {
    /// A schedule of these acts.
    pub fn new(name: &str, opening: &Opening, acts: &[Act]) -> Schedule {
        Schedule::followed(name, opening, acts, &[])
    }

    /// A schedule with these bytes after its last act.
    pub fn followed(name: &str, opening: &Opening, acts: &[Act], after: &[u8]) -> Schedule {
        Schedule {
            name: name.to_string(),
            input: [opening.input(acts), after.to_vec()].concat(),
        }
    }

    /// The whole text the program is to print.
    pub fn text(&self) -> String {
        text(&self.input)
    }
}

/// P1's request about these two files.
pub fn between(first: &[Certificate], second: &[Certificate]) -> Opening {
    Opening {
        request: REQUEST,
        session: SESSION,
        files: [file_of(first), file_of(second)],
    }
}

/// P11: A holds certificates 0 and 4 of document 01's file, B the others.
pub fn halves() -> Opening {
    let (mut first, mut second) = (Vec::new(), Vec::new());
    for (number, certificate) in certificates().into_iter().enumerate() {
        match number {
            0 | 4 => first.push(certificate),
            _ => second.push(certificate),
        }
    }
    between(&first, &second)
}

/// The sites as these acts leave them.
pub fn after(opening: &Opening, acts: &[Act]) -> Exchange {
    let mut exchange = Exchange::open(opening).expect("a stored opening is not refused");
    for &act in acts {
        exchange.act(act);
    }
    exchange
}
