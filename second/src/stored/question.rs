//! A question that is stored, and whether it can be.

use crate::decision::lines::{chains, parts};
use crate::decision::{ask, Places, Verdict};

/// A question for the programs `ask` and `cases`.
pub struct Stored {
    pub question: Vec<u8>,
    /// The line that document 01 or a paper gives.
    pub given: Option<&'static str>,
}

impl Stored {
    /// One whose line is not given.
    pub fn new(question: Vec<u8>) -> Stored {
        let given = None;
        Stored { question, given }
    }
}

/// Whether there is only one line that is right.
pub fn is_definite(question: &[u8]) -> bool {
    let Some((request, file)) = parts(question) else {
        return true;
    };
    match ask(file, request, Places::ENOUGH) {
        Ok(decision) => match decision.verdict {
            Verdict::Granted { .. } => chains(&decision) == 1,
            _ => true,
        },
        Err(_) => true,
    }
}
