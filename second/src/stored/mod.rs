//! The stored questions for the programs `ask` and `cases`, and the lines the
//! programs are to print for them. The sets, in the order they are stored:
//!
//! - judged: P1 to P10 of document 01, with its lines;
//! - papers: the examples of source documents 000 and 004 as files, with what
//!   the papers say of them;
//! - requests: document 01's file with rights 0 to 17, every asker, owner is
//!   asker, T about every date, 1 and without end, keys 15, 16 and 255;
//! - refused: every number from 9 to 22 that a program can give, alone and
//!   with others above it, both sides of every limit of a record, files
//!   longer than any lawful one (3,000 bytes, and the longest question that
//!   can be stored);
//! - counts: lawful files of 0, 1, 127 and 128 certificates, and of 129;
//! - long: best chains of exactly 199, 200, 201 and 202 steps, of many more,
//!   and of many passes;
//! - random: random files and requests, lawful and damaged.
//!
//! Beside them stand the questions that `ask` does not read to their end
//! (`cut`), each with a name.
//!
//! Which of several shortest best chains is printed is not fixed by document
//! 01, so a question with answer 0 is stored only if it has one such chain.

mod counts;
pub mod cut;
mod judged;
mod papers;
mod question;
mod refused;
mod sampled;
pub mod schedules;

use crate::decision::lines::line;
use question::is_definite;

pub use question::Stored;

/// All sets.
fn sets() -> Vec<Vec<Stored>> {
    vec![
        judged::cases(),
        papers::cases(),
        judged::requests(),
        refused::cases(),
        counts::cases(),
        sampled::long_chains(),
        sampled::random(),
    ]
}

/// All stored questions; those whose line is not fixed are left out.
pub fn questions() -> Vec<Stored> {
    let all = sets().into_iter().flatten();
    all.filter(|stored| is_definite(&stored.question)).collect()
}

/// The standard input of `cases`: each question after its length in 2 bytes.
pub fn cases_input(questions: &[Stored]) -> Vec<u8> {
    let mut input = Vec::new();
    for Stored { question, .. } in questions {
        let length = u16::try_from(question.len()).expect("a stored question is short enough");
        input.extend(length.to_be_bytes());
        input.extend(question);
    }
    input
}

/// The lines for these questions; they must be the given ones where there are.
pub fn lines(questions: &[Stored]) -> Result<String, String> {
    let mut lines = String::new();
    for (number, stored) in questions.iter().enumerate() {
        let found = line(&stored.question);
        match stored.given {
            Some(given) if given != found => {
                return Err(format!("question {number}: given {given}, found {found}"));
            }
            _ => lines += &(found + "\n"),
        }
    }
    Ok(lines)
}
