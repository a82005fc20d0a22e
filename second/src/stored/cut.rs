//! Questions that are about as long as what `ask` reads of its input, or far
//! longer, each with a name. Their files go on after the last of 128 lawful
//! certificates; cut off there, they would be granted.

use super::judged::{certificates, REQUEST};
use crate::decision::lines::{line, question};
use crate::decision::Request;
use crate::wac::{file_of, MOST};

/// What `ask` reads of its input, and no more.
pub const READ: usize = 4_096;
/// More than any buffer of the programs holds.
pub const FAR: usize = 70_000;

pub struct Cut {
    pub name: String,
    pub question: Vec<u8>,
}

impl Cut {
    fn new(name: &str, length: usize, request: Request, change: (usize, u8)) -> Cut {
        let mut file = endless(length);
        file[change.0] = change.1;
        let mut question = question(request, &file);
        question.truncate(length);
        Cut {
            name: format!("{length}{name}"),
            question,
        }
    }

    /// The line for the whole input.
    pub fn text(&self) -> String {
        line(&self.question) + "\n"
    }
}

/// A head that counts 128, and certificates of document 01's file again and
/// again, for so many bytes or more.
fn endless(length: usize) -> Vec<u8> {
    let records = file_of(&certificates())[6..].to_vec();
    let mut file = file_of(&[]);
    file[5] = MOST as u8;
    while file.len() < length {
        file.extend(&records);
    }
    file
}

/// A lawful request and head at each length; past the cut also a mark, a
/// version, a count and a request that are not.
pub fn questions() -> Vec<Cut> {
    let lawful = (5, MOST as u8);
    let lengths = [READ - 1, READ, READ + 1, FAR];
    let mut all: Vec<Cut> = lengths
        .iter()
        .map(|&length| Cut::new("", length, REQUEST, lawful))
        .collect();
    for (name, change) in [
        ("-mark", (2, 66)),
        ("-version", (4, 2)),
        ("-count", (5, 129)),
    ] {
        all.push(Cut::new(name, READ + 1, REQUEST, change));
    }
    let outside = Request {
        owner: 16,
        ..REQUEST
    };
    all.push(Cut::new("-owner", READ + 1, outside, lawful));
    all
}
