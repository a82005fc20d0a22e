//! What stands before the acts in the program's input: owner, asker, rights,
//! T, the session, and each file after its length in 2 bytes.

use super::acts::Act;
use crate::decision::lines::{parts, question};
use crate::decision::Request;

#[derive(Clone, Debug)]
pub struct Opening {
    pub request: Request,
    pub session: u32,
    /// A's file and B's.
    pub files: [Vec<u8>; 2],
}

impl Opening {
    /// The opening and the acts after it; none if the input is too short.
    pub fn read(input: &[u8]) -> Option<(Opening, &[u8])> {
        let (request, rest) = parts(input)?;
        let (session, rest) = rest.split_first_chunk()?;
        let (first, rest) = file(rest)?;
        let (second, acts) = file(rest)?;
        let opening = Opening {
            request,
            session: u32::from_be_bytes(*session),
            files: [first, second].map(<[u8]>::to_vec),
        };
        Some((opening, acts))
    }

    /// The program's whole input: the opening and the acts after it.
    pub fn input(&self, acts: &[Act]) -> Vec<u8> {
        let acts = acts.iter().flat_map(Act::bytes);
        self.bytes().into_iter().chain(acts).collect()
    }

    /// The opening's own bytes.
    pub fn bytes(&self) -> Vec<u8> {
        let mut bytes = question(self.request, &self.session.to_be_bytes());
        for file in &self.files {
            let length = u16::try_from(file.len()).expect("a file is short enough");
            bytes.extend(length.to_be_bytes());
            bytes.extend(file);
        }
        bytes
    }
}

/// The file after its length, and what follows it.
fn file(input: &[u8]) -> Option<(&[u8], &[u8])> {
    let (length, rest) = input.split_first_chunk()?;
    rest.split_at_checked(u16::from_be_bytes(*length).into())
}
