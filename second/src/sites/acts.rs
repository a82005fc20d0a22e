//! The acts of an exchange, as their bytes stand in the program's input.

use super::notes::Bytes;
use std::fmt;

#[derive(Clone, Copy, PartialEq, Eq, Debug)]
pub enum Side {
    A,
    B,
}

impl Side {
    pub const BOTH: [Side; 2] = [Side::A, Side::B];

    pub fn other(self) -> Side {
        match self {
            Side::A => Side::B,
            Side::B => Side::A,
        }
    }
}

impl fmt::Display for Side {
    fn fmt(&self, out: &mut fmt::Formatter) -> fmt::Result {
        fmt::Debug::fmt(self, out)
    }
}

#[derive(Clone, Copy, PartialEq, Eq, Debug)]
pub enum Act {
    /// The site works.
    Work(Side),
    /// The site writes its next note from an entry number on.
    Write(Side, u16),
    /// One of the notes this site wrote is brought to the other.
    Bring(Side, u16),
    /// A full exchange, this site first.
    Full(Side),
    /// Bytes from outside are brought to this site.
    Hand(Side, Bytes),
}

impl Act {
    /// The first act of the input and what follows it; none if the input has
    /// ended, the act is above 9 or its bytes are cut off.
    pub fn read(input: &[u8]) -> Option<(Act, &[u8])> {
        let (&number, rest) = input.split_first()?;
        let side = Side::BOTH[usize::from(number % 2)];
        match number / 2 {
            0 => Some((Act::Work(side), rest)),
            1 => numbered(rest, |from| Act::Write(side, from)),
            2 => numbered(rest, |place| Act::Bring(side, place)),
            3 => Some((Act::Full(side), rest)),
            4 => {
                let (note, rest) = rest.split_first_chunk()?;
                Some((Act::Hand(side, *note), rest))
            }
            _ => None,
        }
    }

    pub fn bytes(&self) -> Vec<u8> {
        let second = |side: Side| side as u8;
        match *self {
            Act::Work(side) => vec![second(side)],
            Act::Write(side, from) => [&[2 + second(side)], &from.to_be_bytes()[..]].concat(),
            Act::Bring(side, place) => [&[4 + second(side)], &place.to_be_bytes()[..]].concat(),
            Act::Full(side) => vec![6 + second(side)],
            Act::Hand(side, note) => [&[8 + second(side)], &note[..]].concat(),
        }
    }
}

/// The act with the number in the first two bytes, high byte first.
fn numbered(input: &[u8], act: impl Fn(u16) -> Act) -> Option<(Act, &[u8])> {
    let (number, rest) = input.split_first_chunk()?;
    Some((act(u16::from_be_bytes(*number)), rest))
}
