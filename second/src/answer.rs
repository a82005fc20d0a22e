//! What comes back from a call: a number of document 01's table "What comes
//! back" and the value returned with it. 0 stands for an accepted call.

use std::fmt;

#[derive(Clone, Copy, PartialEq, Eq, Debug)]
pub struct Answer {
    pub number: u32,
    pub value: u32,
}

impl Answer {
    pub fn accepted(value: usize) -> Answer {
        Answer::new(0, value)
    }

    pub fn new(number: u32, value: usize) -> Answer {
        let value = u32::try_from(value).expect("a value is small");
        Answer { number, value }
    }

    /// The proved archive gives number and value in one: number × 65,536 + value.
    pub fn unpack(packed: u32) -> Answer {
        Answer {
            number: packed / 65_536,
            value: packed % 65_536,
        }
    }
}

impl fmt::Display for Answer {
    fn fmt(&self, out: &mut fmt::Formatter) -> fmt::Result {
        write!(out, "number {} value {}", self.number, self.value)
    }
}
