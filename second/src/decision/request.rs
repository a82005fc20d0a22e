//! What is asked, and the places lent for the answer.

use super::entries::ENTRIES;

/// Places the chain is lent.
pub const CHAIN_PLACES: usize = 200;
/// The right the short form asks for: open.
pub const SHORT_RIGHTS: u8 = 2;

/// May the asker use these rights on the owner's resource at minute `at`?
#[derive(Clone, Copy, PartialEq, Eq, Debug)]
pub struct Request {
    pub owner: u8,
    pub asker: u8,
    pub rights: u8,
    pub at: u32,
}

/// How many places of each kind the caller lends.
#[derive(Clone, Copy, PartialEq, Eq, Debug)]
pub struct Places {
    pub minutes: usize,
    pub steps: usize,
    pub chain: usize,
}

impl Places {
    pub const ENOUGH: Places = Places {
        minutes: ENTRIES,
        steps: ENTRIES,
        chain: CHAIN_PLACES,
    };

    /// Whether no kind is short.
    pub fn are_enough(self) -> bool {
        self.minutes >= ENTRIES && self.steps >= ENTRIES && self.chain >= CHAIN_PLACES
    }
}

/// The short form of the request.
pub fn short_request(owner: u8, asker: u8, at: u32) -> Request {
    Request {
        owner,
        asker,
        rights: SHORT_RIGHTS,
        at,
    }
}
