//! The proved archive's functions for the decision, as the linker sees them,
//! and safe ways to call them. A lent slice passes as its pointer and then
//! its length.

use crate::answer::Answer;
use crate::decision::Request;
use std::fmt;

extern "C" {
    fn decision_ask(
        file: *const u8,
        length: usize,
        owner: u8,
        asker: u8,
        rights: u8,
        at: u32,
        minutes: *mut u32,
        minutes_length: usize,
        steps: *mut u32,
        steps_length: usize,
        chain: *mut u8,
        chain_length: usize,
    ) -> u64;
    fn decision_short(
        file: *const u8,
        length: usize,
        owner: u8,
        asker: u8,
        at: u32,
        minutes: *mut u32,
        minutes_length: usize,
        steps: *mut u32,
        steps_length: usize,
        chain: *mut u8,
        chain_length: usize,
    ) -> u64;
    fn decision_may(file: *const u8, length: usize, owner: u8, asker: u8, at: u32) -> u32;
    fn decision_stock(file: *const u8, length: usize, owner: u8, at: u32) -> u32;
    fn decision_settle(
        file: *const u8,
        length: usize,
        owner: u8,
        asker: u8,
        rights: u8,
        at: u32,
        minutes: *mut u32,
        minutes_length: usize,
    ) -> u64;
}

/// A verdict in parts. The archive gives it in one number: number × 2^56 +
/// steps × 2^48 + passes × 2^32 + minute.
#[derive(Clone, Copy, PartialEq, Eq, Debug)]
pub struct Told {
    pub number: u32,
    pub steps: u32,
    pub passes: u32,
    /// The record's number with 15.
    pub minute: u32,
}

impl Told {
    pub fn unpack(packed: u64) -> Told {
        Told {
            number: (packed >> 56) as u32,
            steps: (packed >> 48 & 0xFF) as u32,
            passes: (packed >> 32 & 0xFFFF) as u32,
            minute: packed as u32,
        }
    }
}

impl fmt::Display for Told {
    fn fmt(&self, out: &mut fmt::Formatter) -> fmt::Result {
        let Told {
            number,
            steps,
            passes,
            minute,
        } = self;
        write!(
            out,
            "number {number} minute {minute} steps {steps} passes {passes}"
        )
    }
}

/// The places lent to a question.
pub struct LentPlaces<'a> {
    pub minutes: &'a mut [u32],
    pub steps: &'a mut [u32],
    pub chain: &'a mut [u8],
}

pub fn ask(file: &[u8], request: Request, lent: LentPlaces) -> Told {
    // Safety: each pointer and length are those of one slice; the file is only
    // read, the other three are lent for this call alone.
    Told::unpack(unsafe {
        decision_ask(
            file.as_ptr(),
            file.len(),
            request.owner,
            request.asker,
            request.rights,
            request.at,
            lent.minutes.as_mut_ptr(),
            lent.minutes.len(),
            lent.steps.as_mut_ptr(),
            lent.steps.len(),
            lent.chain.as_mut_ptr(),
            lent.chain.len(),
        )
    })
}

/// The short form: the request's rights are not passed on.
pub fn ask_short(file: &[u8], request: Request, lent: LentPlaces) -> Told {
    // Safety: as for `ask`.
    Told::unpack(unsafe {
        decision_short(
            file.as_ptr(),
            file.len(),
            request.owner,
            request.asker,
            request.at,
            lent.minutes.as_mut_ptr(),
            lent.minutes.len(),
            lent.steps.as_mut_ptr(),
            lent.steps.len(),
            lent.chain.as_mut_ptr(),
            lent.chain.len(),
        )
    })
}

/// The read screen: value 1 for yes.
pub fn may(file: &[u8], owner: u8, asker: u8, at: u32) -> Answer {
    // Safety: pointer and length are those of one slice, which is only read.
    Answer::unpack(unsafe { decision_may(file.as_ptr(), file.len(), owner, asker, at) })
}

/// The stock list: value is the sum of 2^k over the keys k that get yes.
pub fn stock(file: &[u8], owner: u8, at: u32) -> Answer {
    // Safety: pointer and length are those of one slice, which is only read.
    Answer::unpack(unsafe { decision_stock(file.as_ptr(), file.len(), owner, at) })
}

/// Passes over the first 2,592 of `minutes`. The whole low part is the number
/// of passes, or the record.
pub fn settle(file: &[u8], request: Request, minutes: &mut [u32]) -> (u32, u64) {
    // Safety: each pointer and length are those of one slice; the file is only
    // read, the minutes are lent for this call alone.
    let packed = unsafe {
        decision_settle(
            file.as_ptr(),
            file.len(),
            request.owner,
            request.asker,
            request.rights,
            request.at,
            minutes.as_mut_ptr(),
            minutes.len(),
        )
    };
    ((packed >> 56) as u32, packed & ((1 << 56) - 1))
}
