//! What a question comes to: a verdict, or why it is refused.

use crate::wac;

/// Why a question is refused.
#[derive(Clone, Copy, PartialEq, Eq, Debug)]
pub enum Refusal {
    File(wac::Refusal),
    KeyAboveFifteen,
    RightsOutside,
    MinuteZero,
    PlacesTooFew,
}

impl Refusal {
    pub fn number(self) -> u32 {
        match self {
            Refusal::File(refusal) => refusal.number(),
            Refusal::KeyAboveFifteen => 20,
            Refusal::RightsOutside => 21,
            Refusal::MinuteZero => 22,
            Refusal::PlacesTooFew => 23,
        }
    }

    /// The record's number with 15, else 0.
    pub fn record(self) -> u32 {
        match self {
            Refusal::File(refusal) => refusal.answer().value,
            _ => 0,
        }
    }

    pub fn words(self) -> &'static str {
        match self {
            Refusal::File(refusal) => refusal.words(),
            Refusal::KeyAboveFifteen => "owner or asker above 15",
            Refusal::RightsOutside => "rights 0 or above 15",
            Refusal::MinuteZero => "T is 0",
            Refusal::PlacesTooFew => "a lent place too short",
        }
    }
}

/// What a question that is not refused comes to.
#[derive(Clone, Copy, PartialEq, Eq, Debug)]
pub enum Verdict {
    Granted { minute: u32, steps: u32 },
    NoChain,
    GrantedLong { minute: u32 },
}

impl Verdict {
    pub fn number(self) -> u32 {
        match self {
            Verdict::Granted { .. } => 0,
            Verdict::NoChain => 1,
            Verdict::GrantedLong { .. } => 2,
        }
    }

    pub fn words(self) -> &'static str {
        match self {
            Verdict::Granted { .. } => "granted",
            Verdict::NoChain => "no chain",
            Verdict::GrantedLong { .. } => "granted, every best chain too long",
        }
    }

    pub fn minute(self) -> u32 {
        match self {
            Verdict::Granted { minute, .. } | Verdict::GrantedLong { minute } => minute,
            Verdict::NoChain => 0,
        }
    }

    pub fn steps(self) -> u32 {
        match self {
            Verdict::Granted { steps, .. } => steps,
            _ => 0,
        }
    }
}
