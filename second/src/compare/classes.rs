//! The classes in which the answers to questions are counted: each must be
//! seen often enough. A class of numbers is named by its least.

use crate::compare::tally::Outcome;

pub const YES: Outcome = (0, "yes");
pub const NO: Outcome = (0, "no");
pub const SETTLED: Outcome = (0, "settled");
pub const KEPT_BACK: Outcome = (15, "a record above 0, not given");
pub const STOCK: [Outcome; 3] = [
    (1, "key listed: the owner"),
    (2, "keys listed or more"),
    (4, "keys listed or more"),
];

/// Passes and steps by the least of each class.
pub const PASSES: [Outcome; 9] = [
    (1, "passes"),
    (2, "passes"),
    (3, "passes"),
    (4, "passes"),
    (5, "passes"),
    (6, "passes or more"),
    (11, "passes or more"),
    (51, "passes or more"),
    (101, "passes or more"),
];
pub const STEPS: [Outcome; 11] = [
    (0, "steps"),
    (1, "step"),
    (2, "steps"),
    (3, "steps"),
    (4, "steps"),
    (5, "steps or more"),
    (11, "steps or more"),
    (51, "steps or more"),
    (199, "steps"),
    (200, "steps"),
    (201, "steps or none"),
];
pub const KNOWN: [Outcome; 6] = [
    (0, "steps or more by the making"),
    (199, "steps by the making"),
    (200, "steps by the making"),
    (201, "steps by the making"),
    (202, "steps by the making"),
    (203, "steps or more by the making"),
];

pub const COUNTS: [Outcome; 7] = [
    (0, "certificates"),
    (1, "certificate"),
    (2, "certificates or more"),
    (17, "certificates or more"),
    (65, "certificates or more"),
    (127, "certificates"),
    (128, "certificates"),
];
pub const MINUTES: [Outcome; 3] = [
    (1, "granted at minute 1"),
    (2, "granted at a minute between"),
    (u32::MAX, "granted at the last minute"),
];

/// The class of a number: the last that begins at it or below.
pub fn class(classes: &[Outcome], number: u32) -> Outcome {
    let below = classes.iter().rev().find(|(least, _)| *least <= number);
    *below.expect("the first class begins at the least number")
}
