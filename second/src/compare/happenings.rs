//! What happens to notes in a schedule, as the tally names it.

use super::tally::Outcome;
use crate::making::outside::Sort;
use crate::making::scheduling::Fate;

/// What a line does to a note, in the order of `Fate`.
pub const FATES: [Outcome; 6] = [
    (0, "a note is never brought"),
    (1, "a note is brought again"),
    (2, "a note is brought late"),
    (3, "a note is overtaken"),
    (4, "a note is brought at common rest"),
    (5, "a receipt for an older minute"),
];

/// What is brought from outside, in the order of `Sort`.
pub const SORTS: [Outcome; 7] = [
    (0, "damaged"),
    (1, "of another session"),
    (2, "damaged and of another session"),
    (3, "a receipt for a later minute"),
    (4, "a copy of a true note"),
    (5, "any bytes"),
    (6, "forged"),
];

/// What the line did.
pub fn on_the_line(fate: Fate) -> Outcome {
    FATES[fate as usize]
}

/// What came from outside.
pub fn from_outside(sort: Sort) -> Outcome {
    SORTS[sort as usize]
}
