//! The stored schedules for the program `exchange`, each with a name. The
//! sets, in the order they are made:
//!
//! - judged: P11 of document 01 and its neighbours;
//! - openings: every number by which an opening is refused, on either side;
//! - notes: every number by which a note is refused, on both sides of every
//!   limit of its fields;
//! - lines: what a line does to notes, and what a site must not do then;
//! - limits: full lists, acts that end the run, the last entry numbers, full
//!   files, and a name handed on between the sites;
//! - sampled: random schedules.

mod judged;
mod limits;
mod lines;
mod notes;
mod openings;
mod sampled;
mod schedule;

pub use judged::eleventh;
pub use schedule::Schedule;

/// All stored schedules.
pub fn schedules() -> Vec<Schedule> {
    let sets = [
        judged::schedules(),
        openings::schedules(),
        notes::schedules(),
        lines::schedules(),
        limits::schedules(),
        sampled::schedules(),
    ];
    sets.into_iter().flatten().collect()
}
