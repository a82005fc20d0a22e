//! The comparison of the second program with the proved archive, and with the
//! proved program of two sites. Each compared part is a module here with one
//! function that is given the seeds and gives back a report, or says what went
//! wrong. What is compared on is made elsewhere (`making`).

pub mod classes;
pub mod difference;
pub mod files;
pub mod happenings;
#[cfg(feature = "decision")]
pub mod held;
pub mod judging;
pub mod lending;
#[cfg(feature = "decision")]
pub mod questions;
pub mod report;
pub mod schedules;
pub mod tally;

pub use report::Report;

/// A part compares everything it makes from these seeds.
pub type Part = fn(&[u64]) -> Result<Report, String>;

/// The parts by name, in the order they are run.
pub const PARTS: &[(&str, Part)] = &[
    ("files", files::compare),
    #[cfg(feature = "decision")]
    ("questions", questions::compare),
    ("schedules", schedules::compare),
];
