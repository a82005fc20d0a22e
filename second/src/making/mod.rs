//! Makes what is asked, compared and stored, from seeds: files and questions
//! about them, the openings of two sites and their schedules. The comparisons
//! import from here, and nothing here from them.

pub mod asking;
pub mod dense;
pub mod files;
pub mod halving;
pub mod limits;
pub mod long;
pub mod outside;
pub mod question;
pub mod random;
pub mod scheduling;
pub mod tables;
