//! A site, as document 01 has it under "Two sites", with maps in place of
//! tables: an entry that stands in no map has the minute 0.

pub mod acts;
pub mod entry;
pub mod exchange;
pub mod notes;
pub mod opening;
pub mod passes;
pub mod site;

pub use entry::{number, Entry};
pub use site::{Refusal, Site, Taken};
