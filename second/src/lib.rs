//! The second program: what document 01 says, written again in plain Rust
//! and without sight of the proved code, and the comparison of the two.

pub mod answer;
pub mod compare;
pub mod decision;
pub mod making;
#[cfg(feature = "decision")]
pub mod plain;
pub mod program;
pub mod proved;
#[cfg(feature = "decision")]
pub mod proved_decision;
pub mod sites;
pub mod stored;
pub mod wac;
