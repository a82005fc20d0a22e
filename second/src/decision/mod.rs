//! The decision, as document 01 has it from "Rewriting and usable
//! certificates" to "What comes back", written without sight of the proved
//! code and, where it can be, by other means: minutes by thresholds (`reach`),
//! steps level by level (`fewest`), the passes literally (`passes`), and a
//! chain judged by rewriting configurations (`chains`).

pub mod chains;
pub mod deciding;
pub mod entries;
pub mod fewest;
pub mod lines;
pub mod passes;
pub mod reach;
pub mod request;
pub mod rules;
pub mod verdict;

pub use deciding::{ask, ask_together, may, settle, stock, usable, Decision};
pub use request::{short_request, Places, Request, CHAIN_PLACES, SHORT_RIGHTS};
pub use verdict::{Refusal, Verdict};
