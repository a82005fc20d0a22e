//! What a part reports.

use super::tally::Tally;

/// What a part saw when it found no difference.
pub struct Report {
    /// How much was compared, in words: "300000 files".
    pub compared: String,
    pub tally: Tally,
    /// Further lines for the reader.
    pub remarks: Vec<String>,
}
