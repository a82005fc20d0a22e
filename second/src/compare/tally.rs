//! How often each function gave each answer, and whether that is enough for
//! the comparison to mean something.

use std::fmt;

/// An answer as the tally names it: its number and the ground for it.
pub type Outcome = (u32, &'static str);

pub const ACCEPTED: Outcome = (0, "accepted");

/// Every outcome a function can give must be seen this often.
pub const LEAST: u64 = 100;

struct Line {
    function: &'static str,
    outcome: Outcome,
    times: u64,
}

#[derive(Default)]
pub struct Tally {
    lines: Vec<Line>,
}

impl Tally {
    pub fn note(&mut self, function: &'static str, outcome: Outcome) {
        match self.place(function, outcome) {
            Some(place) => self.lines[place].times += 1,
            None => self.lines.push(Line {
                function,
                outcome,
                times: 1,
            }),
        }
    }

    fn times(&self, function: &'static str, outcome: Outcome) -> u64 {
        let place = self.place(function, outcome);
        place.map_or(0, |place| self.lines[place].times)
    }

    fn place(&self, function: &'static str, outcome: Outcome) -> Option<usize> {
        self.lines
            .iter()
            .position(|line| line.outcome == outcome && line.function == function)
    }

    /// Says which of the outcomes this function can give was seen too rarely.
    pub fn enough(&self, function: &'static str, outcomes: &[Outcome]) -> Result<(), String> {
        for &(number, words) in outcomes {
            let times = self.times(function, (number, words));
            if times < LEAST {
                return Err(format!(
                    "{function} gave {number} ({words}) {times} times, fewer than {LEAST}"
                ));
            }
        }
        Ok(())
    }
}

impl fmt::Display for Tally {
    fn fmt(&self, out: &mut fmt::Formatter) -> fmt::Result {
        let mut lines: Vec<&Line> = self.lines.iter().collect();
        lines.sort_by_key(|line| (line.function, line.outcome));
        for line in lines {
            let (function, (number, words), times) = (line.function, line.outcome, line.times);
            writeln!(out, "  {function:<10} {number:>3} {words:<36} {times:>10}")?;
        }
        Ok(())
    }
}
