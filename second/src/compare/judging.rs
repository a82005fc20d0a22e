//! What any run of two sites must keep to, read off the lines it printed: no
//! minute is later than the joint one, and where both rest both show it, from
//! then on.

use crate::sites::acts::Side;

/// What one line shows of both sites.
#[derive(Clone, Copy, PartialEq, Eq, Debug)]
pub struct Shown {
    pub minutes: [u32; 2],
    pub rests: [bool; 2],
}

impl Shown {
    pub fn read(line: &str) -> Result<Shown, String> {
        let words: Vec<&str> = line.split(' ').collect();
        let shown = match words.as_slice() {
            ["A", first, one, "B", second, other, ..] => Shown::of([first, second], [one, other]),
            _ => None,
        };
        shown.ok_or(format!("not a line of two sites: {line}"))
    }

    fn of(minutes: [&str; 2], rests: [&str; 2]) -> Option<Shown> {
        let [first, second] = minutes.map(|minute| minute.parse().ok());
        let [one, other] = rests.map(|word| match word {
            "rest" => Some(true),
            "busy" => Some(false),
            _ => None,
        });
        Some(Shown {
            minutes: [first?, second?],
            rests: [one?, other?],
        })
    }

    pub fn both_rest(&self) -> bool {
        self.rests == [true; 2]
    }
}

/// The lines of a text, which are all of two sites.
pub fn shown(text: &str) -> Result<Vec<Shown>, String> {
    text.lines().map(Shown::read).collect()
}

/// Passes if every line keeps to the joint minute.
pub fn is_safe_and_agrees(shown: &[Shown], joint: u32) -> Result<(), String> {
    let mut rested = false;
    for (number, line) in shown.iter().enumerate() {
        let wrong = |told: &str| Err(format!("line {number} {told} {joint}: {line:?}"));
        rested |= line.both_rest();
        if line.minutes.iter().any(|&minute| minute > joint) {
            return wrong("shows more than the joint minute");
        }
        if rested && line.minutes != [joint; 2] {
            return wrong("comes after a common rest and does not show the joint minute");
        }
        if rested && !line.both_rest() {
            return wrong("is not at rest after a common rest at");
        }
    }
    Ok(())
}

/// Passes if the last line is a common rest.
pub fn ends_at_rest(shown: &[Shown]) -> Result<(), String> {
    match shown.last() {
        Some(last) if last.both_rest() => Ok(()),
        last => Err(format!("the exchanges do not end at rest: {last:?}")),
    }
}

/// Passes if these are the entries of the joint table that have a minute.
pub fn holds_joint(side: Side, held: &[(usize, u32)], joint: &[u32]) -> Result<(), String> {
    let numbered = joint.iter().copied().enumerate();
    let joint: Vec<(usize, u32)> = numbered.filter(|&(_, minute)| minute != 0).collect();
    match held == joint {
        true => Ok(()),
        false => Err(format!(
            "{side} rests with {held:?}, the joint table is {joint:?}"
        )),
    }
}
