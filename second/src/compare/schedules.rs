//! The part "schedules": the program `exchange` on random schedules. Its text
//! is compared with the second program's, and both are held to the joint
//! decision over both files: nothing later at any act, exactly that at every
//! common rest, and rest after enough full exchanges.

use crate::compare::classes::class;
use crate::compare::difference::hex;
use crate::compare::happenings::{from_outside, on_the_line, FATES, SORTS};
use crate::compare::judging::{ends_at_rest, holds_joint, is_safe_and_agrees, shown, Shown};
use crate::compare::report::Report;
use crate::compare::tally::{Outcome, Tally};
use crate::decision::{ask_together, Decision};
use crate::making::halving;
use crate::making::random::Random;
use crate::making::scheduling::{self, Schedule};
use crate::program;
use crate::sites::acts::{Act, Side};
use crate::sites::exchange::text;
use crate::sites::opening::Opening;
use crate::wac::{self, HEAD};

/// Schedules made from each seed, and openings that are mostly refused.
const SCHEDULES_PER_SEED: u64 = 800;
const REFUSED_PER_SEED: u64 = 1_400;

/// What the sites say to an act, by the last words of its line.
const SAID: [Outcome; 7] = [
    (0, "NOTE"),
    (1, "RECEIPT"),
    (2, "TAKEN"),
    (3, "NONE"),
    (26, "REFUSED"),
    (27, "REFUSED"),
    (28, "REFUSED"),
];
const RESTS: [Outcome; 4] = [
    (0, "both busy"),
    (1, "A rests"),
    (2, "B rests"),
    (3, "both rest"),
];
const OPENINGS: [Outcome; 16] = [
    (9, "input too short"),
    (10, "A"),
    (11, "A"),
    (12, "A"),
    (13, "A"),
    (14, "A"),
    (15, "A"),
    (20, "A"),
    (21, "A"),
    (22, "A"),
    (10, "B"),
    (11, "B"),
    (12, "B"),
    (13, "B"),
    (14, "B"),
    (15, "B"),
];
const HALVES: [Outcome; 3] = [
    (0, "one half empty"),
    (1, "equal halves"),
    (2, "other halves"),
];
/// The certificates of both files, by the least of each class.
const COUNTS: [Outcome; 4] = [
    (0, "certificates together or more"),
    (17, "certificates together or more"),
    (65, "certificates together or more"),
    (129, "certificates together or more"),
];
const JOINT: [Outcome; 4] = [
    (0, "not granted"),
    (1, "granted by one file alone"),
    (2, "granted by both files only"),
    (3, "later by both files"),
];
/// Which site begins the full exchanges at the end.
const ORDERS: [Outcome; 2] = [(0, "A first"), (1, "B first")];
/// Full exchanges until both rest, by the least of each class.
const NEEDED: [Outcome; 6] = [
    (0, "full exchanges"),
    (1, "full exchange"),
    (2, "full exchanges"),
    (3, "full exchanges"),
    (4, "full exchanges or more"),
    (10, "full exchanges or more"),
];

struct Schedules {
    tally: Tally,
    schedules: u64,
    openings: u64,
    acts: u64,
    most_needed: usize,
}

pub fn compare(seeds: &[u64]) -> Result<Report, String> {
    program::is_there()?;
    let mut schedules = Schedules {
        tally: Tally::default(),
        schedules: 0,
        openings: 0,
        acts: 0,
        most_needed: 0,
    };
    for &seed in seeds {
        schedules.compare_seed(seed)?;
    }
    let enough = schedules.enough();
    enough.map_err(|told| format!("{told}\n{}", schedules.tally))?;
    Ok(Report {
        compared: format!(
            "{} schedules and {} other openings",
            schedules.schedules, schedules.openings
        ),
        tally: schedules.tally,
        remarks: vec![format!(
            "{} acts; at most {} full exchanges were needed",
            schedules.acts, schedules.most_needed
        )],
    })
}

/// The certificates of both files together.
fn joint(opening: &Opening) -> Decision {
    let files = opening.files.iter();
    let both = files.map(|file| wac::parse(file).expect("the halves are lawful"));
    ask_together(&both.collect::<Vec<_>>().concat(), opening.request)
}

/// Passes if both texts are the same.
fn same(second: &str, proved: &str) -> Result<(), String> {
    if second == proved {
        return Ok(());
    }
    let mut lines = second.lines().zip(proved.lines()).enumerate();
    let differing = lines.find(|(_, (one, other))| one != other);
    Err(match differing {
        Some((number, (one, other))) => {
            format!("line {number}\n  second: {one}\n  proved: {other}")
        }
        None => format!(
            "second prints {} lines, proved {}",
            second.lines().count(),
            proved.lines().count()
        ),
    })
}

impl Schedules {
    fn compare_seed(&mut self, seed: u64) -> Result<(), String> {
        let mut random = Random::new(seed);
        for number in 0..SCHEDULES_PER_SEED {
            let compared = self.compare_schedule(&mut random);
            compared.map_err(|told| format!("seed {seed}, schedule {number}: {told}"))?;
        }
        for number in 0..REFUSED_PER_SEED {
            let compared = self.compare_refused(&mut random);
            compared.map_err(|told| format!("seed {seed}, opening {number}: {told}"))?;
        }
        Ok(())
    }

    fn compare_schedule(&mut self, random: &mut Random) -> Result<(), String> {
        let schedule = scheduling::schedule(random)?;
        let input = schedule.input();
        let told = |told: String| format!("{told}\n  input: {}", hex(&input));
        let second = text(&input);
        let proved = program::exchange(&input).map_err(told)?;
        let joint = joint(&schedule.opening);
        agreed(&schedule, &joint).map_err(told)?;
        for (whose, text) in [("second", &second), ("proved", &proved)] {
            let judged = judged(&schedule, text, &joint);
            judged.map_err(|wrong| told(format!("{whose}: {wrong}")))?;
        }
        self.note(&schedule, &second, &joint)?;
        same(&second, &proved).map_err(told)
    }

    /// An opening that is mostly refused, and some acts.
    fn compare_refused(&mut self, random: &mut Random) -> Result<(), String> {
        let acts = [Act::Full(Side::A), Act::Work(Side::B), Act::Full(Side::B)];
        let mut input = halving::refused(random);
        if Opening::read(&input).is_some() {
            input.extend(acts.iter().flat_map(Act::bytes));
        }
        let second = text(&input);
        let proved = program::exchange(&input)?;
        if let Some(refusal) = second.strip_prefix("REFUSED ") {
            self.tally.note("openings", opening_outcome(refusal));
        }
        self.openings += 1;
        same(&second, &proved).map_err(|told| format!("{told}\n  input: {}", hex(&input)))
    }

    fn note(&mut self, schedule: &Schedule, text: &str, joint: &Decision) -> Result<(), String> {
        for line in text.lines() {
            let shown = Shown::read(line)?;
            let rests = u32::from(shown.rests[0]) + 2 * u32::from(shown.rests[1]);
            self.tally.note("sites", class(&RESTS, rests));
            if let Some(outcome) = said_outcome(line) {
                self.tally.note("acts", outcome);
            }
        }
        for &fate in &schedule.fates {
            self.tally.note("line", on_the_line(fate));
        }
        for &sort in &schedule.outside {
            self.tally.note("outside", from_outside(sort));
        }
        if let Some(Act::Full(first)) = schedule.acts.last() {
            self.tally.note("orders", ORDERS[*first as usize]);
        }
        let needed = class(&NEEDED, schedule.exchanges as u32);
        self.tally.note("exchanges", needed);
        let opening = &schedule.opening;
        let counts = opening.files.iter().map(|file| u32::from(file[5]));
        self.tally.note("halves", halves_outcome(opening));
        self.tally.note("counts", class(&COUNTS, counts.sum()));
        self.tally.note("joint", joint_outcome(opening, joint));
        self.schedules += 1;
        self.acts += schedule.acts.len() as u64;
        self.most_needed = self.most_needed.max(schedule.exchanges);
        Ok(())
    }

    /// Whether every class was seen often enough.
    fn enough(&self) -> Result<(), String> {
        self.tally.enough("acts", &SAID)?;
        self.tally.enough("sites", &RESTS)?;
        self.tally.enough("openings", &OPENINGS)?;
        self.tally.enough("line", &FATES)?;
        self.tally.enough("outside", &SORTS)?;
        self.tally.enough("halves", &HALVES)?;
        self.tally.enough("counts", &COUNTS)?;
        self.tally.enough("joint", &JOINT)?;
        self.tally.enough("orders", &ORDERS)?;
        self.tally.enough("exchanges", &NEEDED)
    }
}

/// Holds a text to what every run must keep to; after forged notes only the
/// rest at the end is left of it.
fn judged(schedule: &Schedule, text: &str, joint: &Decision) -> Result<(), String> {
    let shown = shown(text)?;
    ends_at_rest(&shown)?;
    match schedule.honest {
        true => is_safe_and_agrees(&shown, joint.verdict.minute()),
        false => Ok(()),
    }
}

/// Holds the second program's own tables at the end to the joint table.
fn agreed(schedule: &Schedule, joint: &Decision) -> Result<(), String> {
    let mut sides = Side::BOTH.iter().filter(|_| schedule.honest);
    sides.try_for_each(|&side| {
        let site = schedule.exchange.site(side);
        holds_joint(side, &site.numbered(), &joint.minutes)
    })
}

/// "A 15 3" as the number and the side; "9" alone is an input too short.
fn opening_outcome(refusal: &str) -> Outcome {
    let words: Vec<&str> = refusal.split_whitespace().collect();
    let outcome = OPENINGS.iter().find(|(number, side)| match words[..] {
        [refused, numbered, _] => refused == *side && numbered == number.to_string(),
        _ => *number == 9,
    });
    *outcome.expect("every refusal of an opening is listed")
}

fn said_outcome(line: &str) -> Option<Outcome> {
    let words: Vec<&str> = line.split(' ').skip(6).collect();
    let [said, ..] = words[..] else { return None };
    let refused = |number: u32| words.last() == Some(&number.to_string().as_str());
    let outcome = SAID.iter().find(|(number, words)| match said {
        "REFUSED" => refused(*number),
        _ => said == *words,
    });
    Some(*outcome.expect("every answer to an act is listed"))
}

fn halves_outcome(opening: &Opening) -> Outcome {
    let [first, second] = &opening.files;
    if first.len() == HEAD || second.len() == HEAD {
        HALVES[0]
    } else if first == second {
        HALVES[1]
    } else {
        HALVES[2]
    }
}

/// What both files together give beyond each alone.
fn joint_outcome(opening: &Opening, joint: &Decision) -> Outcome {
    let alone = halving::alone(&opening.files, opening.request);
    match (joint.verdict.minute(), alone) {
        (0, _) => JOINT[0],
        (minute, alone) if minute == alone => JOINT[1],
        (_, 0) => JOINT[2],
        _ => JOINT[3],
    }
}
